//! Grammatical trees in which every mark and every rule of the transform
//! comes up often.

mod dotted;
mod namespaces;
mod written;

pub use dotted::dotted;
pub use namespaces::nested;
pub use written::dress;
pub use written::written;

use super::Rng;
use crate::grammar::MAX_DEPTH;
use crate::record::Rec;
use crate::record::rec;

const WELL_KNOWN: [&str; 16] = [
  "asyncDispose",
  "asyncIterator",
  "dispose",
  "hasInstance",
  "isConcatSpreadable",
  "iterator",
  "match",
  "matchAll",
  "metadata",
  "replace",
  "search",
  "species",
  "split",
  "toPrimitive",
  "toStringTag",
  "unscopables",
];

const SYMBOLS: [&[u8]; 14] = [
  b"a",
  b"b",
  b"c",
  b"a1",
  b"Array",
  b"ReadonlyArray",
  b"undefined",
  b"NaN",
  b"Infinity",
  b"Object",
  b"Symbol",
  b"",
  b"\xc3\xa9",
  b"\xff\x00",
];

const KEYWORDS: [&str; 11] = [
  "any",
  "string",
  "number",
  "boolean",
  "bigint",
  "null",
  "undefined",
  "void",
  "unknown",
  "never",
  "",
];

/// Makes one tree.
struct Tree<'r> {
  rng: &'r mut Rng,
  unresolved: u32,
  /// Names that declarations and references share: context and symbol.
  names: Vec<(u32, &'static [u8])>,
  /// How many records may still be made before only leaves are.
  left: usize,
  /// Chances, in a hundred: `Op`s after the parts, flags without a name, a
  /// `No` with a head.
  ops: usize,
  stray: usize,
  heads: usize,
}

/// An accepted tree of about `size` records, and the unresolved context.
pub fn tree(rng: &mut Rng, size: usize) -> (Rec, u32) {
  let mut make = Tree::new(rng, size);
  let count = match make.rng.percent(2) {
    true => 0,
    false => 1 + make.rng.below(1 + size / 4).min(7),
  };
  let mut items = make.many(count, |make| make.item(1));
  if make.rng.percent(30) {
    let (declared, used) = make.prescanned();
    let at = make.rng.below(items.len() + 1);
    items.insert(at, declared);
    let at = make.rng.below(items.len() + 1);
    items.insert(at, used);
  }
  let root = make.done("Mo", 0, items);
  debug_assert!(root.depth() <= MAX_DEPTH);
  (root, make.unresolved)
}

impl<'r> Tree<'r> {
  fn new(rng: &'r mut Rng, size: usize) -> Tree<'r> {
    let unresolved = *rng.one_of(&[0, 1, 1, 1, 2, 7, u32::MAX]);
    let contexts = [0, 1, 2, 3, unresolved, unresolved.wrapping_add(1)];
    let mut names = vec![];
    for _ in 0..4 {
      let symbol = *rng.one_of(&SYMBOLS[..6]);
      names.push((*rng.one_of(&contexts), symbol));
    }
    let noise = *rng.one_of(&[0, 0, 1, 3]);
    Tree {
      rng,
      unresolved,
      names,
      left: size,
      ops: 4 * noise,
      stray: 6 * noise,
      heads: 10 * noise,
    }
  }

  fn range(&mut self) -> (u32, u32) {
    match self.rng.below(20) {
      0..5 => (0, 0),
      5 => (u32::MAX - 1, u32::MAX),
      6 => {
        let at = self.rng.below(70_000) as u32;
        (at, at + self.rng.below(70_000) as u32)
      }
      _ => {
        let at = self.rng.below(24) as u32;
        (at, at + self.rng.below(8) as u32)
      }
    }
  }

  fn many(
    &mut self,
    count: usize,
    mut each: impl FnMut(&mut Self) -> Rec,
  ) -> Vec<Rec> {
    (0..count).map(|_| each(self)).collect()
  }

  /// A record with these named flags and parts, and whatever else it may have.
  fn done(&mut self, mark: &str, flags: u8, mut parts: Vec<Rec>) -> Rec {
    self.left = self.left.saturating_sub(1);
    if self.rng.percent(self.ops) {
      let count = 1 + self.rng.below(2);
      parts.extend(self.many(count, |make| make.op(2)));
    }
    let (start, end) = self.range();
    rec(mark, parts)
      .with_flags(flags ^ self.stray(mark))
      .at(start, end)
  }

  /// Flags without a name: those that the mark's own do not use.
  fn stray(&mut self, mark: &str) -> u8 {
    if !self.rng.percent(self.stray) {
      return 0;
    }
    let named = match mark {
      "Vd" | "Fu" | "Cp" => 3,
      "Me" | "Ps" => 7,
      "Fd" | "Cd" | "En" | "Ns" | "Ix" | "Pb" | "Po" | "Bl" | "Id" | "Qu" => 1,
      _ => 0,
    };
    self.rng.below(256) as u8 & !named
  }

  fn op(&mut self, depth: usize) -> Rec {
    let count = if depth > 0 { self.rng.below(3) / 2 } else { 0 };
    let kids = self.many(count, |make| make.op(depth - 1));
    let texts = [b"" as &[u8], b"", b"x", b"{ }", b"\xff"];
    let text = *self.rng.one_of(&texts);
    let (start, end) = self.range();
    let flags = self.stray("Op");
    rec("Op", kids)
      .with_text(text)
      .with_flags(flags)
      .at(start, end)
  }

  fn no(&mut self) -> Rec {
    let no = rec("No", vec![]);
    if !self.rng.percent(self.heads) {
      return no;
    }
    let (start, end) = self.range();
    no.with_flags(self.rng.below(256) as u8).at(start, end)
  }

  fn op_option(&mut self, chance: usize) -> Rec {
    match self.rng.percent(chance) {
      true => self.op(1),
      false => self.no(),
    }
  }

  fn flag(&mut self, bit: u8) -> u8 {
    if self.rng.percent(50) { bit } else { 0 }
  }

  /// Whether to make only leaves from here.
  fn low(&self, depth: usize) -> bool {
    self.left == 0 || depth > 40
  }

  // Items.

  fn item(&mut self, depth: usize) -> Rec {
    match self.rng.weighted(&[
      (6, "Im"),
      (4, "St"),
      (22, "Ed"),
      (12, "Xd"),
      (16, "Xe"),
      (60, "declaration"),
    ]) {
      "Im" => self.done("Im", 0, vec![]),
      "St" => self.done("St", 0, vec![]),
      "Ed" => {
        let kid = self.declaration(depth + 1);
        self.done("Ed", 0, vec![kid])
      }
      "Xd" => {
        let kid = match self.rng.weighted(&[(4, "Cx"), (4, "Fx"), (1, "In")]) {
          "Cx" => self.class_expr(depth + 1),
          "Fx" => self.fn_expr(depth + 1),
          _ => self.done("In", 0, vec![]),
        };
        self.done("Xd", 0, vec![kid])
      }
      "Xe" => {
        let kid = match self.rng.percent(25) {
          true => self.ident(),
          false => self.expression(depth + 1),
        };
        self.done("Xe", 0, vec![kid])
      }
      _ => self.declaration(depth),
    }
  }

  fn declaration(&mut self, depth: usize) -> Rec {
    match self.rng.weighted(&[
      (12, "Fd"),
      (14, "Cd"),
      (34, "Vd"),
      (5, "Us"),
      (10, "En"),
      (if depth < 16 { 12 } else { 0 }, "Ns"),
      (3, "In"),
      (3, "Ty"),
    ]) {
      "Fd" => {
        let flags = self.flag(1);
        let parts = vec![self.name(), self.function(depth + 1)];
        self.done("Fd", flags, parts)
      }
      "Cd" => {
        let flags = self.flag(1);
        let parts = vec![self.name(), self.class(depth + 1)];
        self.done("Cd", flags, parts)
      }
      "Vd" => {
        let flags = self.flag(1) | if self.rng.percent(75) { 2 } else { 0 };
        let count = self.rng.below(4).max(self.rng.below(2));
        let parts = self.many(count, |make| make.declarator(depth + 1));
        self.done("Vd", flags, parts)
      }
      "Us" => self.done("Us", 0, vec![]),
      "En" => {
        let flags = self.flag(1);
        let mut parts = vec![self.name()];
        let count = self.rng.below(5);
        parts.extend(self.many(count, |make| make.enum_member(depth + 1)));
        self.done("En", flags, parts)
      }
      "Ns" => {
        let flags = self.flag(1);
        let id = self.op(1);
        let body = match self.rng.percent(10) {
          true => self.no(),
          false => self.namespace_body(depth + 1),
        };
        self.done("Ns", flags, vec![id, body])
      }
      mark => self.done(mark, 0, vec![]),
    }
  }

  /// An item that declares a name in one of the ways that the prescan looks
  /// for, or nearly, and an item that uses it.
  fn prescanned(&mut self) -> (Rec, Rec) {
    let (context, symbol) = self.names[0];
    let (mut declared, used) = (self.declares(), self.uses());
    // Mostly the same name on both sides, and mostly at module level.
    declared.each_mut(&mut |r| {
      if r.is("Id") && r.text.is_empty() {
        r.text = context.to_le_bytes().to_vec();
        r.text.extend(symbol);
      }
    });
    match self.rng.below(10) {
      0 => {
        let block = self.done("Nb", 0, vec![declared]);
        let parts = vec![self.op(0), block];
        declared = self.done("Ns", 0, parts);
      }
      1..5 if !declared.is("Xd") => {
        declared = self.done("Ed", 0, vec![declared]);
      }
      _ => {}
    }
    (declared, used)
  }

  /// A declaration whose name is still empty.
  fn declares(&mut self) -> Rec {
    let name = self.done("Id", 0, vec![]);
    let mut flags = 2;
    let (ty, init) = match self.rng.below(12) {
      0 => {
        let parts = vec![name, self.function(2)];
        return self.done("Fd", 0, parts);
      }
      1 | 2 => {
        let parts = vec![name, self.class(2)];
        return self.done("Cd", 0, parts);
      }
      3 => {
        let parts = vec![name, self.class(3)];
        let kid = self.done("Cx", 0, parts);
        return self.done("Xd", 0, vec![kid]);
      }
      4 => {
        let parts = vec![name, self.function(3)];
        let kid = self.done("Fx", 0, parts);
        return self.done("Xd", 0, vec![kid]);
      }
      5..8 => (self.array_type(3), self.no()),
      8..11 => (self.no(), self.array_init(3)),
      _ => (self.no(), self.expression(3)),
    };
    if self.rng.percent(10) {
      flags = 0;
    }
    let pattern = self.done("Bd", 0, vec![name, ty]);
    let declarator = self.done("Vr", 0, vec![pattern, init]);
    self.done("Vd", flags, vec![declarator])
  }

  /// A type that is an array's, or nearly.
  fn array_type(&mut self, depth: usize) -> Rec {
    match self.rng.below(8) {
      0 => self.done("Ay", 0, vec![]),
      1 => self.done("Tu", 0, vec![]),
      2 => {
        let parts = vec![self.array_type(depth + 1)];
        self.done("Ro", 0, parts)
      }
      3 => self.done("Ot", 0, vec![]),
      4..7 => {
        let contexts = [self.unresolved, 0, 2];
        let context = *self.rng.one_of(&contexts);
        let symbol = *self.rng.one_of(&[
          b"Array" as &[u8],
          b"Array",
          b"ReadonlyArray",
          b"ReadonlyArray",
          b"array",
        ]);
        let name = match self.rng.percent(90) {
          true => self.named(context, symbol),
          false => self.op(0).with_text(symbol),
        };
        let parts = vec![name, self.op_option(30)];
        self.done("Rf", 0, parts)
      }
      _ => self.ts_type(depth),
    }
  }

  /// An expression that is an array literal's, or nearly.
  fn array_init(&mut self, depth: usize) -> Rec {
    match self.rng.below(9) {
      0 | 1 => self.done("Ar", 0, vec![]),
      2 => {
        let parts = vec![self.array_init(depth + 1)];
        self.done("Pr", 0, parts)
      }
      3 => {
        let parts = vec![self.array_init(depth + 1)];
        self.done("Tc", 0, parts)
      }
      4 => {
        let parts = vec![self.array_init(depth + 1), self.ts_type(depth + 1)];
        self.done("Ts", 0, parts)
      }
      5 | 6 => {
        let parts = vec![self.leaf(), self.array_type(depth + 1)];
        self.done("As", 0, parts)
      }
      7 => {
        let mark = *self.rng.one_of(&["Ta", "Nn"]);
        let mut parts = vec![self.array_init(depth + 1)];
        if mark == "Ta" {
          parts.push(self.array_type(depth + 1));
        }
        self.done(mark, 0, parts)
      }
      _ => self.expression(depth),
    }
  }

  /// An item that uses the first name.
  fn uses(&mut self) -> Rec {
    let (context, symbol) = self.names[0];
    let name = match self.rng.percent(90) {
      true => self.named(context, symbol),
      false => self.named(context.wrapping_add(1), symbol),
    };
    let mut expr = match self.rng.below(8) {
      0..4 => {
        let spread = self.done("Sp", 0, vec![name]);
        self.done("Ar", 0, vec![spread])
      }
      4 => {
        let parts = vec![name, self.op_option(20)];
        self.done("Ne", 0, parts)
      }
      5 => {
        let shorthand = self.done("Sh", 0, vec![name]);
        self.done("Ob", 0, vec![shorthand])
      }
      _ => name,
    };
    if self.rng.percent(30) {
      expr = self.done("Tc", 0, vec![expr]);
    }
    let pattern = self.binding(3, false);
    let declarator = self.done("Vr", 0, vec![pattern, expr]);
    let flags = self.flag(2);
    self.done("Vd", flags, vec![declarator])
  }

  fn namespace_body(&mut self, depth: usize) -> Rec {
    if self.rng.percent(35) {
      let parts = vec![self.op(1), self.namespace_body(depth + 1)];
      return self.done("Nd", 0, parts);
    }
    let count = if self.low(depth) {
      0
    } else {
      self.rng.below(4)
    };
    let parts = self.many(count, |make| make.item(depth + 1));
    self.done("Nb", 0, parts)
  }

  fn declarator(&mut self, depth: usize) -> Rec {
    let pattern = match self.rng.percent(85) {
      true => {
        let typed = self.rng.percent(25);
        self.binding(depth + 1, typed)
      }
      false => self.pattern(depth + 1),
    };
    let init = match self.rng.percent(85) {
      true => self.expression(depth + 1),
      false => self.no(),
    };
    self.done("Vr", 0, vec![pattern, init])
  }

  fn enum_member(&mut self, depth: usize) -> Rec {
    let id = self.op(1);
    let init = match self.rng.percent(85) {
      true => self.enum_value(depth + 1),
      false => self.no(),
    };
    self.done("Em", 0, vec![id, init])
  }

  /// Expressions as enum members have them, valid and not.
  fn enum_value(&mut self, depth: usize) -> Rec {
    if self.low(depth) {
      return self.leaf();
    }
    match self.rng.weighted(&[
      (6, "leaf"),
      (4, "Mb"),
      (4, "Oc"),
      (5, "Bn"),
      (4, "Te"),
      (4, "Pr"),
      (4, "As"),
      (4, "Ta"),
      (3, "any"),
    ]) {
      "leaf" => self.leaf(),
      "Mb" => self.enum_member_of(depth),
      "Oc" => {
        let kid = match self.rng.percent(80) {
          true => self.enum_member_of(depth + 1),
          false => self.op(1),
        };
        self.done("Oc", 0, vec![kid])
      }
      "Bn" => {
        let parts =
          vec![self.enum_value(depth + 1), self.enum_value(depth + 1)];
        self.done("Bn", 0, parts)
      }
      "Te" => {
        let count = self.rng.below(3);
        let mut parts = self.many(count, |make| make.quasi());
        let count = self.rng.below(3);
        parts.extend(self.many(count, |make| make.enum_value(depth + 1)));
        self.done("Te", 0, parts)
      }
      "Pr" => {
        let parts = vec![self.enum_value(depth + 1)];
        self.done("Pr", 0, parts)
      }
      mark @ ("As" | "Ta") => {
        let ty = match self.rng.below(10) {
          0..5 => self.literal_type(),
          5..8 => self.done("Ot", 0, vec![]),
          _ => self.ts_type(depth + 1),
        };
        let parts = vec![self.enum_value(depth + 1), ty];
        self.done(mark, 0, parts)
      }
      _ => self.expression(depth),
    }
  }

  fn enum_member_of(&mut self, depth: usize) -> Rec {
    let object = self.enum_value(depth + 1);
    let prop = match self.rng.percent(60) {
      true => self.ident_name(),
      false => self.op(1),
    };
    self.done("Mb", 0, vec![object, prop])
  }

  // Functions and classes.

  fn type_option(&mut self, depth: usize, chance: usize) -> Rec {
    match self.rng.percent(chance) {
      true => self.ts_type(depth),
      false => self.no(),
    }
  }

  fn function(&mut self, depth: usize) -> Rec {
    let flags = self.flag(1) | self.flag(2);
    let mut parts = vec![
      self.op_option(25),
      self.type_option(depth + 1, 50),
      self.op_option(70),
    ];
    let count = self.few(depth, 4);
    parts.extend(self.many(count, |make| make.param(depth + 1)));
    self.done("Fu", flags, parts)
  }

  fn few(&mut self, depth: usize, limit: usize) -> usize {
    if self.low(depth) {
      0
    } else {
      self.rng.below(limit)
    }
  }

  fn param(&mut self, depth: usize) -> Rec {
    let parts = vec![self.pattern(depth + 1)];
    self.done("Pa", 0, parts)
  }

  fn class(&mut self, depth: usize) -> Rec {
    let mut parts = vec![self.op_option(30)];
    let count = self.few(depth, 6);
    parts.extend(self.many(count, |make| make.member(depth + 1)));
    self.done("Cl", 0, parts)
  }

  fn member(&mut self, depth: usize) -> Rec {
    match self.rng.weighted(&[
      (8, "Co"),
      (14, "Me"),
      (16, "Cp"),
      (3, "Ix"),
      (4, "Dm"),
    ]) {
      "Co" => {
        let mut parts = vec![self.op_option(60)];
        let count = self.few(depth, 4);
        parts.extend(self.many(count, |make| match make.rng.percent(50) {
          true => make.param(depth + 1),
          false => make.param_prop(depth + 1),
        }));
        self.done("Co", 0, parts)
      }
      "Me" => {
        let flags = *self.rng.one_of(&[0, 0, 1, 1, 2, 3]) | self.flag(4);
        let parts = vec![self.key(depth + 1), self.function(depth + 1)];
        self.done("Me", flags, parts)
      }
      "Cp" => {
        let flags = self.flag(1) | self.flag(2);
        let mut parts =
          vec![self.key(depth + 1), self.type_option(depth + 1, 30)];
        parts.push(match self.rng.percent(75) {
          true => self.expression(depth + 1),
          false => self.no(),
        });
        self.done("Cp", flags, parts)
      }
      "Ix" => {
        let flags = self.flag(1);
        self.done("Ix", flags, vec![])
      }
      _ => self.done("Dm", 0, vec![]),
    }
  }

  fn param_prop(&mut self, depth: usize) -> Rec {
    let kid = match self.rng.percent(50) {
      true => {
        let typed = self.rng.percent(40);
        self.binding(depth + 1, typed)
      }
      false => {
        let left = match self.rng.percent(75) {
          true => {
            let typed = self.rng.percent(40);
            self.binding(depth + 2, typed)
          }
          false => loop {
            let left = self.pattern(depth + 2);
            if !left.is("Pb") && !left.is("Po") {
              break left;
            }
          },
        };
        let parts = vec![left, self.expression(depth + 2)];
        self.done("Ag", 0, parts)
      }
    };
    self.done("Pp", 0, vec![kid])
  }

  fn key(&mut self, depth: usize) -> Rec {
    match self.rng.weighted(&[
      (5, "Ki"),
      (3, "Ss"),
      (3, "Nu"),
      (3, "Bi"),
      (14, "Kc"),
    ]) {
      "Ki" => self.ident_name(),
      "Kc" => {
        let parts = vec![self.key_expression(depth + 1)];
        self.done("Kc", 0, parts)
      }
      mark => self.literal(mark),
    }
  }

  /// What stands in a computed key: what becomes one, and what does not, under
  /// the marks that are looked through.
  fn key_expression(&mut self, depth: usize) -> Rec {
    match self.rng.weighted(&[
      (14, "symbol"),
      (8, "literal"),
      (4, "Id"),
      (if self.low(depth) { 0 } else { 12 }, "through"),
      (3, "any"),
    ]) {
      "symbol" => self.symbol_member(depth),
      "literal" => self.leaf(),
      "Id" => self.ident(),
      "through" => {
        let inner = self.key_expression(depth + 1);
        match *self.rng.one_of(&["Pr", "Ta", "Tc", "Nn", "As", "Ts", "Te"]) {
          mark @ ("Ta" | "As" | "Ts") => {
            let parts = vec![inner, self.ts_type(depth + 1)];
            self.done(mark, 0, parts)
          }
          "Te" => {
            let mut parts = vec![];
            if self.rng.percent(20) {
              parts.push(self.quasi());
            }
            parts.push(inner);
            if self.rng.percent(20) {
              parts.push(self.leaf());
            }
            self.done("Te", 0, parts)
          }
          mark => self.done(mark, 0, vec![inner]),
        }
      }
      _ => self.expression(depth),
    }
  }

  /// `Symbol.iterator` and its like, right and nearly right.
  fn symbol_member(&mut self, depth: usize) -> Rec {
    let mut object = self.named(self.unresolved, b"Symbol");
    match self.rng.below(12) {
      0 => object = self.named(self.unresolved.wrapping_add(1), b"Symbol"),
      1 => object = self.named(self.unresolved, b"Symbols"),
      2 => object = self.expression(depth + 1),
      _ => {}
    }
    let mut name = self.rng.one_of(&WELL_KNOWN).as_bytes().to_vec();
    match self.rng.below(12) {
      0 => name.push(b'x'),
      1 => {
        name.pop();
      }
      2 => name[0] ^= 32,
      _ => {}
    }
    let prop = match self.rng.percent(92) {
      true => self.done("Ki", 0, vec![]).with_text(&name),
      false => self.op(0).with_text(&name),
    };
    self.done("Mb", 0, vec![object, prop])
  }

  fn ident_name(&mut self) -> Rec {
    let text: &[u8] = *self.rng.one_of(&[
      b"a" as &[u8],
      b"b",
      b"freeze",
      b"iterator",
      b"",
      b"\xff",
    ]);
    self.done("Ki", 0, vec![]).with_text(text)
  }

  // Patterns.

  fn binding(&mut self, depth: usize, typed: bool) -> Rec {
    let ty = self.type_option(depth + 1, if typed { 100 } else { 0 });
    let parts = vec![self.name(), ty];
    self.done("Bd", 0, parts)
  }

  fn pattern(&mut self, depth: usize) -> Rec {
    match self.rng.weighted(&[
      (14, "Bd"),
      (4, "Pb"),
      (4, "Po"),
      (3, "Rs"),
      (if self.low(depth) { 0 } else { 16 }, "Ag"),
      (if self.low(depth) { 0 } else { 3 }, "Pe"),
      (2, "Pi"),
    ]) {
      "Bd" => {
        let typed = self.rng.percent(40);
        self.binding(depth, typed)
      }
      mark @ ("Pb" | "Po") => {
        let flags = self.flag(1);
        let parts = vec![self.type_option(depth + 1, 40)];
        self.done(mark, flags, parts)
      }
      "Ag" => {
        let parts = vec![self.pattern(depth + 1), self.expression(depth + 1)];
        self.done("Ag", 0, parts)
      }
      "Pe" => {
        let parts = vec![self.expression(depth + 1)];
        self.done("Pe", 0, parts)
      }
      mark => self.done(mark, 0, vec![]),
    }
  }

  // Expressions.

  fn named(&mut self, context: u32, symbol: &[u8]) -> Rec {
    let flags = if self.rng.percent(10) { 1 } else { 0 };
    let mut text = context.to_le_bytes().to_vec();
    text.extend(symbol);
    self.done("Id", flags, vec![]).with_text(&text)
  }

  /// One of the shared names.
  fn name(&mut self) -> Rec {
    let (context, symbol) = *self.rng.one_of(&self.names);
    self.named(context, symbol)
  }

  fn ident(&mut self) -> Rec {
    if self.rng.percent(65) {
      return self.name();
    }
    let contexts = [self.unresolved, self.unresolved, 0, 1, 2];
    let context = *self.rng.one_of(&contexts);
    let symbol = *self.rng.one_of(&SYMBOLS);
    self.named(context, symbol)
  }

  fn literal(&mut self, mark: &str) -> Rec {
    let text: Vec<u8> = match mark {
      "Ss" => self.rng.one_of(&[b"" as &[u8], b"s", b"a\xffb"]).to_vec(),
      "Nu" => self
        .rng
        .one_of(&[
          0.0f64.to_bits(),
          (-0.0f64).to_bits(),
          1.0f64.to_bits(),
          2.0f64.to_bits(),
          (-1.5f64).to_bits(),
          f64::INFINITY.to_bits(),
          f64::NAN.to_bits(),
          0x7ff0_0000_0000_0001,
          0xfff8_0000_0000_1234,
          1,
        ])
        .to_le_bytes()
        .to_vec(),
      "Bi" => self
        .rng
        .one_of(&[
          b"\x000" as &[u8],
          b"\x000",
          b"\x001",
          b"\x011",
          b"\x0012345678901234567890",
          b"\x0190",
        ])
        .to_vec(),
      _ => vec![],
    };
    let flags = if mark == "Bl" { self.flag(1) } else { 0 };
    self.done(mark, flags, vec![]).with_text(&text)
  }

  fn leaf(&mut self) -> Rec {
    match self.rng.weighted(&[
      (8, "Id"),
      (4, "Ss"),
      (5, "Nu"),
      (3, "Bi"),
      (2, "Bl"),
      (1, "Nl"),
      (1, "Re"),
      (1, "Jt"),
      (4, "Oe"),
    ]) {
      "Id" => self.ident(),
      "Oe" => self.done("Oe", 0, vec![]),
      mark => self.literal(mark),
    }
  }

  fn quasi(&mut self) -> Rec {
    let cooked = self.rng.percent(75);
    let text: &[u8] = match cooked {
      true => *self.rng.one_of(&[b"" as &[u8], b"q", b"\xff"]),
      false => b"",
    };
    self.done("Qu", cooked as u8, vec![]).with_text(text)
  }

  fn expression(&mut self, depth: usize) -> Rec {
    if self.low(depth) {
      return self.leaf();
    }
    match self.rng.weighted(&[
      (16, "leaf"),
      (14, "Ar"),
      (14, "Ob"),
      (6, "Fx"),
      (9, "Aw"),
      (6, "Te"),
      (7, "Mi"),
      (10, "Ca"),
      (5, "Ne"),
      (3, "Mb"),
      (2, "Bn"),
      (2, "Oc"),
      (12, "Tc"),
      (2, "Nn"),
      (4, "Pr"),
      (6, "As"),
      (5, "Ts"),
      (2, "Ta"),
      (2, "Cx"),
    ]) {
      "leaf" => self.leaf(),
      "Ar" => self.array(depth),
      "Ob" => {
        let count = self.rng.below(5);
        let parts = self.many(count, |make| make.property(depth + 1));
        self.done("Ob", 0, parts)
      }
      "Fx" => self.fn_expr(depth),
      "Aw" => {
        let mut parts =
          vec![self.op_option(25), self.type_option(depth + 1, 40)];
        let count = self.few(depth, 4);
        parts.extend(self.many(count, |make| make.pattern(depth + 1)));
        self.done("Aw", 0, parts)
      }
      "Te" => {
        let count = self.rng.below(3);
        let mut parts = self.many(count, |make| make.quasi());
        if self.rng.percent(50) {
          let count = self.rng.below(3);
          parts.extend(self.many(count, |make| make.expression(depth + 1)));
        }
        self.done("Te", 0, parts)
      }
      "Mi" => {
        let mark = *self.rng.one_of(&["Nu", "Nu", "Bi", "any"]);
        let kid = match mark {
          "any" => self.expression(depth + 1),
          mark => self.literal(mark),
        };
        self.done("Mi", 0, vec![kid])
      }
      "Ca" => self.call(depth),
      "Ne" => {
        let callee = match self.rng.percent(85) {
          true => self.name(),
          false => self.expression(depth + 1),
        };
        let parts = vec![callee, self.op_option(25)];
        self.done("Ne", 0, parts)
      }
      "Mb" => match self.rng.percent(50) {
        true => self.symbol_member(depth),
        false => self.enum_member_of(depth),
      },
      "Oc" => {
        let kid = match self.rng.percent(70) {
          true => self.enum_member_of(depth + 1),
          false => self.op(1),
        };
        self.done("Oc", 0, vec![kid])
      }
      "Bn" => {
        let parts =
          vec![self.expression(depth + 1), self.expression(depth + 1)];
        self.done("Bn", 0, parts)
      }
      mark @ ("As" | "Ts" | "Ta") => {
        let parts = vec![self.expression(depth + 1), self.ts_type(depth + 1)];
        self.done(mark, 0, parts)
      }
      "Cx" => self.class_expr(depth),
      mark => {
        let parts = vec![self.expression(depth + 1)];
        self.done(mark, 0, parts)
      }
    }
  }

  fn array(&mut self, depth: usize) -> Rec {
    let count = self.rng.below(5);
    let spreads = *self.rng.one_of(&[0, 0, 25]);
    let parts = self.many(count, |make| {
      if make.rng.percent(10) {
        return make.no();
      }
      if make.rng.percent(spreads) {
        return make.spread(depth + 1);
      }
      make.expression(depth + 1)
    });
    self.done("Ar", 0, parts)
  }

  fn spread(&mut self, depth: usize) -> Rec {
    let kid = match self.rng.weighted(&[(5, "Id"), (4, "Ar"), (2, "any")]) {
      "Id" => self.name(),
      "Ar" if !self.low(depth) => self.array(depth + 1),
      _ => self.expression(depth + 1),
    };
    self.done("Sp", 0, vec![kid])
  }

  fn property(&mut self, depth: usize) -> Rec {
    match self
      .rng
      .weighted(&[(12, "Kv"), (8, "Sh"), (2, "Pq"), (3, "Sp")])
    {
      "Kv" => {
        let parts = vec![self.key(depth + 1), self.expression(depth + 1)];
        self.done("Kv", 0, parts)
      }
      "Sh" => {
        let parts = vec![self.ident()];
        self.done("Sh", 0, parts)
      }
      "Sp" => self.spread(depth),
      mark => self.done(mark, 0, vec![]),
    }
  }

  /// `Object.freeze(..)`, right and nearly right, and other calls.
  fn call(&mut self, depth: usize) -> Rec {
    let mut object = self.named(self.unresolved, b"Object");
    let mut name: &[u8] = b"freeze";
    let mut count = 1;
    match self.rng.below(16) {
      0 => object = self.named(self.unresolved.wrapping_add(1), b"Object"),
      1 => object = self.named(self.unresolved, b"object"),
      2 => object = self.expression(depth + 2),
      3 => name = b"seal",
      4 => count = 0,
      5 => count = 2,
      _ => {}
    }
    let prop = match self.rng.percent(95) {
      true => self.done("Ki", 0, vec![]).with_text(name),
      false => self.op(0).with_text(name),
    };
    let callee = match self.rng.percent(90) {
      true => self.done("Mb", 0, vec![object, prop]),
      false => self.expression(depth + 1),
    };
    let mut parts = vec![callee];
    parts.extend(self.many(count, |make| match make.rng.below(20) {
      0 => make.spread(depth + 1),
      1..8 => {
        let parts = vec![make.leaf(), make.ts_type(depth + 2)];
        make.done("As", 0, parts)
      }
      _ => make.expression(depth + 1),
    }));
    self.done("Ca", 0, parts)
  }

  fn fn_expr(&mut self, depth: usize) -> Rec {
    let ident = match self.rng.percent(50) {
      true => self.name(),
      false => self.no(),
    };
    let parts = vec![ident, self.function(depth + 1)];
    self.done("Fx", 0, parts)
  }

  fn class_expr(&mut self, depth: usize) -> Rec {
    let ident = match self.rng.percent(50) {
      true => self.name(),
      false => self.no(),
    };
    let parts = vec![ident, self.class(depth + 1)];
    self.done("Cx", 0, parts)
  }

  // Types.

  fn literal_type(&mut self) -> Rec {
    let mark = *self.rng.one_of(&["Ss", "Nu", "Nu", "Nu", "Bi", "Bl", "Op"]);
    let kid = match mark {
      "Op" => self.op(1),
      mark => self.literal(mark),
    };
    self.done("Tl", 0, vec![kid])
  }

  fn ts_type(&mut self, depth: usize) -> Rec {
    let low = self.low(depth);
    let inner = |weight: usize| if low { 0 } else { weight };
    match self.rng.weighted(&[
      (8, "Kw"),
      (4, "Tl"),
      (8, "Rf"),
      (3, "Tf"),
      (inner(7), "Li"),
      (5, "Ay"),
      (inner(4), "Tu"),
      (inner(2), "Rt"),
      (inner(8), "Ro"),
      (inner(4), "Ft"),
      (2, "Ct"),
      (4, "Ot"),
    ]) {
      "Kw" => {
        let keyword = *self.rng.one_of(&KEYWORDS);
        self.done("Kw", 0, vec![]).with_text(keyword.as_bytes())
      }
      "Tl" => self.literal_type(),
      "Rf" => {
        let kid = match self.rng.weighted(&[
          (3, "Array"),
          (3, "ReadonlyArray"),
          (3, "Id"),
          (2, "Op"),
        ]) {
          "Id" => self.ident(),
          "Op" => self.op(1),
          symbol => {
            let contexts = [self.unresolved, 0, 1, 2, 3];
            let context = *self.rng.one_of(&contexts);
            self.named(context, symbol.as_bytes())
          }
        };
        let parts = vec![kid, self.op_option(30)];
        self.done("Rf", 0, parts)
      }
      "Tf" => {
        let kid = match self.rng.percent(60) {
          true => self.ident(),
          false => self.op(1),
        };
        self.done("Tf", 0, vec![kid])
      }
      "Li" => {
        let count = self.rng.below(4);
        let others = *self.rng.one_of(&[0, 0, 20]);
        let parts = self.many(count, |make| {
          if make.rng.percent(others) {
            return make.done("Om", 0, vec![]);
          }
          if make.rng.percent(30) {
            let flags = make.flag(1);
            return make.done("Ix", flags, vec![]);
          }
          let flags = make.flag(1) | make.flag(2) | make.flag(4);
          let parts =
            vec![make.expression(depth + 2), make.type_option(depth + 2, 60)];
          make.done("Ps", flags, parts)
        });
        self.done("Li", 0, parts)
      }
      "Tu" => {
        let count = self.rng.below(3);
        let parts = self.many(count, |make| {
          let parts = vec![make.op_option(30), make.ts_type(depth + 2)];
          make.done("Tm", 0, parts)
        });
        self.done("Tu", 0, parts)
      }
      mark @ ("Rt" | "Ro") => {
        let parts = vec![self.ts_type(depth + 1)];
        self.done(mark, 0, parts)
      }
      "Ft" => {
        let mut parts = vec![self.op_option(30), self.ts_type(depth + 1)];
        let count = self.rng.below(3);
        parts.extend(self.many(count, |make| make.pattern(depth + 1)));
        self.done("Ft", 0, parts)
      }
      mark => self.done(mark, 0, vec![]),
    }
  }
}
