//! Trees that show the text of each mark (document 02, §3): expressions, types
//! and members where they are written, templates, arrays with holes, chains,
//! namespaces; and trees of any kind dressed up for it, with texts, numbers,
//! flags and `Op`s that tell one rule from another.

use super::MAX_DEPTH;
use super::Rec;
use super::Rng;
use super::Tree;
use super::rec;

/// A tree of about `size` records whose parts mostly are written.
pub fn written(rng: &mut Rng, size: usize) -> Rec {
  let mut make = Tree::new(rng, size);
  let count = 1 + make.rng.below(1 + size / 4).min(5);
  let items = make.many(count, |make| make.shown_item(1));
  let root = make.done("Mo", 0, items);
  debug_assert!(root.depth() <= MAX_DEPTH);
  root
}

impl Tree<'_> {
  fn shown_item(&mut self, depth: usize) -> Rec {
    match self.rng.weighted(&[
      (30, "Xe"),
      (40, "declaration"),
      (10, "Xd"),
      (4, "Im"),
      (3, "St"),
      (10, "any"),
    ]) {
      "Xe" => {
        let parts = vec![self.shown(depth + 1)];
        self.done("Xe", 0, parts)
      }
      "declaration" => match self.rng.percent(30) {
        true => {
          let parts = vec![self.shown_declaration(depth + 1)];
          self.done("Ed", 0, parts)
        }
        false => self.shown_declaration(depth),
      },
      "Xd" => {
        let parts = vec![match self.rng.below(7) {
          0..3 => self.class_expr(depth + 1),
          3..6 => self.fn_expr(depth + 1),
          _ => self.done("In", 0, vec![]),
        }];
        self.done("Xd", 0, parts)
      }
      "any" => self.item(depth),
      mark => self.done(mark, 0, vec![]),
    }
  }

  fn shown_declaration(&mut self, depth: usize) -> Rec {
    let room = depth < 24;
    match self.rng.weighted(&[
      (12, "Vd"),
      (10, "Cd"),
      (8, "Fd"),
      (8, "En"),
      (if room { 14 } else { 0 }, "Ns"),
      (6, "opaque"),
    ]) {
      "Vd" => {
        let flags = self.flag(1) | self.flag(2);
        let count = 1 + self.rng.below(2);
        let parts = self.many(count, |make| {
          let typed = make.rng.percent(80);
          let pattern = match make.rng.percent(70) {
            true => make.binding(depth + 2, typed),
            false => make.pattern(depth + 2),
          };
          let init = match make.rng.percent(40) {
            true => make.expression(depth + 2),
            false => make.no(),
          };
          make.done("Vr", 0, vec![pattern, init])
        });
        self.done("Vd", flags, parts)
      }
      "Cd" => {
        let flags = self.flag(1);
        let parts = vec![self.name(), self.class(depth + 1)];
        self.done("Cd", flags, parts)
      }
      "Fd" => {
        let flags = self.flag(1);
        let parts = vec![self.name(), self.function(depth + 1)];
        self.done("Fd", flags, parts)
      }
      "En" => {
        let flags = self.flag(1);
        let mut parts = vec![self.name()];
        let count = self.rng.below(4);
        parts.extend(self.many(count, |make| {
          let name = make.op(1);
          let init = match make.rng.percent(70) {
            true => make.shown(depth + 2),
            false => make.no(),
          };
          make.done("Em", 0, vec![name, init])
        }));
        self.done("En", flags, parts)
      }
      "Ns" => self.shown_namespace(depth),
      _ => {
        let mark = *self.rng.one_of(&["In", "Ty", "Us"]);
        self.done(mark, 0, vec![])
      }
    }
  }

  fn shown_namespace(&mut self, depth: usize) -> Rec {
    let flags = self.flag(1);
    let dots = *self.rng.one_of(&[0, 0, 0, 1, 2, 3]);
    let body = match self.rng.percent(12) {
      true => self.no(),
      false => {
        let count = match self.low(depth) {
          true => self.rng.below(2),
          false => self.rng.below(4),
        };
        let items = self.many(count, |make| make.shown_item(depth + dots + 2));
        let mut body = self.done("Nb", 0, items);
        for _ in 0..dots {
          let parts = vec![self.op(1), body];
          body = self.done("Nd", 0, parts);
        }
        body
      }
    };
    let parts = vec![self.op(1), body];
    self.done("Ns", flags, parts)
  }

  /// An expression in a place that is written.
  fn shown(&mut self, depth: usize) -> Rec {
    match self.rng.weighted(&[
      (8, "template"),
      (5, "holes"),
      (5, "chain"),
      (6, "turned"),
      (3, "Bn"),
      (2, "Cx"),
      (5, "typed"),
      (2, "Aw"),
      (10, "any"),
    ]) {
      "template" => self.template(depth),
      "holes" => self.holes(depth),
      "chain" => self.chain(depth),
      "turned" => self.turned(depth),
      "Bn" => {
        let parts = vec![self.shown_leaf(depth + 1), self.leaf()];
        self.done("Bn", 0, parts)
      }
      "Cx" => self.class_expr(depth),
      "typed" => {
        let mark = *self.rng.one_of(&["As", "Ts", "Ta"]);
        let parts = vec![self.leaf(), self.ts_type(depth + 1)];
        self.done(mark, 0, parts)
      }
      "Aw" => {
        let mut parts =
          vec![self.op_option(40), self.type_option(depth + 1, 60)];
        let count = self.few(depth, 4);
        parts.extend(self.many(count, |make| make.pattern(depth + 1)));
        self.done("Aw", 0, parts)
      }
      _ => self.expression(depth),
    }
  }

  fn shown_leaf(&mut self, depth: usize) -> Rec {
    match self.low(depth) || self.rng.percent(50) {
      true => self.leaf(),
      false => self.shown(depth),
    }
  }

  /// A template: any numbers of quasis and expressions, which may have no
  /// tokens, or be templates.
  fn template(&mut self, depth: usize) -> Rec {
    let count = self.rng.below(5);
    let mut parts = self.many(count, |make| make.quasi());
    let count = self.rng.below(4);
    parts.extend(self.many(count, |make| match make.rng.below(8) {
      0 => make.done("Jt", 0, vec![]),
      1 => make.done("Oe", 0, vec![]),
      2 | 3 if !make.low(depth) => make.template(depth + 1),
      4 if !make.low(depth) => make.shown(depth + 1),
      _ => make.leaf(),
    }));
    self.done("Te", 0, parts)
  }

  fn holes(&mut self, depth: usize) -> Rec {
    let count = self.rng.below(5);
    let parts = self.many(count, |make| match make.rng.below(10) {
      0..5 => make.no(),
      5 if !make.low(depth) => make.spread(depth + 1),
      6 => make.done("Jt", 0, vec![]),
      _ => make.shown_leaf(depth + 1),
    });
    self.done("Ar", 0, parts)
  }

  /// Members of members, with or without a chain around each.
  fn chain(&mut self, depth: usize) -> Rec {
    if self.rng.percent(15) {
      let parts = vec![self.op(1)];
      return self.done("Oc", 0, parts);
    }
    let object = match self.low(depth) || self.rng.percent(40) {
      true => self.leaf(),
      false => self.chain(depth + 2),
    };
    let name = match self.rng.percent(60) {
      true => self.ident_name(),
      false => self.op(1),
    };
    let member = self.done("Mb", 0, vec![object, name]);
    match self.rng.percent(60) {
      true => self.done("Oc", 0, vec![member]),
      false => member,
    }
  }

  /// Numbers in the marks that write a later part before an earlier one.
  fn turned(&mut self, depth: usize) -> Rec {
    match *self.rng.one_of(&["Ta", "Fu", "Aw", "Ft"]) {
      "Ta" => {
        let parts = vec![self.numbers(depth + 1), self.number_type(depth + 1)];
        self.done("Ta", 0, parts)
      }
      "Fu" => {
        let mut parts = vec![self.no(), self.number_type(depth + 2), self.no()];
        let count = 1 + self.rng.below(2);
        parts.extend(self.many(count, |make| {
          let pattern = make.number_pattern(depth + 3);
          make.done("Pa", 0, vec![pattern])
        }));
        let parts = vec![self.no(), self.done("Fu", 0, parts)];
        self.done("Fx", 0, parts)
      }
      "Aw" => {
        let mut parts = vec![self.no(), self.number_type(depth + 1)];
        let count = 1 + self.rng.below(2);
        parts.extend(self.many(count, |make| make.number_pattern(depth + 1)));
        self.done("Aw", 0, parts)
      }
      _ => {
        let mut parts = vec![self.no(), self.number_type(depth + 2)];
        let count = 1 + self.rng.below(2);
        parts.extend(self.many(count, |make| make.number_pattern(depth + 2)));
        let ty = self.done("Ft", 0, parts);
        let parts = vec![self.leaf(), ty];
        self.done("As", 0, parts)
      }
    }
  }

  /// A number, or another mark that turns them.
  fn numbers(&mut self, depth: usize) -> Rec {
    match self.low(depth) || self.rng.percent(70) {
      true => self.literal("Nu"),
      false => self.turned(depth),
    }
  }

  fn number_type(&mut self, depth: usize) -> Rec {
    if self.low(depth) || self.rng.percent(75) {
      let parts = vec![self.literal("Nu")];
      return self.done("Tl", 0, parts);
    }
    let parts = vec![
      self.no(),
      self.number_type(depth + 1),
      self.number_pattern(depth + 1),
    ];
    self.done("Ft", 0, parts)
  }

  fn number_pattern(&mut self, depth: usize) -> Rec {
    match self.rng.below(3) {
      0 => {
        let parts = vec![self.name(), self.number_type(depth + 1)];
        self.done("Bd", 0, parts)
      }
      1 => {
        let left = self.binding(depth + 1, false);
        let parts = vec![left, self.numbers(depth + 1)];
        self.done("Ag", 0, parts)
      }
      _ => {
        let parts = vec![self.numbers(depth + 1)];
        self.done("Pe", 0, parts)
      }
    }
  }
}

/// How a tree is dressed: chances, in a hundred.
struct Dress {
  /// `Op`s more at the end of a record.
  ops: usize,
  /// Any flags.
  flags: usize,
  /// A spelling for a number.
  spelled: usize,
  /// A written number without a spelling that is outside the forms.
  outside: usize,
}

/// Gives the records of an accepted tree other texts and flags, and more `Op`s,
/// such that it is accepted still.
pub fn dress(rng: &mut Rng, tree: &mut Rec) {
  let dress = Dress {
    ops: *rng.one_of(&[0, 3, 10, 25, 60]),
    flags: *rng.one_of(&[0, 10, 50]),
    spelled: *rng.one_of(&[0, 20, 60]),
    outside: *rng.one_of(&[0, 0, 0, 0, 0, 20, 60, 80]),
  };
  dress.record(rng, tree, 1, true);
}

impl Dress {
  /// A record on a level; `written` says whether its numbers are.
  fn record(&self, rng: &mut Rng, r: &mut Rec, level: usize, written: bool) {
    if r.is("No") {
      return;
    }
    if rng.percent(self.flags) {
      r.flags = rng.below(256) as u8;
    }
    self.text(rng, r);
    let (is_variable, is_property) = (r.is("Vr"), r.is("Cp"));
    for (slot, kid) in r.kids.iter_mut().enumerate() {
      let init = is_variable && slot == 1 || is_property && slot == 2;
      self.record(rng, kid, level + 1, written && !init);
    }
    if r.is("Ns") && rng.percent(25) {
      let names: [&[u8]; 6] = [b"\"m\"", b"'m'", b"\"", b"m\"", b"", b"`m`"];
      r.kids[0].text = rng.one_of(&names).to_vec();
    }
    let below = (MAX_DEPTH - level.min(MAX_DEPTH)).min(3);
    if r.is("Nu") {
      self.number(rng, r, below, written);
      return;
    }
    if rng.percent(self.ops) && below > 0 {
      for _ in 0..1 + rng.below(3) {
        r.kids.push(opaque(rng, below));
      }
    }
  }

  fn number(&self, rng: &mut Rng, r: &mut Rec, below: usize, written: bool) {
    if rng.percent(self.spelled) && below > 0 {
      for _ in 0..1 + rng.below(2) {
        r.kids.push(spelling(rng, below));
      }
    }
    let free = !written || !r.kids.is_empty();
    let outside = match free {
      true => rng.percent(60),
      false => rng.percent(self.outside),
    };
    let number = match outside {
      true => outside_forms(rng),
      false => in_forms(rng),
    };
    r.text = number.to_bits().to_le_bytes().to_vec();
  }

  fn text(&self, rng: &mut Rng, r: &mut Rec) {
    match &r.mark {
      b"Op" => r.text = source(rng),
      b"Ki" | b"Kw" if rng.percent(40) => r.text = name(rng),
      b"Id" if rng.percent(25) => {
        r.text.truncate(4);
        r.text.extend(name(rng));
      }
      b"Ss" => r.text = value(rng),
      b"Qu" => {
        r.text = match r.flags & 1 {
          1 => value(rng),
          _ => vec![],
        }
      }
      b"Bi" => {
        let digits = match rng.below(4) {
          0 => "0".to_string(),
          1 => rng.next().to_string().repeat(1 + rng.below(3)),
          _ => (1 + rng.below(1000)).to_string(),
        };
        let digits = digits.trim_start_matches('0');
        let sign = match digits {
          "" => 0,
          _ => rng.below(2) as u8,
        };
        r.text = vec![sign];
        r.text
          .extend(if digits.is_empty() { "0" } else { digits }.bytes());
      }
      _ => {}
    }
  }
}

fn opaque(rng: &mut Rng, below: usize) -> Rec {
  let mut kids = vec![];
  if below > 1 && rng.percent(20) {
    for _ in 0..1 + rng.below(2) {
      kids.push(opaque(rng, below - 1));
    }
  }
  rec("Op", kids).with_text(&source(rng))
}

/// Source text: mostly another one each time, so that their order shows.
fn source(rng: &mut Rng) -> Vec<u8> {
  const TEXTS: [&[u8]; 22] = [
    b"public",
    b"extends B",
    b"@d()",
    b";",
    b"a;",
    b"a ;",
    b"; ",
    b";;",
    b"{ }",
    b"\"m\"",
    b"'m'",
    b"m\"",
    b"a\nb",
    b"\n",
    b" ",
    b"  a",
    b"\xff\x00",
    b"`",
    b"${",
    b"}",
    b"// c",
    b"<T>",
  ];
  match rng.below(10) {
    0..5 => format!("o{}", rng.below(1000)).into_bytes(),
    5 | 6 => vec![],
    7 => b"m();".to_vec(),
    _ => rng.one_of(&TEXTS).to_vec(),
  }
}

fn name(rng: &mut Rng) -> Vec<u8> {
  const NAMES: [&[u8]; 10] = [
    b"",
    b"",
    b"x;",
    b";",
    b"$",
    b"\"",
    b"\xc3\xa9",
    b"a b",
    b"\n",
    b"?",
  ];
  match rng.percent(50) {
    true => format!("n{}", rng.below(100)).into_bytes(),
    false => rng.one_of(&NAMES).to_vec(),
  }
}

fn spelling(rng: &mut Rng, below: usize) -> Rec {
  const SPELLINGS: [&[u8]; 8] =
    [b"", b"", b"0x10", b"1e3", b".5", b"1_000", b"-0", b"1;"];
  let mut made = opaque(rng, below);
  if rng.percent(70) {
    made.text = rng.one_of(&SPELLINGS).to_vec();
  }
  made
}

/// A string's or a quasi's value: bytes that are escaped, and their neighbours.
fn value(rng: &mut Rng) -> Vec<u8> {
  const SHARP: [u8; 16] = [
    b'"', b'\\', b'`', b'$', b'\'', b'!', b'#', b'%', b'[', b']', b'a', b'_',
    31, 32, 127, 128,
  ];
  let length = rng.below(9);
  match rng.below(12) {
    0 => vec![],
    1..5 => format!("s{}", rng.below(1000)).into_bytes(),
    5..7 => (0..length).map(|_| *rng.one_of(&SHARP)).collect(),
    7 => (0..length).map(|_| rng.below(34) as u8).collect(),
    8 => (0..length).map(|_| rng.below(256) as u8).collect(),
    9 => {
      let at = rng.below(200);
      (at..at + 3 * length).map(|b| b as u8).collect()
    }
    10 => b"\\u0022${a}`;".to_vec(),
    _ => "\u{e9}\u{2028}\u{1f600}".as_bytes().to_vec(),
  }
}

/// 2 to the 53.
const LIMIT: f64 = 9_007_199_254_740_992.0;

/// A whole number below 2 to the 53 in size, or negative zero.
fn in_forms(rng: &mut Rng) -> f64 {
  let size = match rng.below(10) {
    0 => 0.0,
    1 => LIMIT - 1.0,
    2 => LIMIT - 1.0 - rng.below(1000) as f64,
    3 => 2f64.powi(rng.below(53) as i32),
    4 => 2f64.powi(rng.below(53) as i32) - 1.0,
    5 => 10f64.powi(rng.below(16) as i32),
    6 => 10f64.powi(rng.below(16) as i32) - 1.0,
    7 => (rng.next() >> (11 + rng.below(53))) as f64,
    _ => rng.below(100) as f64,
  };
  if rng.percent(30) { -size } else { size }
}

/// A number that has no decimal by these forms.
fn outside_forms(rng: &mut Rng) -> f64 {
  const NUMBERS: [f64; 14] = [
    0.5,
    1.5,
    0.1,
    1e-7,
    LIMIT,
    LIMIT + 2.0,
    LIMIT / 4.0 + 0.5,
    LIMIT / 2.0 - 0.5,
    1e21,
    f64::MAX,
    f64::INFINITY,
    f64::NAN,
    f64::MIN_POSITIVE,
    0.999_999_999_999_999_9,
  ];
  let size = match rng.below(8) {
    0..4 => *rng.one_of(&NUMBERS),
    4 => f64::from_bits(1 + rng.next() % 0x000f_ffff_ffff_ffff),
    5 => f64::from_bits(0x7ff0_0000_0000_0001 + rng.next() % (1 << 51)),
    6 => 2f64.powi(53 + rng.below(971) as i32),
    _ => rng.below(1 << 20) as f64 + 0.25,
  };
  if rng.percent(30) { -size } else { size }
}
