//! Namespaces in namespaces, as many as the levels allow, with diagnostics of
//! every kind at every depth that has one.

use super::MAX_DEPTH;
use super::Rec;
use super::Rng;
use super::Tree;
use super::rec;

/// A tree with up to 31 namespaces in each other, sometimes one level or two
/// too deep, and the unresolved context.
pub fn nested(rng: &mut Rng, size: usize) -> (Rec, u32) {
  let mut make = Tree::new(rng, size);
  let deepest = match make.rng.below(16) {
    0..7 => make.rng.below(5),
    7..10 => 5 + make.rng.below(8),
    10..12 => 13 + make.rng.below(16),
    12 | 13 => 29,
    14 => 30,
    _ => 31 - make.rng.below(2),
  };
  let nest = Nest {
    keep: *make.rng.one_of(&[0, 1, 2, 2, 3, 3, 4, 6]),
    often: *make.rng.one_of(&[3, 10, 40]),
  };
  let items = make.nest(2, deepest, &nest);
  let mut root = make.done("Mo", 0, items);
  debug_assert!(root.depth() <= MAX_DEPTH);
  if make.rng.percent(4) {
    let items = std::mem::take(&mut root.kids);
    let items = items.into_iter().filter(|kid| !kid.is("Op")).collect();
    let around = make.namespace(items);
    root.kids.push(around);
  }
  (root, make.unresolved)
}

/// How a tree's namespaces are filled.
struct Nest {
  /// So many levels stay for what the innermost items hold.
  keep: usize,
  /// The chance, in a hundred, of an item between two namespaces.
  often: usize,
}

impl Tree<'_> {
  /// The items on a level, with so many namespaces in each other among them.
  fn nest(&mut self, level: usize, more: usize, nest: &Nest) -> Vec<Rec> {
    let mut items = vec![];
    if more == 0 {
      let count = 1 + self.rng.below(3);
      return self.many(count, |make| make.fitting_item(level));
    }
    while items.len() < 3 && self.rng.percent(nest.often) {
      items.push(self.fitting_item(level));
    }
    let at = self.rng.below(items.len() + 1);
    let inner = self.nested_namespace(level, more, nest);
    items.insert(at, inner);
    if self.rng.percent(8) {
      let less = 1 + self.rng.below(more.min(4));
      let at = self.rng.below(items.len() + 1);
      let inner = self.nested_namespace(level, less, nest);
      items.insert(at, inner);
    }
    items
  }

  /// A namespace, exported or not, with its body in a dotted name or not.
  fn nested_namespace(
    &mut self,
    mut level: usize,
    more: usize,
    nest: &Nest,
  ) -> Rec {
    let mut spare = (MAX_DEPTH - level - 2 * more).saturating_sub(nest.keep);
    let exported = spare > 0 && self.rng.percent(30);
    spare -= exported as usize;
    level += exported as usize;
    let dots = match self.rng.below(40) {
      0 => self.rng.below(spare + 1),
      1..9 => spare.min(1 + self.rng.below(2)),
      _ => 0,
    };
    let items = self.nest(level + dots + 2, more - 1, nest);
    let mut body = self.ending(level + dots + 1, "Nb", 0, items);
    for dot in (0..dots).rev() {
      let parts = vec![self.op(0), body];
      body = self.ending(level + dot + 1, "Nd", 0, parts);
    }
    let flags = self.flag(1);
    let parts = vec![self.op(0), body];
    let namespace = self.ending(level, "Ns", flags, parts);
    match exported {
      true => self.ending(level - 1, "Ed", 0, vec![namespace]),
      false => namespace,
    }
  }

  /// A record on a level, with `Op`s after its parts only if they end at the
  /// last level or before.
  pub(super) fn ending(
    &mut self,
    level: usize,
    mark: &str,
    flags: u8,
    parts: Vec<Rec>,
  ) -> Rec {
    let count = parts.len();
    let mut made = self.done(mark, flags, parts);
    if level + made.depth() > MAX_DEPTH + 1 {
      made.kids.truncate(count);
    }
    made
  }

  /// A namespace around items, whatever levels they have.
  fn namespace(&mut self, items: Vec<Rec>) -> Rec {
    let body = rec("Nb", items);
    let parts = vec![self.op(0), body];
    let flags = self.flag(1);
    rec("Ns", parts).with_flags(flags)
  }

  /// An item that ends at the last level or before; mostly with a diagnostic,
  /// where there is one so short.
  fn fitting_item(&mut self, level: usize) -> Rec {
    self.fitting(level, |make, level| match make.rng.percent(75) {
      true => make.diagnosed(),
      false => make.item(level - 1),
    })
  }

  /// One of the items that are made for a level, if one ends at the last level
  /// or before, else one without parts.
  pub(super) fn fitting(
    &mut self,
    level: usize,
    each: fn(&mut Self, usize) -> Rec,
  ) -> Rec {
    let most = (MAX_DEPTH + 1).saturating_sub(level);
    for _ in 0..20 {
      let item = each(self, level);
      if item.depth() <= most {
        return item;
      }
    }
    let mark = *self.rng.one_of(&["Us", "St", "Im", "Vd"]);
    let (start, end) = self.range();
    rec(mark, vec![]).at(start, end)
  }

  /// An item with a diagnostic, mostly.
  pub(super) fn diagnosed(&mut self) -> Rec {
    match self.rng.below(18) {
      0 | 1 => {
        let using = self.done("Us", 0, vec![]);
        self.done("Ed", 0, vec![using])
      }
      2 => {
        let mark = *self.rng.one_of(&["Pi", "Rs"]);
        let pattern = self.done(mark, 0, vec![]);
        let init = self.no();
        self.variable(pattern, init)
      }
      3 => {
        let mark = *self.rng.one_of(&["Pb", "Po"]);
        let ty = self.no();
        let pattern = self.done(mark, 0, vec![ty]);
        let init = self.leaf();
        self.variable(pattern, init)
      }
      4 | 5 => {
        let kid = self.untyped();
        self.default_of("Ar", kid)
      }
      6 | 7 => {
        let kid = self.done("Pq", 0, vec![]);
        self.default_of("Ob", kid)
      }
      8 => {
        let name = self.ident();
        let kid = self.done("Sh", 0, vec![name]);
        self.default_of("Ob", kid)
      }
      9 | 10 => {
        let pattern = self.binding(0, false);
        let init = match self.rng.percent(50) {
          true => self.no(),
          false => self.untyped(),
        };
        self.variable(pattern, init)
      }
      11 => {
        let parts = vec![self.ident_name(), self.untyped()];
        let kid = self.done("Kv", 0, parts);
        self.default_of("Ob", kid)
      }
      12 => {
        let parts = vec![self.name(), self.one_parameter()];
        self.done("Fd", 0, parts)
      }
      13 => {
        let parts = vec![self.ident_name(), self.one_parameter()];
        let member = self.done("Me", 0, parts);
        let parts = vec![self.no(), member];
        let class = self.done("Cl", 0, parts);
        let parts = vec![self.name(), class];
        self.done("Cd", 0, parts)
      }
      14 => {
        let value = self.untyped();
        let pattern = self.done("Pe", 0, vec![value]);
        let parts = vec![self.no(), self.no(), pattern];
        let arrow = self.done("Aw", 0, parts);
        self.done("Xe", 0, vec![arrow])
      }
      mark => {
        let value = self.leaf();
        let kid = self.done("Sp", 0, vec![value]);
        self.default_of(if mark == 15 { "Ob" } else { "Ar" }, kid)
      }
    }
  }

  /// An expression that is untyped, whatever is declared.
  fn untyped(&mut self) -> Rec {
    self.done("Oe", 0, vec![])
  }

  fn variable(&mut self, pattern: Rec, init: Rec) -> Rec {
    let declarator = self.done("Vr", 0, vec![pattern, init]);
    let flags = self.flag(1) | self.flag(2);
    self.done("Vd", flags, vec![declarator])
  }

  fn default_of(&mut self, mark: &str, kid: Rec) -> Rec {
    let value = self.done(mark, 0, vec![kid]);
    self.done("Xe", 0, vec![value])
  }

  /// A function with a parameter that has no type.
  pub(super) fn one_parameter(&mut self) -> Rec {
    let mut pattern = self.binding(0, false);
    if self.rng.percent(50) {
      let parts = vec![pattern, self.untyped()];
      pattern = self.done("Ag", 0, parts);
    }
    let param = self.done("Pa", 0, vec![pattern]);
    let parts = vec![self.no(), self.no(), self.op_option(50), param];
    self.done("Fu", 0, parts)
  }
}
