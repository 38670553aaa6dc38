//! Namespaces that mostly have dotted names: chains of `Nd` as long as the
//! levels allow, with any heads, names and `Op`s, and items of every kind
//! within.

use super::MAX_DEPTH;
use super::Rec;
use super::Rng;
use super::Tree;
use super::rec;

/// A tree whose namespaces mostly have dotted names, now and then a level too
/// deep, and the unresolved context.
pub fn dotted(rng: &mut Rng, size: usize) -> (Rec, u32) {
  let mut make = Tree::new(rng, size);
  let inner = make.rng.below(4);
  let mut items = match make.rng.percent(50) {
    true => vec![],
    false => make.dotted_items(2, inner),
  };
  let mut more = vec![make.dotted_namespace(2, inner)];
  if make.rng.percent(20) {
    let (declared, used) = make.prescanned();
    let block = make.done("Nb", 0, vec![used]);
    more.extend([declared, make.dotted_around(2, 1, block)]);
  }
  for item in more {
    let at = make.rng.below(items.len() + 1);
    items.insert(at, item);
  }
  (make.done("Mo", 0, items), make.unresolved)
}

impl Tree<'_> {
  /// Items on a level, with at most so many namespaces in each other.
  fn dotted_items(&mut self, level: usize, inner: usize) -> Vec<Rec> {
    let count = self.rng.below(4).max(self.rng.below(2));
    self.many(count, |make| {
      let fits = inner > 0 && level + 2 <= MAX_DEPTH;
      match fits && make.rng.percent(45) {
        true => make.dotted_namespace(level, inner - 1),
        false => make.fitting(level, Self::inner_item),
      }
    })
  }

  /// A namespace on a level, exported or not.
  fn dotted_namespace(&mut self, level: usize, inner: usize) -> Rec {
    if level + 3 <= MAX_DEPTH && self.rng.percent(30) {
      let namespace = self.unexported(level + 1, inner);
      return self.ending(level, "Ed", 0, vec![namespace]);
    }
    self.unexported(level, inner)
  }

  fn unexported(&mut self, level: usize, inner: usize) -> Rec {
    // So long, and items stand on the last level; with one more the block does.
    let longest = MAX_DEPTH - level - 2;
    let dots = match self.rng.below(50) {
      0..4 => 0,
      4..38 => 1 + self.rng.below(3),
      38..45 => 4 + self.rng.below(8),
      45 | 46 => self.rng.below(longest + 1),
      47 => longest,
      48 => longest + 1,
      _ => longest + 2,
    };
    let dots = dots.min(longest + 2);
    let items = match dots > longest && self.rng.percent(80) {
      true => vec![],
      false => self.dotted_items(level + dots + 2, inner),
    };
    let block = self.ending(level + dots + 1, "Nb", 0, items);
    self.dotted_around(level, dots, block)
  }

  /// A namespace on a level with so many dots before its block.
  fn dotted_around(&mut self, level: usize, dots: usize, block: Rec) -> Rec {
    let mut body = block;
    for dot in (0..dots).rev() {
      body = self.link(level + dot + 1, body);
    }
    let flags = self.flag(1);
    let parts = vec![self.dotted_name(0), body];
    self.ending(level, "Ns", flags, parts)
  }

  /// An `Nd` on a level, with any flags, and `Op`s that end at the last level
  /// or before.
  fn link(&mut self, level: usize, body: Rec) -> Rec {
    let below = MAX_DEPTH.saturating_sub(level + 1).min(2);
    let mut parts = vec![self.dotted_name(below.min(1)), body];
    if self.rng.percent(30) {
      let count = 1 + self.rng.below(3);
      parts.extend(self.many(count, |make| make.op(below)));
    }
    let flags = match self.rng.percent(50) {
      true => self.rng.below(256) as u8,
      false => 0,
    };
    let (start, end) = self.range();
    rec("Nd", parts).with_flags(flags).at(start, end)
  }

  fn dotted_name(&mut self, depth: usize) -> Rec {
    let name = self.op(depth);
    match self.rng.below(8) {
      0 | 1 => name,
      2 => name.with_text(b"Evening"),
      3 => name.with_text("\u{e9}t\u{e9}".as_bytes()),
      4 => name.with_text(b"A.B"),
      5 => name.with_text(b"\x00\xff\x00"),
      6 => {
        let length = self.rng.below(60);
        name.with_text(&vec![b'n'; length])
      }
      _ => name.with_text(b"B"),
    }
  }

  /// An item of any kind; those whose way through a namespace is their own
  /// more often.
  fn inner_item(&mut self, level: usize) -> Rec {
    match self.rng.below(12) {
      0 => self.done("St", 0, vec![]),
      1 => {
        let using = self.done("Us", 0, vec![]);
        match self.rng.percent(50) {
          true => self.done("Ed", 0, vec![using]),
          false => using,
        }
      }
      2 => {
        let value = self.leaf();
        self.done("Xe", 0, vec![value])
      }
      3 | 4 => {
        let flags = self.flag(1);
        let parts = vec![self.name(), self.one_parameter()];
        let function = self.done("Fd", flags, parts);
        match self.rng.percent(40) {
          true => self.done("Ed", 0, vec![function]),
          false => function,
        }
      }
      5 => {
        let mark = *self.rng.one_of(&["Vd", "En", "Cd"]);
        let parts = match mark {
          "Vd" => vec![],
          "En" => vec![self.name()],
          _ => {
            let none = self.no();
            vec![self.name(), self.done("Cl", 0, vec![none])]
          }
        };
        let flags = self.flag(1);
        self.done(mark, flags, parts)
      }
      6 | 7 => self.diagnosed(),
      _ => self.item(level - 1),
    }
  }
}
