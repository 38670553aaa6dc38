//! Cases that are not left to chance: trees and lists at their limits, and every
//! node of swc that shares a mark with others.

use super::Case;
use super::Rng;
use super::entry;
use crate::grammar::MAX_TREE;
use crate::notation::parse;
use crate::record::HEAD;
use crate::record::Rec;
use crate::record::rec;

/// A tree that is `depth` levels deep, its depth in expressions, types,
/// patterns, namespaces or opaque parts.
pub fn deep(rng: &mut Rng, depth: usize) -> Rec {
  let leaf = |mark: &str| rec(mark, vec![]);
  let no = || leaf("No");
  let id = || leaf("Id").with_text(b"\x01\x00\x00\x00a");
  // Each way: what stands above the chain, and the chain's link around a part.
  let way = rng.below(9);
  let mut tree = match way {
    0 | 1 | 5 => leaf("Ar"),
    2 => leaf("Ay"),
    3 => leaf("Nb"),
    4 => leaf("Op"),
    6 => rec("Bd", vec![leaf("Id").with_text(b"\x02\x00\x00\x00b"), no()]),
    7 => leaf("Bl"),
    _ => leaf("Ss"),
  };
  let above = match way {
    0 | 1 | 5 | 8 => 2,
    2 => 5,
    3 | 4 => 2,
    6 => 3,
    _ => 4,
  };
  while tree.depth() + above < depth {
    tree = match way {
      0 => rec("Ar", vec![tree]),
      1 => rec("Tc", vec![tree]),
      2 => rec("Ro", vec![tree]),
      3 => rec("Nd", vec![leaf("Op"), tree]),
      4 => rec("Op", vec![tree]),
      5 => rec("Ar", vec![rec("Sp", vec![tree])]),
      6 => rec("Ag", vec![tree, leaf("Nl")]),
      7 => rec("Pr", vec![tree]),
      _ => rec("Mi", vec![tree]),
    };
  }
  let item = match way {
    2 => rec(
      "Vd",
      vec![rec("Vr", vec![rec("Bd", vec![id(), tree]), no()])],
    ),
    3 => rec("Ns", vec![leaf("Op"), tree]),
    4 => rec("Im", vec![tree]),
    6 => rec("Xe", vec![rec("Aw", vec![no(), no(), tree])]),
    7 => rec(
      "En",
      vec![id(), rec("Em", vec![leaf("Op"), rec("Pr", vec![tree])])],
    ),
    _ => rec("Xe", vec![tree]),
  };
  rec("Mo", vec![item])
}

/// A tree of exactly this many bytes.
pub fn long(bytes: usize) -> Rec {
  let mut left = bytes - HEAD;
  let mut items = vec![];
  while left > 0 {
    // An item with one opaque part, at most 65,565 bytes.
    let mut take = left.min(65_535 + 2 * HEAD);
    if left - take > 0 && left - take < 2 * HEAD {
      take -= 2 * HEAD;
    }
    let text = vec![b'x'; take - 2 * HEAD];
    items.push(rec("Im", vec![rec("Op", vec![]).with_text(&text)]));
    left -= take;
  }
  rec("Mo", items)
}

/// A tree with as many items as fit, each of which becomes two.
fn wide() -> Rec {
  let item = || rec("Xe", vec![rec("Ar", vec![])]);
  let count = (MAX_TREE - HEAD) / (2 * HEAD);
  rec("Mo", (0..count).map(|_| item()).collect())
}

/// A tree whose key makes an identifier of one byte more than `Id` can hold,
/// or just not (document 01's widths; see docs/DIFFERENCES.md).
pub fn long_key(length: usize) -> Rec {
  let key = rec("Ki", vec![]).with_text(&vec![b'k'; length]);
  let value = rec("Nl", vec![]);
  let object = rec("Ob", vec![rec("Kv", vec![key, value])]);
  rec("Mo", vec![rec("Xe", vec![object])])
}

/// Small trees with the marks that stand for several of swc's nodes, where the
/// flags choose the node (see decode.rs), in each place that asks for its kind.
fn variants() -> Vec<Rec> {
  let places: [(usize, &str); 11] = [
    (6, "Mo(Im+F)"),
    (18, "Mo(St+F)"),
    (5, "Mo(Xd(Cx(No Cl(No Dm+F))))"),
    (4, "Mo(Xe(Ob(Pq+F@1-2)))"),
    (3, "Mo(Xe(Ca(Oe+F Nl)))"),
    (20, "Mo(Xe(Ar(Oe+F@1-2)))"),
    (20, "Mo(En(Id#2\"e\" Em(Op Oe+F)))"),
    (20, "Mo(Xd(Cx(No Cl(No Cp(Kc(Oe+F) No No)))))"),
    (
      12,
      "Mo(En(Id#2\"e\" Em(Op As(Nl Ot+F)) Em(Op Ta(Nl Ot+F))))",
    ),
    (
      12,
      "Mo(Xe(Ca(Mb(Id#1\"Object\" Ki\"freeze\") As(Nl Ot+F))))",
    ),
    (
      12,
      "Mo(Vd+2(Vr(Bd(Id#2\"a\" Ot+F) No)) Xe(Ar(Sp@1-2(Id#2\"a\"))))",
    ),
  ];
  let trees = places.iter().flat_map(|(kinds, tree)| {
    (0..*kinds).map(move |kind| tree.replace("+F", &format!("+{kind}")))
  });
  trees.map(|tree| parse(&tree).unwrap()).collect()
}

/// The cases at the limits, and the variants.
pub fn limits() -> Vec<Case> {
  let mut rng = Rng::new(1);
  let mut cases = vec![];
  let mut add = |tree: Vec<u8>, list: Vec<u8>| {
    cases.push(Case {
      tree,
      list,
      unresolved: 1,
      out: 2 * MAX_TREE,
      diagnostics: MAX_TREE,
    })
  };
  for tree in variants() {
    add(tree.encode().unwrap(), vec![]);
  }
  for depth in [63, 64, 65, 66] {
    for _ in 0..60 {
      let tree = deep(&mut rng, depth).encode().unwrap();
      // The end of the tree on the last level, too.
      add(tree[..tree.len() - 1].to_vec(), vec![]);
      let cut = tree.len().saturating_sub(HEAD);
      add(tree[..cut].to_vec(), vec![]);
      add(tree, vec![]);
    }
  }
  for bytes in [MAX_TREE - 1, MAX_TREE, MAX_TREE + 1] {
    let tree = long(bytes).encode().unwrap();
    add(tree.clone(), vec![]);
    add(tree, entry(2, 1).to_vec());
  }
  add(wide().encode().unwrap(), vec![]);
  for length in [65_530, 65_531, 65_532, 65_535] {
    add(long_key(length).encode().unwrap(), vec![]);
  }
  let function = |start: u32| {
    let id = rec("Id", vec![]).with_text(b"\x02\x00\x00\x00f");
    let no = || rec("No", vec![]);
    let body = rec("Fu", vec![no(), no(), no()]);
    rec("Fd", vec![id, body]).at(start, start + 1)
  };
  let functions = rec("Mo", vec![function(0), function(4095), function(4096)]);
  for entries in [0, 1, 4095, 4096, 4097] {
    let mut list = vec![];
    for number in 0..entries {
      list.extend(entry(number, number + 1));
    }
    add(functions.encode().unwrap(), list);
  }
  cases
}
