//! Cases for the table of depths that are not left to chance: each kind of
//! diagnostic in so many namespaces, up to the last level and past it, and
//! tables with large counts and with every cell that can be filled.

use super::Case;
use super::entry;
use crate::grammar::MAX_LIST;
use crate::grammar::MAX_TREE;
use crate::notation::parse;
use crate::record::Rec;
use crate::record::rec;

/// The shortest item with each kind: its diagnostics in order, and the tree.
pub const KINDS: [(&[u8], &str); 5] = [
  (&[1], "Vd(Vr(Pi No))"),
  (&[2], r#"Vd(Vr(Bd(Id#2"a" No) No))"#),
  (&[3], "Xe(Ob(Pq))"),
  (&[4], "Xe(Ar(Sp(Oe)))"),
  (&[5, 1], "Ed(Us)"),
];

/// How a namespace holds its items.
#[derive(Clone, Copy, PartialEq)]
pub enum Way {
  Bare,
  Declared,
  Exported,
  Dotted,
}

impl Way {
  fn around(self, items: Vec<Rec>) -> Rec {
    let name = || rec("Op", vec![]).with_text(b"n");
    let block = rec("Nb", items);
    match self {
      Way::Bare => rec("Ns", vec![name(), block]),
      Way::Declared => rec("Ns", vec![name(), block]).with_flags(1),
      Way::Exported => rec("Ed", vec![rec("Ns", vec![name(), block])]),
      Way::Dotted => {
        let dotted = rec("Nd", vec![name(), block]);
        rec("Ns", vec![name(), dotted])
      }
    }
  }
}

/// The items in so many namespaces, each bare but one in the middle.
pub fn in_namespaces(mut items: Vec<Rec>, depth: usize, way: Way) -> Rec {
  for number in 0..depth {
    let way = match number == depth / 2 {
      true => way,
      false => Way::Bare,
    };
    items = vec![way.around(items)];
  }
  rec("Mo", items)
}

fn item(text: &str) -> Rec {
  parse(text).unwrap()
}

/// In so many namespaces, and in each of those around them, these items.
fn everywhere(texts: &[&str], depth: usize) -> Vec<Rec> {
  let mut items: Vec<Rec> = texts.iter().map(|text| item(text)).collect();
  if depth > 0 {
    let inner = everywhere(texts, depth - 1);
    items.insert(items.len() / 2, Way::Bare.around(inner));
  }
  items
}

/// Every cell that can be filled: all five kinds up to depth 29, and at 30
/// those whose items have no fourth level.
fn full() -> Rec {
  let all: Vec<Rec> = KINDS.iter().map(|kind| item(kind.1)).collect();
  let mut items = vec![all[0].clone(), all[2].clone(), all[4].clone()];
  for _ in 0..30 {
    items = vec![Way::Bare.around(items)];
    items.extend(all.clone());
  }
  rec("Mo", items)
}

pub fn depth_limits() -> Vec<Case> {
  let mut cases = vec![];
  let mut add = |tree: Vec<u8>, list: Vec<u8>, out: usize, room: usize| {
    cases.push(Case {
      tree,
      list,
      unresolved: 1,
      out,
      diagnostics: room,
    })
  };
  let ample = (4 * MAX_TREE, MAX_TREE);
  let ways = [Way::Bare, Way::Declared, Way::Exported, Way::Dotted];
  for depth in [0, 1, 2, 3, 7, 15, 29, 30, 31] {
    for (_, kind) in KINDS {
      for way in ways {
        if depth == 0 && way != Way::Bare {
          continue;
        }
        let mut tree = in_namespaces(vec![item(kind)], depth, way);
        // One range for all: it says nothing about the record.
        tree.each_mut(&mut |r| (r.start, r.end) = (5, 9));
        add(tree.encode().unwrap(), vec![], ample.0, ample.1);
      }
    }
  }
  // Nothing to be told, and items on the last level.
  for text in ["Mo", "Mo(Us)", "Mo(Ns(Op No))", "Mo(Ns(Op Nb))"] {
    add(item(text).encode().unwrap(), vec![], ample.0, ample.1);
  }
  for mark in ["Us", "Vd", "St", "Im"] {
    let tree = in_namespaces(vec![item(mark)], 31, Way::Bare);
    add(tree.encode().unwrap(), vec![], ample.0, ample.1);
  }
  // Dots alone, and dots on every level.
  let dots = |count: usize| {
    let mut body = rec("Nb", vec![item("Ed(Us)")]);
    for _ in 0..count {
      body = rec("Nd", vec![rec("Op", vec![]), body]);
    }
    rec("Mo", vec![rec("Ns", vec![rec("Op", vec![]), body])])
  };
  for count in [1, 2, 10, 59, 60] {
    add(dots(count).encode().unwrap(), vec![], ample.0, ample.1);
  }
  for depth in [2, 5, 20] {
    let mut items = vec![item("Ed(Us)")];
    for _ in 0..depth {
      items = vec![item("Xe(Ob(Pq))"), Way::Dotted.around(items)];
    }
    let tree = rec("Mo", items);
    add(tree.encode().unwrap(), vec![], ample.0, ample.1);
  }
  // A function at two depths with one range: listed, both go.
  let function =
    r#"Fd@3-8(Id#2"f" Fu(No No No Pa(Bd@3-8(Id#2"a" No))))"#.to_string();
  let two = format!("Mo({function} Ns@3-8(Op Nb({function} Ed@3-8(Us))))");
  for list in [vec![], entry(3, 8).to_vec(), entry(3, 9).to_vec()] {
    add(item(&two).encode().unwrap(), list, ample.0, ample.1);
  }
  // Buffers that are exact, and one byte short.
  let using = rec("Mo", everywhere(&["Ed(Us)"], 30)).encode().unwrap();
  let written = in_namespaces(vec![], 30, Way::Bare).encode().unwrap().len();
  for (out, room) in [
    ample,
    (written, 620),
    (written - 1, 620),
    (written, 619),
    (written - 1, 619),
  ] {
    add(using.clone(), vec![], out, room);
  }
  // Refused for their length alone.
  add(vec![0; MAX_TREE + 1], vec![], ample.0, ample.1);
  add(item("Mo").encode().unwrap(), vec![0; MAX_LIST + 1], 15, 0);
  // Large counts.
  let many = |count: usize| {
    let items = vec![item("Ed(Us)"); count];
    in_namespaces(items, 1, Way::Bare).encode().unwrap()
  };
  add(many(100), vec![], ample.0, ample.1);
  add(many((MAX_TREE - 60) / 30), vec![], ample.0, ample.1);
  let elements = vec![rec("Oe", vec![]); MAX_TREE / 15 - 6];
  let array = rec("Xe", vec![rec("Ar", elements)]);
  let array = in_namespaces(vec![array], 1, Way::Bare);
  add(array.encode().unwrap(), vec![], ample.0, ample.1);
  add(full().encode().unwrap(), vec![], ample.0, ample.1);
  cases
}
