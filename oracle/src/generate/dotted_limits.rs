//! Cases with dotted names that are not left to chance: chains up to the last
//! level and past it, chains in chains, every flag, long names, lists and
//! buffers that tell the tree from the one without its chains.

use super::Case;
use super::KINDS;
use super::entry;
use crate::call::result;
use crate::grammar::MAX_TREE;
use crate::notation::parse;
use crate::record::HEAD;
use crate::record::Rec;
use crate::record::rec;

fn item(text: &str) -> Rec {
  parse(text).unwrap()
}

fn name(text: &[u8]) -> Rec {
  rec("Op", vec![]).with_text(text)
}

/// A namespace whose body stands in so many `Nd` records, no two alike, with
/// these `Op`s at the end of each.
fn dotted(count: usize, mut body: Rec, ops: &[Rec]) -> Rec {
  for number in (1..=count).rev() {
    let mut parts = vec![name(format!("n{number}").as_bytes()), body];
    parts.extend_from_slice(ops);
    let at = number as u32;
    body = rec("Nd", parts)
      .with_flags(37u8.wrapping_mul(number as u8))
      .at(at, 3 * at);
  }
  rec("Ns", vec![name(b"A"), body])
}

fn module(items: Vec<Rec>) -> Rec {
  rec("Mo", items)
}

/// Chains of every kind of length, bodies of one level to four, `Op`s of none
/// to two: up to the last level, and past it.
fn lengths() -> Vec<Rec> {
  let bodies = [
    "Nb",
    "Nb(Op)",
    "Nb(St)",
    "Nb(Us)",
    "Nb(Vd+1)",
    "Nb(Ed(Us))",
    "Nb(Xe(Nl))",
    "Nb(Vd+1(Vr(Pi No)))",
    r#"Nb(Vd+3(Vr(Bd(Id#2"a" No) Oe)))"#,
  ];
  let ops = ["Op", "Op(Op)"].map(item);
  let mut trees = vec![];
  for count in [0, 1, 2, 3, 30, 57, 58, 59, 60, 61, 62] {
    for body in bodies {
      trees.push(module(vec![dotted(count, item(body), &[])]));
    }
    for ops in [&ops[..1], &ops[1..], &ops] {
      trees.push(module(vec![dotted(count, item("Nb"), ops)]));
    }
  }
  trees
}

/// So many chains of a length in each other, each exported or not.
fn chains_in_chains() -> Vec<Rec> {
  let mut trees = vec![];
  for (dots, exported, most) in
    [(1, false, 21), (1, true, 15), (2, true, 12), (5, false, 9)]
  {
    for count in [2, 3, most, most + 1] {
      let mut items = vec![item("Us"), item("Vd+1")];
      for _ in 0..count {
        let inner = dotted(dots, rec("Nb", items), &[]);
        items = vec![match exported {
          true => rec("Ed", vec![inner]),
          false => inner,
        }];
      }
      trees.push(module(items));
    }
  }
  trees
}

/// Small trees, each of which shows one rule within a dotted name, and those
/// that the check refuses.
const SMALL: [&str; 26] = [
  r#"Mo(Ns(Op"A" Nd(Op"B" Nd(Op"C" Nb(Vd+3(Vr(Bd(Id#2"a" Kw"any") No)))))))"#,
  r#"Mo(Ns+4(Op"n" Nd+5(Op"m" Nb+6@1-2(Op"z") Op) Op"w"))"#,
  r#"Mo(Ed@1-9(Ns(Op"A" Nd(Op"B" Nb(Ed(Vd+1) St)))))"#,
  r#"Mo(Ns(Op Nd(Op Nb(Fd(Id#2"f" Fu(No No Op)) Fd+1(Id#2"g" Fu(No No Op))))))"#,
  r#"Mo(Ns(Op Nd(Op Nb(Cd(Id#2"c" Cl(No)) Cd+1(Id#2"d" Cl(No))))))"#,
  r#"Mo(Ns(Op Nd(Op Nb(En(Id#2"e") En+1(Id#2"f")))))"#,
  "Mo(Ns(Op Nd(Op Nb(Ns(Op No) Ns+1(Op No) Ns(Op Nb) Ns+1(Op Nb)))))",
  "Mo(Ns(Op Nd(Op Nb(Im St Us In Ty Ed(Us) Ed(In) Ed(Ty) Xd(In)))))",
  r#"Mo(Ns(Op Nd(Op Nb(Xd(Fx(No Fu(No No Op))) Xd(Cx(No Cl(No Dm)))))))"#,
  "Mo(Xe(Nl) Ns(Op Nd(Op Nb(Xe(Nl) Ns(Op Nd(Op Nb(Xe(Nl)))) Xe(Nl)))) Xe(Nl))",
  "Mo(Ns(Op Nd(Op Nb(Xe(Oe)))) Xe(Nl))",
  r#"Mo(Vd+2(Vr(Bd(Id#2"q" Ay) No)) Ns(Op Nd(Op Nb(Xe(Ar(Sp(Id#2"q")))))))"#,
  r#"Mo(Ns(Op Nd(Op Nb(Vd+2(Vr(Bd(Id#2"q" Ay) No)) Xe(Ar(Sp(Id#2"q")))))))"#,
  "Mo(Ns(Op Nd(Op Nb)) Vd Ns(Op Nb) Ns(Op No) Ns(Op Nd(Op Nd(Op Nb))) Vd)",
  "Mo(Ns+1(Op Nd+1(Op Nd+1(Op Nb+1))) Ns(Op Nd(Op Nb)))",
  "Mo(Ns(Op Nd(Op Nb@9-9 Op Op Op) Op))",
  "Mo(Ns(Op Nd(Op(Op(Op)) Nb(Op(Op))) Op(Op)) Op)",
  "Mo(Ns(Op Nd))",
  "Mo(Ns(Op Nd(Op)))",
  "Mo(Ns(Op Nd(Op No)))",
  "Mo(Ns(Op Nd(Nb Op)))",
  "Mo(Ns(Op Nd(Op Nb Nb)))",
  "Mo(Ns(Op Nd(Op Nd(Op Nb) Nb)))",
  "Mo(Ns(Op Nd@2-1(Op Nb)))",
  "Mo(Nd(Op Nb))",
  "Mo(Ns(Op Nb(Nd(Op Nb))))",
];

/// A tree of exactly this many bytes whose names fill it.
fn long(bytes: usize) -> Rec {
  let mut left = bytes - HEAD - (2 * HEAD + 1) - HEAD;
  let mut links = vec![];
  while left > 0 {
    let mut take = left.min(2 * HEAD + 65_535);
    if left > take && left - take < 2 * HEAD {
      take -= 2 * HEAD;
    }
    links.push(take - 2 * HEAD);
    left -= take;
  }
  let mut body = rec("Nb", vec![]);
  for length in links {
    body = rec("Nd", vec![name(&vec![b'n'; length]), body]);
  }
  module(vec![rec("Ns", vec![name(b"A"), body])])
}

pub fn dotted_limits() -> Vec<Case> {
  let mut cases = vec![];
  let ample = (4 * MAX_TREE, MAX_TREE);
  let mut add = |tree: &Rec, list: &[u8], out: usize, room: usize| {
    cases.push(Case {
      tree: tree.encode().unwrap(),
      list: list.to_vec(),
      unresolved: 1,
      out,
      diagnostics: room,
    })
  };
  for tree in SMALL.map(item) {
    add(&tree, &[], ample.0, ample.1);
  }
  for tree in [lengths(), chains_in_chains()].concat() {
    add(&tree, &[], ample.0, ample.1);
  }
  for (_, kind) in KINDS {
    let body = rec("Nb", vec![item(kind)]);
    let twice = rec("Nb", vec![dotted(3, body.clone(), &[]), item(kind)]);
    for body in [body, twice] {
      add(&module(vec![dotted(2, body, &[])]), &[], ample.0, ample.1);
    }
  }
  // Every flag on an `Nd`, in one tree.
  let flags = (0..=255).map(|flags| {
    let link = rec("Nd", vec![name(b"B"), rec("Nb", vec![])]).with_flags(flags);
    rec("Ns", vec![name(b"A"), link])
  });
  add(&module(flags.collect()), &[], ample.0, ample.1);
  // Ranges that a list may name: the namespace's, the dotted name's, and the
  // function's within.
  let listed = item(
    r#"Mo(Ns@1-9(Op Nd@2-9(Op Nb@3-9(Fd@4-9(Id#2"f" Fu(No No Op)) Ed@5-9(Fd@6-9(Id#2"g" Fu(No No Op)))))))"#,
  );
  for start in 0..8 {
    add(&listed, &entry(start, 9), ample.0, ample.1);
  }
  let all: Vec<u8> = (1..8).flat_map(|start| entry(start, 9)).collect();
  add(&listed, &all, ample.0, ample.1);
  // Buffers that are exact, one byte short, and long enough for the tree
  // without its chain alone.
  let using = || rec("Nb", vec![item("Ed(Us)"), item("Xe(Ob(Pq))")]);
  let length = |tree: &Rec| {
    let result = result(&tree.encode().unwrap(), &[], 1).unwrap();
    result.output.unwrap().len()
  };
  let without = length(&module(vec![dotted(0, using(), &[])]));
  for count in [1, 2, 40] {
    let tree = module(vec![dotted(count, using(), &[item("Op")])]);
    let whole = length(&tree);
    for out in [without, whole - 1, whole, whole + 1] {
      for room in [29, 30, 31] {
        add(&tree, &[], out, room);
      }
    }
  }
  // As many namespaces as fit, and names as long as fit.
  let short = item("Ns(Op Nd(Op Nb(Vd+1)))");
  let count = (MAX_TREE - HEAD) / short.encode().unwrap().len();
  add(&module(vec![short; count]), &[], ample.0, ample.1);
  for bytes in [MAX_TREE - 1, MAX_TREE, MAX_TREE + 1] {
    add(&long(bytes), &[], ample.0, ample.1);
  }
  cases
}
