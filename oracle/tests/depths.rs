//! Document 02's §1: the table of diagnostics by kind and depth.

use std::collections::BTreeSet;

use oracle::call::Answer;
use oracle::call::call;
use oracle::depths;
use oracle::depths::CELLS;
use oracle::depths::COLUMNS;
use oracle::depths::Counts;
use oracle::depths::cell;
use oracle::generate::Case;
use oracle::generate::KINDS;
use oracle::generate::Way;
use oracle::generate::depth_limits;
use oracle::generate::dotted_limits;
use oracle::generate::entry;
use oracle::generate::in_namespaces;
use oracle::grammar::Refused;
use oracle::grammar::check;
use oracle::grammar::entry_range;
use oracle::lines;
use oracle::measure::Depths;
use oracle::measure::numbered;
use oracle::measure::numbered_depth;
use oracle::measure::numbered_dotted;
use oracle::notation::parse;
use oracle::record::Rec;
use oracle::record::rec;

fn run(tree: &Rec, list: &[u8]) -> depths::Outcome {
  depths::outcome(&Case {
    tree: tree.encode().unwrap(),
    list: list.to_vec(),
    unresolved: 1,
    out: 1 << 21,
    diagnostics: 1 << 19,
  })
}

fn table(tree: &Rec) -> Counts {
  run(tree, &[]).counts.expect("an accepted tree")
}

/// A table with these cells (kind, depth, count) and zeros.
fn cells(filled: &[(u8, usize, u32)]) -> Counts {
  let mut counts = [0; CELLS];
  for (kind, depth, count) in filled {
    counts[cell(*kind, *depth)] = *count;
  }
  counts
}

fn refused(number: u8, place: usize) -> Answer {
  Answer::Refused(Refused { number, place })
}

const ZEROS: &str =
  "0 0 0 0 0 0 0 0 0 0 0 0 0 0 0 0 0 0 0 0 0 0 0 0 0 0 0 0 0 0 0 0\n";

#[test]
fn an_empty_module() {
  let counts = table(&parse("Mo").unwrap());
  assert_eq!(counts, [0; CELLS]);
  assert_eq!(depths::print(&counts), ZEROS.repeat(5) + "0\n");
  assert_eq!(depths::show(&counts), "-");
}

#[test]
fn printed() {
  let tree = parse("Mo(Ed(Us) Ns(Op Nb(Ed(Us) Xe(Ar(Oe Oe Sp(Oe))))))");
  let mut wanted = "1 3".to_string() + &" 0".repeat(30) + "\n";
  wanted += ZEROS;
  wanted += ZEROS;
  wanted += &("0 1".to_string() + &" 0".repeat(30) + "\n");
  wanted += &("1 1".to_string() + &" 0".repeat(30) + "\n");
  wanted += "7\n";
  let counts = table(&tree.unwrap());
  assert_eq!(depths::print(&counts), wanted);
  assert_eq!(depths::show(&counts), "1:0:1,1:1:3,4:1:1,5:0:1,5:1:1");
}

/// The table of the shortest item of a kind in so many namespaces.
fn of_kind(kind: usize, depth: usize, way: Way) -> depths::Outcome {
  let item = parse(KINDS[kind].1).unwrap();
  run(&in_namespaces(vec![item], depth, way), &[])
}

#[test]
fn each_kind_at_each_depth() {
  for (kind, (digits, text)) in KINDS.iter().enumerate() {
    // What has a fourth level does not fit into 30 namespaces: items stand on
    // level 62 there.
    let last = if parse(text).unwrap().depth() > 3 {
      29
    } else {
      30
    };
    for depth in 0..=last {
      let filled: Vec<_> = digits.iter().map(|d| (*d, depth, 1)).collect();
      let wanted = Some(cells(&filled));
      assert_eq!(of_kind(kind, depth, Way::Bare).counts, wanted);
      assert_eq!(of_kind(kind, depth, Way::Declared).counts, wanted);
      if depth < 29 {
        assert_eq!(of_kind(kind, depth, Way::Exported).counts, wanted);
        assert_eq!(of_kind(kind, depth, Way::Dotted).counts, wanted);
      }
    }
    let answer = of_kind(kind, last + 1, Way::Bare).answer;
    assert!(matches!(answer, Answer::Refused(no) if no.number == 7));
  }
  let last = |kind: usize| parse(KINDS[kind].1).unwrap().depth();
  assert_eq!([0, 1, 2, 3, 4].map(last), [3, 4, 3, 4, 2]);
}

#[test]
fn in_31_namespaces_nothing_has_a_part() {
  let bare = in_namespaces(vec![rec("Us", vec![])], 31, Way::Bare);
  assert_eq!(bare.depth(), 64);
  assert_eq!(table(&bare), [0; CELLS]);
}

#[test]
fn a_dotted_name_is_one_namespace() {
  let tree = "Mo(Ns(Op Nd(Op Nd(Op Nb(Ed(Us) Ns(Op Nd(Op Nb(Xe(Ob(Pq)))))))))";
  let tree = parse(&format!("{tree})")).unwrap();
  let counts = table(&tree);
  assert_eq!(counts, cells(&[(1, 1, 1), (5, 1, 1), (3, 2, 1)]));
  let dots: Vec<usize> = depths::marked(&tree, &[], 1)
    .iter()
    .map(|m| m.at.dots)
    .collect();
  assert_eq!(dots, [2, 2, 3]);
}

/// A namespace holds what stands in it, and neither what stands beside it nor
/// what stands in it by its range alone.
#[test]
fn beside_and_between() {
  let tree = parse(
    "Mo@0-99(Ed@3-4(Us@3-4) Ns@0-99(Op Nb(Ed@3-4(Us@3-4) Ns@3-4(Op No) \
     Ns@0-0(Op Nb(Xe@3-4(Ob(Pq@3-4)))) Xe@3-4(Ob(Pq@3-4)))) \
     Vd@3-4(Vr@3-4(Pi No)))",
  );
  let wanted = [
    (1, 0, 2),
    (5, 0, 1),
    (1, 1, 1),
    (5, 1, 1),
    (3, 2, 1),
    (3, 1, 1),
  ];
  assert_eq!(table(&tree.unwrap()), cells(&wanted));
}

/// Functions with one range at two depths: a list that names it takes both, and
/// nothing else that has it.
#[test]
fn a_listed_range_at_two_depths() {
  let function = r#"Fd@3-8(Id#2"f" Fu(No No No Pa(Bd@3-8(Id#2"a" No))))"#;
  let tree = format!("Mo({function} Ns@3-8(Op Nb({function} Ed@3-8(Us@3-8))))");
  let tree = parse(&tree).unwrap();
  let using = [(1, 1, 1), (5, 1, 1)];
  let both = [(2, 0, 1), (2, 1, 1), (1, 1, 1), (5, 1, 1)];
  let with = |list: &[u8]| run(&tree, list).counts.unwrap();
  assert_eq!(with(&[]), cells(&both));
  assert_eq!(with(&entry(3, 8)), cells(&using));
  assert_eq!(with(&entry(3, 9)), cells(&both));
}

#[test]
fn refusals_leave_the_counts() {
  let noise: Counts = std::array::from_fn(|i| 7 * i as u32 + 1);
  let using = parse("Mo(Ed(Us))").unwrap().encode().unwrap();
  let long = vec![0; 524_289];
  let rows: [(&[u8], &[u8], usize, usize, Answer); 10] = [
    (&long, &[], 99, 99, refused(1, 0)),
    (&using, &[0; 9], 99, 99, refused(2, 0)),
    (&[], &[], 99, 99, refused(3, 0)),
    (b"zz\0\0\0\0\0\0\0\0\0\0\0\0\0", &[], 99, 99, refused(4, 0)),
    (b"Ed\0\0\0\0\0\0\0\0\0\0\0\0\0", &[], 99, 99, refused(5, 0)),
    (
      b"Mo\0\x02\0\0\0\x01\0\0\0\0\0\0\0",
      &[],
      99,
      99,
      refused(6, 0),
    ),
    (
      &in_namespaces(vec![rec("Ed", vec![rec("Us", vec![])])], 31, Way::Bare)
        .encode()
        .unwrap(),
      &[],
      9999,
      99,
      refused(7, 31 * 46 + 30),
    ),
    (&[&using[..], b"x"].concat(), &[], 99, 99, refused(8, 45)),
    (&using, &[], 14, 20, refused(9, 0)),
    (&using, &[], 15, 19, refused(10, 0)),
  ];
  for (tree, list, out, room, wanted) in rows {
    let (mut out, mut room) = (vec![1; out], vec![2; room]);
    let before = (out.clone(), room.clone());
    let mut counts = noise;
    let answer =
      depths::depths(tree, list, 1, &mut out, &mut room, &mut counts);
    assert_eq!(answer, wanted);
    assert!(counts == noise && (out, room) == before);
  }
  let (mut out, mut room, mut counts) = ([1; 15], [2; 20], noise);
  let answer = depths::depths(&using, &[], 1, &mut out, &mut room, &mut counts);
  assert_eq!(answer, Answer::Done(15, 2));
  assert_eq!(counts, cells(&[(1, 0, 1), (5, 0, 1)]));
}

/// The call gives what `call` gives, the table's sum is the number of
/// diagnostics, each row's that of its kind, and column 31 is empty.
fn agrees(case: &Case) {
  let outcome = depths::outcome(case);
  let plain = lines::outcome(case);
  assert_eq!(outcome.answer, plain.answer);
  assert!(outcome.output == plain.output);
  assert!(outcome.diagnostics == plain.diagnostics);
  let Answer::Done(_, count) = outcome.answer else {
    assert!(outcome.counts.is_none());
    return;
  };
  let counts = outcome.counts.unwrap();
  assert_eq!(counts.iter().sum::<u32>() as usize, count);
  for (row, kind) in counts.chunks(COLUMNS).zip(b'1'..) {
    let of_kind = plain.diagnostics.chunks(10).filter(|d| d[1] == kind);
    assert_eq!(row.iter().sum::<u32>() as usize, of_kind.count());
    assert_eq!(row[31], 0);
  }
}

/// `depths::outcome` also holds the run with ranges of their own to the
/// ordinary one, wherever the tree is accepted.
#[test]
fn ordinary_cases() {
  for number in 0..70_000 {
    agrees(&numbered(21, number, false));
  }
}

#[test]
fn cases_with_namespaces() {
  let mut depths = Depths::default();
  for number in 0..30_000 {
    let case = numbered_depth(22, number, false);
    agrees(&case);
    if number < 5_000 {
      depths.add(&case);
    }
  }
  assert_eq!(depths.in_last_column(), 0);
  for number in 2..=10 {
    assert!(depths.refused.get(&number).is_some_and(|n| *n > 20));
  }
  for kind in 1..=5 {
    for depth in 0..=29 {
      assert!(
        depths.with_one[cell(kind, depth)] > 10,
        "d{kind} at {depth}"
      );
    }
  }
  assert!(
    [1, 3, 5]
      .iter()
      .all(|kind| depths.with_one[cell(*kind, 30)] > 10)
  );
  assert!(
    [2, 4]
      .iter()
      .all(|kind| depths.with_one[cell(*kind, 30)] == 0)
  );
}

#[test]
fn cases_with_dotted_names() {
  for number in 0..20_000 {
    agrees(&numbered_dotted(27, number, false));
  }
  for case in dotted_limits() {
    agrees(&case);
  }
}

#[test]
fn cases_at_the_limits() {
  let mut full = false;
  for case in depth_limits() {
    agrees(&case);
    if let Some(counts) = depths::outcome(&case).counts {
      let filled = counts.iter().filter(|count| **count > 0).count();
      full |= filled == 5 * 30 + 3;
    }
  }
  assert!(full);
}

/// An accepted tree of the run with this seed, and its list and context.
fn accepted(seed: u64, number: u64) -> Option<(Rec, Case)> {
  let case = numbered_depth(seed, number, true);
  check(&case.tree, &case.list).ok()?;
  Some((Rec::read(&case.tree, 0)?.0, case))
}

/// The marks that each kind is marked at. None is an `Ns`, so it does not
/// matter whether a namespace would hold itself.
#[test]
fn where_each_kind_stands() {
  let mut marks = vec![BTreeSet::new(); 6];
  for number in 0..4_000 {
    let Some((tree, case)) = accepted(23, number) else {
      continue;
    };
    for m in depths::marked(&tree, &case.list, case.unresolved) {
      marks[m.diagnostic.digit as usize].insert(m.at.mark);
    }
  }
  let is = |kind: usize, wanted: &[&[u8; 2]]| {
    assert_eq!(marks[kind], wanted.iter().map(|mark| **mark).collect());
  };
  is(3, &[b"Pq", b"Sh"]);
  is(4, &[b"Sp"]);
  is(5, &[b"Us"]);
  assert!(marks[1].contains(b"Ed") && marks[1].contains(b"Vr"));
  assert!(marks[2].contains(b"Bd") && marks[2].contains(b"Oe"));
  for kind in &marks {
    for mark in [b"Mo", b"Ns", b"Nb", b"Nd", b"Vd", b"Fd", b"Cd", b"En"] {
      assert!(!kind.contains(mark));
    }
  }
}

/// Each record's range becomes the bytes that it fills.
fn with_byte_ranges(r: &mut Rec, at: usize) -> usize {
  let mut end = at + 15 + r.text.len();
  for kid in &mut r.kids {
    end = with_byte_ranges(kid, end);
  }
  (r.start, r.end) = (at as u32, end as u32);
  end
}

/// Another way to the depth: where a range is the bytes that the record fills,
/// the namespaces that hold a record are those whose bytes hold its bytes.
#[test]
fn counted_by_bytes() {
  let mut seen = 0;
  for number in 0..4_000 {
    let Some((mut tree, case)) = accepted(24, number) else {
      continue;
    };
    with_byte_ranges(&mut tree, 0);
    let mut namespaces = vec![];
    let mut listed = vec![];
    tree.each(&mut |r| {
      if r.is("Ns") {
        namespaces.push((r.start, r.end));
      }
      if r.start % 7 == 0 && !case.list.is_empty() {
        listed.extend(entry(r.start, r.end));
      }
    });
    listed.truncate(40_960);
    let bytes = tree.encode().unwrap();
    let (mut out, mut room) = (vec![0; 1 << 20], vec![0; 1 << 19]);
    let answer = call(&bytes, &listed, case.unresolved, &mut out, &mut room);
    let Answer::Done(_, count) = answer else {
      panic!("an accepted tree")
    };
    let mut wanted = [0; CELLS];
    for d in room.chunks(10).take(count) {
      let (start, end) = entry_range(d);
      let held = namespaces.iter().filter(|n| n.0 < start && end <= n.1);
      wanted[cell(d[1] - b'0', held.count())] += 1;
      seen += 1;
    }
    let mut counts = [0; CELLS];
    depths::depths(
      &bytes,
      &listed,
      case.unresolved,
      &mut out,
      &mut room,
      &mut counts,
    );
    assert!(counts == wanted);
  }
  assert!(seen > 10_000, "{seen}");
}

/// The items of a tree, in one body more.
fn wrapped(tree: &Rec, names: usize) -> Rec {
  let items = tree.kids.iter().filter(|kid| !kid.is("Op"));
  let mut body = rec("Nb", items.cloned().collect());
  for _ in 1..names {
    body = rec("Nd", vec![rec("Op", vec![]), body]);
  }
  rec("Mo", vec![rec("Ns", vec![rec("Op", vec![]), body])])
}

/// One namespace more moves each count by one column; a longer dotted name
/// moves none. (Within the first namespace already no name is the module's.)
#[test]
fn one_namespace_more() {
  let mut moved_some = 0;
  for number in 0..4_000 {
    let Some((tree, case)) = accepted(25, number) else {
      continue;
    };
    let once = wrapped(&tree, 1);
    let twice = wrapped(&once, 1);
    let dotted = wrapped(&tree, 3);
    if twice.depth() > 64 {
      continue;
    }
    let of = |tree: &Rec| {
      depths::table(&depths::marked(tree, &case.list, case.unresolved))
    };
    let first = of(&once);
    let mut moved = [0; CELLS];
    for (to, from) in moved.chunks_mut(COLUMNS).zip(first.chunks(COLUMNS)) {
      to[1..].copy_from_slice(&from[..COLUMNS - 1]);
      assert_eq!(from[0], 0);
    }
    assert!(of(&twice) == moved);
    assert!(of(&dotted) == first);
    moved_some += (moved != first) as u32;
  }
  assert!(moved_some > 1_000, "{moved_some}");
}
