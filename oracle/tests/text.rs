//! Document 02's §3: the text of each mark, its rules with small trees, and
//! what many random cases show.

use std::collections::BTreeSet;

use oracle::answers::write_text;
use oracle::generate::Rng;
use oracle::generate::TextCase;
use oracle::generate::text_limits;
use oracle::grammar::Grammar;
use oracle::grammar::MAX_TREE;
use oracle::grammar::Refused;
use oracle::grammar::check;
use oracle::measure::numbered_text;
use oracle::notation::parse;
use oracle::record::Rec;
use oracle::record::rec;
use oracle::text::counts::FLAGGED;
use oracle::text::counts::Texts;
use oracle::text::program;
use oracle::text::samples::OUTSIDE;
use oracle::text::samples::SAMPLES;
use oracle::text::text;
use oracle::text::whole;

fn bytes(tree: &str) -> Vec<u8> {
  parse(tree).unwrap().encode().unwrap()
}

fn refused<T>(number: u8, place: usize) -> Result<T, Refused> {
  Err(Refused { number, place })
}

/// The text of a tree in notation.
fn shown(tree: &str) -> String {
  let text = whole(&bytes(tree)).unwrap_or_else(|no| panic!("{tree}: {no:?}"));
  String::from_utf8(text).unwrap()
}

#[test]
fn samples() {
  for (tree, lines) in SAMPLES {
    let wanted: String = lines.iter().map(|line| format!("{line}\n")).collect();
    assert_eq!(shown(tree), wanted, "{tree}");
  }
}

/// Every mark is in a sample, and so is every one with an `Op` at its end.
#[test]
fn samples_hold_every_mark() {
  let (mut marks, mut with_ops) = (BTreeSet::new(), BTreeSet::new());
  for (tree, _) in SAMPLES {
    parse(tree).unwrap().each(&mut |r| {
      marks.insert(r.mark().to_string());
      if r.kids.last().is_some_and(|kid| kid.is("Op")) {
        with_ops.insert(r.mark().to_string());
      }
    });
  }
  for mark in Grammar::marks() {
    assert!(marks.contains(mark), "{mark}");
    assert!(mark == "No" || with_ops.contains(mark), "{mark}");
  }
}

/// "A buffer too short gets 9", and an exact one is long enough.
#[test]
fn room() {
  for (tree, _) in SAMPLES {
    let tree = bytes(tree);
    let whole = whole(&tree).unwrap();
    for room in [whole.len(), whole.len() + 1, usize::MAX] {
      assert_eq!(text(&tree, room), Ok(whole.clone()));
    }
    if !whole.is_empty() {
      assert_eq!(text(&tree, whole.len() - 1), refused(9, 0));
      assert_eq!(text(&tree, 0), refused(9, 0));
    }
  }
  assert_eq!(text(&bytes("Mo(St)"), 0), Ok(vec![]));
  assert_eq!(text(&bytes("Mo(Im)"), 0), refused(9, 0));
  assert_eq!(text(&bytes("Mo(Im)"), 1), Ok(b"\n".to_vec()));
}

/// "11, a written number outside these forms, the first in preorder, its offset
/// the place, before the room is tested."
#[test]
fn numbers_outside() {
  for (tree, place) in OUTSIDE {
    for room in [0, 5, 1000] {
      assert_eq!(text(&bytes(tree), room), refused(11, *place), "{tree}");
    }
  }
}

#[test]
fn order_of_refusals() {
  let outside = bytes("Mo(Xe(Nu=0.5))");
  assert_eq!(text(&outside, 0), refused(11, 30));
  assert_eq!(text(&[0; MAX_TREE + 1], 0), refused(1, 0));
  assert_eq!(text(&[], 0), refused(3, 0));
  let tree = |tree: &str| text(&bytes(tree), 0);
  assert_eq!(tree("zz"), refused(4, 0));
  assert_eq!(tree("Mo(Xe(Nu=0.5) Ed)"), refused(5, 53));
  assert_eq!(tree("Mo(Xe(Nu=0.5) Xe(Nu\"1234567\"))"), refused(5, 68));
  assert_eq!(tree("Mo(Xe(Nu=0.5) Im@2-1)"), refused(6, 53));
  assert_eq!(text(&[&outside[..], b"x"].concat(), 0), refused(8, 53));
  assert_eq!(text(&outside[..52], 0), refused(3, 30));
  // 62 of them stand on level 65.
  let deep = |count: usize| {
    let inner = "Pr(".repeat(count) + "Nl" + &")".repeat(count);
    text(&bytes(&format!("Mo(Xe(Nu=0.5) Xe({inner}))")), 0)
  };
  assert_eq!(deep(61), refused(11, 30));
  assert_eq!(deep(62), refused(7, 53 + 15 * 63));
}

#[test]
fn numbers() {
  let number = |value: f64| {
    let text = value.to_bits().to_le_bytes();
    let number = rec("Nu", vec![]).with_text(&text);
    let tree = rec("Mo", vec![rec("Xe", vec![number])]);
    whole(&tree.encode().unwrap()).map(|text| {
      let text = String::from_utf8(text).unwrap();
      let text = text.strip_prefix("export default ").unwrap();
      text.strip_suffix('\n').unwrap().to_string()
    })
  };
  let is = |value: f64, wanted: &str| {
    assert_eq!(number(value).as_deref(), Ok(wanted));
    assert_eq!(number(-value), Ok(format!("-{wanted}")));
  };
  let is_outside = |value: f64| {
    assert_eq!(number(value), refused(11, 30), "{value}");
    assert_eq!(number(-value), refused(11, 30), "-{value}");
  };
  is(0.0, "0");
  is(1e15, "1000000000000000");
  is(9_007_199_254_740_991.0, "9007199254740991");
  is_outside(9_007_199_254_740_992.0);
  is_outside(9_007_199_254_740_994.0);
  for power in 0..53 {
    let whole = 1u64 << power;
    is(whole as f64, &whole.to_string());
    is((whole - 1) as f64, &(whole - 1).to_string());
    if power < 52 {
      is((whole + 1) as f64, &(whole + 1).to_string());
      is_outside(whole as f64 + 0.5);
      is_outside(whole as f64 - 0.5);
      // The next numbers up and down.
      is_outside(f64::from_bits((whole as f64).to_bits() + 1));
      is_outside(f64::from_bits((whole as f64).to_bits() - 1));
    }
  }
  for power in 53..1024 {
    is_outside(2f64.powi(power));
  }
  for power in 1..1075 {
    is_outside(0.5f64.powi(power));
  }
  for value in [f64::NAN, f64::INFINITY, f64::MAX, f64::MIN_POSITIVE] {
    is_outside(value);
  }
  is_outside(f64::from_bits(0x7ff0_0000_0000_0001));
}

/// The bytes that are escaped, as the papers name them.
const ESCAPES: [(&[u8], &str); 6] = [
  (
    b"\x00\x01\x02\x03\x04\x05\x06\x07\x08\t\n\x0b\x0c\r\x0e\x0f",
    "\\u0000\\u0001\\u0002\\u0003\\u0004\\u0005\\u0006\\u0007\\u0008\\u0009\\u000a\\u000b\\u000c\\u000d\\u000e\\u000f",
  ),
  (
    b"\x10\x11\x12\x13\x14\x15\x16\x17\x18\x19\x1a\x1b\x1c\x1d\x1e\x1f",
    "\\u0010\\u0011\\u0012\\u0013\\u0014\\u0015\\u0016\\u0017\\u0018\\u0019\\u001a\\u001b\\u001c\\u001d\\u001e\\u001f",
  ),
  (b"\"", "\\u0022"),
  (b"\\", "\\u005c"),
  (b"`", "\\u0060"),
  (b"$", "\\u0024"),
];

#[test]
fn escapes() {
  let mut escaped: BTreeSet<u8> = BTreeSet::new();
  for (raw, wanted) in ESCAPES {
    escaped.extend(raw);
    let wanted = wanted.as_bytes().to_vec();
    assert_eq!(in_quotes(raw), (wanted.clone(), wanted));
  }
  assert_eq!(escaped.len(), 36);
  for b in 0..=255 {
    if !escaped.contains(&b) {
      assert_eq!(in_quotes(&[b]), (vec![b], vec![b]), "{b}");
    }
  }
}

/// What stands between the quotes of a string, and between the backticks of a
/// template.
fn in_quotes(raw: &[u8]) -> (Vec<u8>, Vec<u8>) {
  let string = rec("Ss", vec![]).with_text(raw);
  let quasi = rec("Qu", vec![]).with_flags(1).with_text(raw);
  let [string, template] = [string, rec("Te", vec![quasi])].map(|value| {
    let tree = rec("Mo", vec![rec("Xe", vec![value])]);
    let text = whole(&tree.encode().unwrap()).unwrap();
    text[b"export default ".len()..].to_vec()
  });
  let inner = |text: &[u8], quote: u8| {
    assert_eq!([text[0], text[text.len() - 2]], [quote; 2]);
    assert_eq!(text[text.len() - 1], b'\n');
    text[1..text.len() - 2].to_vec()
  };
  (inner(&string, b'"'), inner(&template, b'`'))
}

/// Opaque texts, names and keywords may be any bytes.
#[test]
fn bytes_stay() {
  let tree =
    r#"Mo(Vd(Vr(Bd(Id#2"\xff\x00"(Op"\x80 ") Kw"\xfe") No)) Op"\xc3")"#;
  let wanted = b"\xc3\nlet \x80  \xff\x00 : \xfe\n";
  assert_eq!(whole(&bytes(tree)), Ok(wanted.to_vec()));
}

/// Two spaces for each `Ns` around a line, up to the last level.
#[test]
fn indents() {
  let mut tree = "Us(Op\"u\")".to_string();
  let mut wanted = vec!["u".to_string()];
  for depth in 1..=30 {
    tree = format!("Ns(Op\"n\" Nb({tree} Im))");
    for line in &mut wanted {
      line.insert_str(0, "  ");
    }
    wanted.insert(0, "namespace n {".to_string());
    wanted.extend(["  ".to_string(), "}".to_string()]);
    let lines = wanted.join("\n") + "\n";
    assert_eq!(shown(&format!("Mo({tree})")), lines, "{depth}");
  }
  assert_eq!(parse(&format!("Mo({tree})")).unwrap().depth(), 63);
}

#[test]
fn the_program() {
  let declared = "declare const _dts_1 : readonly [ ]\nexport default _dts_1\n";
  assert_eq!(program(&bytes("Mo(Xe(Ar))")), declared.as_bytes());
  let printed = |tree: &str| String::from_utf8(program(&bytes(tree))).unwrap();
  assert_eq!(
    printed(r#"Mo(St Vd+2(Vr(Bd(Id#2"a" No) Nu=1)))"#),
    "declare const a : number\n"
  );
  assert_eq!(program(&[b'x'; 32_769]), b"too long\n");
  // The transform refuses.
  assert_eq!(printed("Mo(Ed)"), "refused 5 at 15\n");
  // The text refuses: `-0.5 as const` loses its spelling.
  assert_eq!(
    printed(r#"Mo(Xe(Tc(Mi(Nu=0.5(Op"0.5")))))"#),
    "refused 11 at 100\n"
  );
  assert_eq!(
    printed(r#"Mo(Xe(Tc(Nu=0.5(Op"0.5"))))"#),
    "declare const _dts_1 : 0.5\nexport default _dts_1\n"
  );
  // What the transform makes is deeper than what it was made of, and so the
  // text refuses it: 61 arrays are 64 levels.
  let deep = "Ar(".repeat(61) + "Nl" + &")".repeat(61);
  assert!(printed(&format!("Mo(Xe({deep}))")).starts_with("refused 7 at "));
}

/// The recorded form of a case.
#[test]
fn recorded() {
  let tree = bytes("Mo(Xe(Nl))");
  let case = |tree: &[u8], room: usize| {
    let tree = tree.to_vec();
    write_text(&TextCase { tree, room })
  };
  let numbers = |numbers: [u32; 5]| numbers.map(u32::to_le_bytes).concat();
  let wanted = [&numbers([45, 45, 20, 0, 20])[..], &tree];
  let wanted = [wanted.concat(), b"export default null\n".to_vec()].concat();
  assert_eq!(case(&tree, 20), wanted);
  let short = [numbers([45, 45, 19, 9, 0]), tree.clone()].concat();
  assert_eq!(case(&tree, 19), short);
  let cut = [numbers([44, 44, 20, 3, 30]), tree[..44].to_vec()].concat();
  assert_eq!(case(&tree[..44], 20), cut);
  // Of a tree that is too long only the length counts.
  let long = case(&[0; MAX_TREE + 1], 20);
  assert_eq!(long, numbers([0, MAX_TREE as u32 + 1, 20, 1, 0]));
}

// Laws over random trees.

/// Accepted random trees.
fn accepted(seed: u64, count: u64) -> impl Iterator<Item = Rec> {
  let cases = (0..count).map(move |number| numbered_text(seed, number));
  cases.filter_map(|case| {
    check(&case.tree, &[]).ok()?;
    Some(Rec::read(&case.tree, 0)?.0)
  })
}

fn answer(tree: &Rec) -> Result<Vec<u8>, Refused> {
  whole(&tree.encode().unwrap())
}

/// The answer without the place.
fn number_or_text(tree: &Rec) -> Result<Vec<u8>, u8> {
  answer(tree).map_err(|no| no.number)
}

/// Ranges, contexts and flags without a name are no part of a text.
#[test]
fn what_is_not_read() {
  let mut rng = Rng::new(5);
  for tree in accepted(31, 3_000) {
    let mut other = tree.clone();
    other.each_mut(&mut |r| {
      (r.start, r.end) = (rng.below(9) as u32, 9);
      let named = FLAGGED.iter().find(|row| row.0 == r.mark());
      let named = named.map_or(0, |row| row.1);
      r.flags ^= rng.below(256) as u8 & !named;
      if r.is("Id") {
        r.text[rng.below(4)] ^= 255;
      }
    });
    assert_eq!(answer(&other), answer(&tree));
  }
}

/// "An St, a Dm, a body, and the initial value of a declarator or class property
/// are left out"; so are the Ops of a Qu and of a literal, and the flags of a Fu.
#[test]
fn what_is_left_out() {
  let mut changed = 0;
  for tree in accepted(32, 3_000) {
    let mut other = tree.clone();
    other.each_mut(&mut |r| match r.mark() {
      "Mo" | "Nb" => r.kids.retain(|kid| !kid.is("St")),
      "Cl" => r.kids.retain(|kid| !kid.is("Dm")),
      "Fu" => {
        r.flags ^= 3;
        r.kids[2] = parse(r#"Op"body""#).unwrap();
      }
      "Co" => r.kids[0] = rec("No", vec![]),
      "Vr" => r.kids[1] = parse("Nu=0.5").unwrap(),
      "Cp" => r.kids[2] = parse("Nu=0.5").unwrap(),
      "Qu" | "Ss" | "Bi" | "Bl" | "Nl" | "Jt" => r.kids.clear(),
      "Nu" => r.kids.truncate(1),
      _ => {}
    });
    changed += (other != tree) as u64;
    assert_eq!(number_or_text(&other), number_or_text(&tree));
  }
  assert!(changed > 1_000);
}

/// One item to a line: the text of a module is that of its Ops and of its items
/// one after the other.
#[test]
fn item_by_item() {
  for tree in accepted(33, 3_000) {
    let Ok(text) = answer(&tree) else {
      continue;
    };
    let (ops, items): (Vec<Rec>, Vec<Rec>) =
      tree.kids.into_iter().partition(|kid| kid.is("Op"));
    let mut joined = answer(&rec("Mo", ops)).unwrap();
    for item in items {
      joined.extend(answer(&rec("Mo", vec![item])).unwrap());
    }
    assert_eq!(joined, text);
  }
}

/// The text in a namespace is that without it, two spaces further in, if no
/// opaque text has line feeds of its own.
#[test]
fn in_a_namespace() {
  let mut compared = 0;
  for mut tree in accepted(34, 3_000) {
    tree.kids.retain(|kid| !kid.is("Op"));
    tree.each_mut(&mut |r| {
      if !matches!(r.mark(), "Nu" | "Id") {
        r.text.retain(|b| *b != b'\n');
      } else if r.is("Id") && r.text[4..].contains(&b'\n') {
        r.text.truncate(4);
      }
    });
    let Ok(text) = answer(&tree) else {
      continue;
    };
    let block = rec("Nb", tree.kids);
    let namespace = rec("Ns", vec![parse(r#"Op"n""#).unwrap(), block]);
    let around = rec("Mo", vec![namespace]);
    if around.depth() > 64 {
      continue;
    }
    let mut wanted = b"namespace n {\n".to_vec();
    for line in text.split_inclusive(|b| *b == b'\n') {
      wanted.extend(b"  ");
      wanted.extend(line);
    }
    wanted.extend(b"}\n");
    assert_eq!(answer(&around), Ok(wanted));
    compared += 1;
  }
  assert!(compared > 1_500);
}

/// Every mark is written, with Ops of its own, every value of the named flags,
/// every byte in strings and templates, and every rule; refusals 3 to 8, 9 and
/// 11 occur; and at least half of the calls are done.
#[test]
fn what_the_cases_show() {
  let mut texts = Texts::default();
  for number in 0..12_000 {
    texts.add(&numbered_text(41, number));
  }
  assert_eq!(texts.missing(), [""; 0]);
  for number in [3, 4, 5, 6, 7, 8, 9, 11] {
    let count = texts.refused.get(&number).copied().unwrap_or(0);
    assert!(count > 50, "{number}: {count}");
  }
  assert!(texts.done * 2 >= texts.cases);
  for mark in Grammar::marks() {
    assert!(texts.marks[mark] > 50, "{mark}");
  }
}

#[test]
fn fixed_cases() {
  let mut numbers = BTreeSet::new();
  let mut longest = 0;
  for case in text_limits() {
    match text(&case.tree, case.room) {
      Ok(text) => longest = longest.max(text.len()),
      Err(no) => {
        numbers.insert(no.number);
      }
    }
  }
  assert_eq!(numbers, BTreeSet::from([1, 3, 4, 5, 6, 7, 8, 9, 11]));
  assert!(longest > 2_500_000);
}

/// The same seed gives the same cases.
#[test]
fn cases_come_again() {
  for number in 0..100 {
    assert_eq!(numbered_text(9, number), numbered_text(9, number));
  }
}
