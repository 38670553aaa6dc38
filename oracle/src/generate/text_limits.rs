//! Cases of the text that are not left to chance: the samples, every flag, every
//! byte and the numbers around the limits, long and deep trees, and buffers that
//! are exact, or a byte short.

use super::Rng;
use super::TextCase;
use super::limits::deep;
use super::limits::long;
use crate::grammar::MAX_TREE;
use crate::notation::parse;
use crate::record::HEAD;
use crate::record::Rec;
use crate::record::rec;
use crate::text::samples::OUTSIDE;
use crate::text::samples::SAMPLES;
use crate::text::whole;

fn item(text: &str) -> Rec {
  parse(text).unwrap()
}

fn number(bits: u64) -> Rec {
  rec("Nu", vec![]).with_text(&bits.to_le_bytes())
}

fn default_of(value: Rec) -> Rec {
  rec("Mo", vec![rec("Xe", vec![value])])
}

/// Each power of two with its neighbours, each power of ten, the zeros and what
/// is no number: both signs, as bits.
fn numbers() -> Vec<u64> {
  let mut all = vec![0, 1, f64::MIN_POSITIVE.to_bits(), f64::MAX.to_bits()];
  for power in 0..64 {
    let bits = 2f64.powi(power).to_bits();
    all.extend([bits - 1, bits, bits + 1]);
    // The last bits before the point, and behind it.
    all.push((2f64.powi(power) + 1.0).to_bits());
    all.push((2f64.powi(power) - 1.0).to_bits());
    all.push((2f64.powi(power) - 0.5).to_bits());
  }
  for power in -3..25 {
    all.push(10f64.powi(power).to_bits());
  }
  let infinity = f64::INFINITY.to_bits();
  all.extend([infinity - 1, infinity, infinity + 1, f64::NAN.to_bits()]);
  all.extend([0x7fff_ffff_ffff_ffff, 0x000f_ffff_ffff_ffff, 1 << 51]);
  let negative: Vec<u64> = all.iter().map(|bits| bits | 1 << 63).collect();
  [all, negative].concat()
}

/// Each mark with named flags, in a tree, at `+F`.
const FLAGS: [&str; 15] = [
  r#"Mo(Fd+F(Id#2"f" Fu(No No No) Op"o"))"#,
  r#"Mo(Cd+F(Id#2"A" Cl(No) Op"o"))"#,
  r#"Mo(Vd+F(Vr(Bd(Id#2"a" No) No) Op"o"))"#,
  r#"Mo(En+F(Id#2"E" Op"o"))"#,
  r#"Mo(Ns+F(Op"A" Nb Op"o"))"#,
  r#"Mo(Xe(Fx(No Fu+F(No No No Op"o"))))"#,
  r#"Mo(Xe(Cx(No Cl(No Me+F(Ki"m" Fu(No No No) Op"o")))))"#,
  r#"Mo(Xe(Cx(No Cl(No Cp+F(Ki"p" Kw"T" No Op"o")))))"#,
  r#"Mo(Xe(Cx(No Cl(No Ix+F(Op"i")))))"#,
  r#"Mo(Vd(Vr(Pb+F(Kw"T" Op"[b]") No)))"#,
  r#"Mo(Vd(Vr(Po+F(Kw"T" Op"{b}") No)))"#,
  "Mo(Xe(Bl+F))",
  r#"Mo(Xe(Id+F#2"a"))"#,
  "Mo(Xe(Te(Qu+F)))",
  r#"Mo(Xe(As(Nl Li(Ps+F(Id#0"k" Kw"T" Op"o")))))"#,
];

/// Deep trees: templates in templates, namespaces in namespaces with items on
/// the last level, opaque parts in each other, an array with a hole on the last
/// level, types in types.
fn nests() -> Vec<Rec> {
  let mut trees = vec![];
  for levels in [2, 3, 20, 61, 62, 63] {
    let mut template = item(r#"Te(Qu+1"q")"#);
    let mut array = item("Ar(No)");
    let mut op = item(r#"Op"x""#);
    let mut ty = item(r#"Kw"T""#);
    for level in 3..=levels {
      let quasi = || item(r#"Qu+1"q""#);
      template = rec("Te", vec![quasi(), quasi(), template]);
      array = rec("Ar", vec![array, rec("No", vec![])]);
      op = rec("Op", vec![op]).with_text(format!("{level}").as_bytes());
      ty = rec("Ro", vec![ty]);
    }
    trees.push(default_of(template));
    trees.push(default_of(array));
    trees.push(rec("Mo", vec![rec("Im", vec![op.clone()])]));
    trees.push(rec("Mo", vec![op]));
    trees.push(default_of(rec("As", vec![item("Nl"), ty])));
  }
  for depth in [1, 2, 30, 31, 32] {
    for inner in ["Im", "Vd+1", r#"Im(Op"x")"#, "Xe(Nl)", "St"] {
      let mut items = vec![item(inner)];
      for _ in 0..depth {
        let name = item(r#"Op"n""#);
        items = vec![rec("Ns", vec![name, rec("Nb", items)]), item("Us")];
      }
      trees.push(rec("Mo", items));
    }
  }
  trees
}

/// Long trees: strings whose every byte is escaped, as many items as fit in 30
/// namespaces, as many elements and tokens as fit.
fn longs() -> Vec<Rec> {
  let mut trees = vec![];
  for bytes in [MAX_TREE - 1, MAX_TREE, MAX_TREE + 1] {
    trees.push(long(bytes));
  }
  let value = |length: usize| vec![b'$'; length];
  let string = |length: usize| rec("Ss", vec![]).with_text(&value(length));
  trees.push(default_of(string(65_535)));
  let quasi = rec("Qu", vec![]).with_flags(1).with_text(&value(65_535));
  trees.push(default_of(rec("Te", vec![quasi; 7])));
  trees.push(default_of(rec("Ar", vec![string(65_535); 7])));
  let mut items = vec![item("Im"); (MAX_TREE - 31 * 45 - HEAD) / HEAD];
  for _ in 0..30 {
    items = vec![rec("Ns", vec![rec("Op", vec![]), rec("Nb", items)])];
  }
  trees.push(rec("Mo", items));
  let fits = (MAX_TREE - 3 * HEAD) / HEAD;
  trees.push(default_of(rec("Ar", vec![rec("No", vec![]); fits])));
  trees.push(default_of(rec("Te", vec![rec("Jt", vec![]); fits])));
  trees.push(rec("Mo", vec![item(r#"Op"x""#); (MAX_TREE - HEAD) / 16]));
  trees
}

pub fn text_limits() -> Vec<TextCase> {
  let mut cases = vec![];
  let mut add = |tree: Vec<u8>, room: usize| {
    cases.push(TextCase { tree, room });
  };
  let ample = 16 * MAX_TREE;
  let small = SAMPLES.iter().map(|sample| sample.0);
  for tree in small.chain(OUTSIDE.iter().map(|sample| sample.0)) {
    let tree = item(tree).encode().unwrap();
    if let Ok(text) = whole(&tree) {
      add(tree.clone(), text.len());
      // A buffer of no bytes is long enough for no text.
      add(tree.clone(), 0);
      add(tree.clone(), text.len().saturating_sub(1));
    }
    // 11 is tested before the room.
    add(tree, 1000);
  }
  for (tree, _) in OUTSIDE {
    add(item(tree).encode().unwrap(), 0);
  }
  // Numbers: written, with an empty spelling, and not written.
  for bits in numbers() {
    add(default_of(number(bits)).encode().unwrap(), 100);
    let mut spelled = number(bits);
    spelled.kids.push(rec("Op", vec![]));
    add(default_of(spelled).encode().unwrap(), 100);
    let variable = vec![rec("Pi", vec![]), number(bits)];
    let variables = rec("Vd", vec![rec("Vr", variable)]);
    add(rec("Mo", vec![variables]).encode().unwrap(), 100);
  }
  // Every byte in a string, a cooked text, a name, a key, an opaque text.
  let places = [
    "Mo(Xe(Ss\"?\"))",
    "Mo(Xe(Te(Qu+1\"?\")))",
    "Mo(Xe(Id#1\"?\"))",
    "Mo(Xe(Ob(Kv(Ki\"?\" Nl))))",
    "Mo(Vd(Vr(Pb(Kw\"?\") No)))",
    "Mo(Xe(Cx(No Cl(No Ix(Op\"?\")))))",
    "Mo(Ns(Op\"?\" Nb))",
  ];
  for place in places {
    for b in 0..=255u8 {
      let tree = place.replace('?', &format!("\\x{b:02x}"));
      add(item(&tree).encode().unwrap(), 100);
    }
  }
  for tree in FLAGS {
    for flags in 0..=255 {
      let tree = tree.replace("+F", &format!("+{flags}"));
      add(item(&tree).encode().unwrap(), 100);
    }
  }
  let mut rng = Rng::new(3);
  for depth in [63, 64, 65, 66] {
    for _ in 0..30 {
      add(deep(&mut rng, depth).encode().unwrap(), ample);
    }
  }
  for tree in nests() {
    add(tree.encode().unwrap(), ample);
  }
  for tree in longs() {
    let tree = tree.encode().unwrap();
    let length = whole(&tree).map_or(0, |text| text.len());
    add(tree.clone(), length);
    add(tree, length.saturating_sub(1));
  }
  // Refused before the text is asked for.
  for tree in ["zz", "Mo(Xe(Nu=0.5) Ed)", "Mo(Xe(Nu=0.5) Im@2-1)"] {
    add(item(tree).encode().unwrap(), 0);
  }
  add(vec![], 0);
  add(vec![0; MAX_TREE + 1], ample);
  let outside = item("Mo(Xe(Nu=0.5))").encode().unwrap();
  add([&outside[..], b"x"].concat(), 0);
  add(outside[..outside.len() - 1].to_vec(), 0);
  cases
}
