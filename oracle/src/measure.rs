//! Runs over many cases, and what they count.

use std::collections::BTreeMap;

use crate::call::Answer;
use crate::call::call;
use crate::decode;
use crate::depths;
use crate::encode;
use crate::generate::Case;
use crate::generate::Rng;
use crate::generate::TextCase;
use crate::generate::case;
use crate::generate::depth_case;
use crate::generate::dotted_case;
use crate::generate::dotted_limits;
use crate::generate::limits;
use crate::generate::text_case;
use crate::generate::text_limits;
use crate::grammar::Grammar;
use crate::grammar::check;
use crate::lines::outcome;
use crate::record::Rec;
use crate::text::counts::Texts;

/// The sizes of the trees, in records; small ones more often.
const SIZES: [usize; 6] = [6, 12, 12, 30, 30, 120];

/// The case with this number of the run with this seed.
pub fn numbered(seed: u64, number: u64, ample: bool) -> Case {
  let mut rng = Rng::new(seed.wrapping_mul(1_000_000_007).wrapping_add(number));
  let size = *rng.one_of(&SIZES);
  case(&mut rng, size, ample)
}

/// The same, of the run with namespaces in namespaces.
pub fn numbered_depth(seed: u64, number: u64, ample: bool) -> Case {
  let mut rng = Rng::new(seed.wrapping_mul(1_000_000_007).wrapping_add(number));
  let size = *rng.one_of(&SIZES);
  depth_case(&mut rng, size, ample)
}

/// The same, of the run with dotted names.
pub fn numbered_dotted(seed: u64, number: u64, ample: bool) -> Case {
  let mut rng = Rng::new(seed.wrapping_mul(1_000_000_007).wrapping_add(number));
  let size = *rng.one_of(&SIZES);
  dotted_case(&mut rng, size, ample)
}

/// The case of the text with this number.
pub fn numbered_text(seed: u64, number: u64) -> TextCase {
  let mut rng = Rng::new(seed.wrapping_mul(1_000_000_007).wrapping_add(number));
  let size = *rng.one_of(&SIZES);
  text_case(&mut rng, size)
}

#[derive(Default)]
pub struct Counts {
  pub cases: u64,
  pub accepted: u64,
  /// By the refusal's number.
  pub refused: BTreeMap<u8, u64>,
  /// Records of accepted trees, by mark.
  pub marks: BTreeMap<String, u64>,
  /// Diagnostics of calls that were done, by digit.
  pub diagnostics: BTreeMap<char, u64>,
  /// Accepted trees that decoding and encoding did not give back.
  pub changed: u64,
  /// Accepted trees with more diagnostics than records.
  pub too_many: u64,
}

impl Counts {
  pub fn add(&mut self, case: &Case) {
    self.cases += 1;
    let outcome = outcome(case);
    if let Answer::Refused(no) = outcome.answer {
      *self.refused.entry(no.number).or_default() += 1;
    }
    for d in outcome.diagnostics.chunks(10) {
      *self.diagnostics.entry(d[1] as char).or_default() += 1;
    }
    if check(&case.tree, &case.list).is_err() {
      return;
    }
    self.accepted += 1;
    let (tree, _) = Rec::read(&case.tree, 0).expect("an accepted tree reads");
    let mut records = 0;
    tree.each(&mut |r| {
      records += 1;
      *self.marks.entry(r.mark().to_string()).or_default() += 1;
    });
    self.too_many += (outcome.diagnostics.len() / 10 > records) as u64;
    let (module, notes) = decode::module(&tree);
    if encode::module(&module, &notes) != tree {
      self.changed += 1;
    }
  }

  pub fn print(&self) {
    println!("cases {}", self.cases);
    println!("accepted {}", self.accepted);
    for (number, count) in &self.refused {
      println!("refused {number}: {count}");
    }
    for (digit, count) in &self.diagnostics {
      println!("diagnostics d{digit}: {count}");
    }
    let fewest = Grammar::marks()
      .map(|mark| (self.marks.get(mark).copied().unwrap_or(0), mark))
      .min();
    if let Some((count, mark)) = fewest {
      println!("records of accepted trees: the rarest mark is {mark}: {count}");
    }
    for mark in Grammar::marks() {
      print!("{mark} {}  ", self.marks.get(mark).copied().unwrap_or(0));
    }
    println!();
    println!("more diagnostics than records: {}", self.too_many);
    println!("decoded and encoded with a difference: {}", self.changed);
  }
}

/// Random cases and those at the limits.
pub fn count(cases: u64, seed: u64) -> Counts {
  let mut counts = Counts::default();
  for case in limits() {
    counts.add(&case);
  }
  for number in 0..cases {
    counts.add(&numbered(seed, number, false));
  }
  counts
}

/// How many diagnostics of each kind stand at which depth.
pub struct Depths {
  pub cases: u64,
  pub done: u64,
  /// By the refusal's number.
  pub refused: BTreeMap<u8, u64>,
  /// Of calls that were done, row by row: diagnostics, and cases with one.
  pub diagnostics: [u64; depths::CELLS],
  pub with_one: [u64; depths::CELLS],
  /// Cases by their deepest diagnostic.
  pub deepest: [u64; depths::COLUMNS],
}

impl Default for Depths {
  fn default() -> Depths {
    Depths {
      cases: 0,
      done: 0,
      refused: BTreeMap::new(),
      diagnostics: [0; depths::CELLS],
      with_one: [0; depths::CELLS],
      deepest: [0; depths::COLUMNS],
    }
  }
}

impl Depths {
  pub fn add(&mut self, case: &Case) {
    self.cases += 1;
    let outcome = depths::outcome(case);
    match outcome.answer {
      Answer::Done(..) => self.done += 1,
      Answer::Refused(no) => *self.refused.entry(no.number).or_default() += 1,
    }
    let Some(counts) = outcome.counts else {
      return;
    };
    let mut deepest = None;
    for (cell, count) in counts.iter().enumerate() {
      self.diagnostics[cell] += *count as u64;
      if *count > 0 {
        self.with_one[cell] += 1;
        deepest = deepest.max(Some(cell % depths::COLUMNS));
      }
    }
    if let Some(depth) = deepest {
      self.deepest[depth] += 1;
    }
  }

  /// Cases with a diagnostic so deep or deeper.
  pub fn as_deep_as(&self, depth: usize) -> u64 {
    self.deepest[depth..].iter().sum()
  }

  /// The diagnostics in the last column.
  pub fn in_last_column(&self) -> u64 {
    self
      .diagnostics
      .chunks(depths::COLUMNS)
      .map(|row| row[31])
      .sum()
  }

  pub fn print(&self) {
    println!("cases {}", self.cases);
    println!("done {}", self.done);
    for (number, count) in &self.refused {
      println!("refused {number}: {count}");
    }
    for depth in [0, 1, 2, 10, 29, 30] {
      let count = self.as_deep_as(depth);
      println!("cases with a diagnostic at depth {depth} or more: {count}");
    }
    let row = |counts: &[u64]| -> String {
      let words = counts.iter().enumerate().filter(|(_, count)| **count > 0);
      words
        .map(|(depth, count)| format!(" {depth}:{count}"))
        .collect()
    };
    for (kind, counts) in self.diagnostics.chunks(depths::COLUMNS).enumerate() {
      println!("diagnostics d{} by depth:{}", kind + 1, row(counts));
    }
    for (kind, counts) in self.with_one.chunks(depths::COLUMNS).enumerate() {
      println!("cases with a d{} by depth:{}", kind + 1, row(counts));
    }
    println!("diagnostics at depth 31: {}", self.in_last_column());
  }
}

/// Chains of `Nd`, and what becomes of them.
#[derive(Default)]
pub struct Dotted {
  pub cases: u64,
  pub done: u64,
  /// By the refusal's number.
  pub refused: BTreeMap<u8, u64>,
  /// Of calls that were done: trees that hold an `Nd`, those that hold one
  /// within the body of another, and the records.
  pub with_one: u64,
  pub in_another: u64,
  pub records: u64,
  /// Trees of calls that were done by their longest chain.
  pub longest: BTreeMap<usize, u64>,
  /// Calls after which the output's `Nd` records have other heads, names or
  /// `Op`s than the tree's.
  pub changed: u64,
}

impl Dotted {
  pub fn add(&mut self, case: &Case) {
    self.cases += 1;
    let outcome = outcome(case);
    if let Answer::Refused(no) = outcome.answer {
      *self.refused.entry(no.number).or_default() += 1;
      return;
    }
    self.done += 1;
    let read = |bytes: &[u8]| Rec::read(bytes, 0).expect("a tree").0;
    let (tree, output) = (read(&case.tree), read(&outcome.output));
    let records = links(&tree);
    self.changed += (records != links(&output)) as u64;
    if records.is_empty() {
      return;
    }
    self.with_one += 1;
    self.records += records.len() as u64;
    let (mut longest, mut in_another) = (0, false);
    tree.each(&mut |r| {
      let (mut length, mut block) = (0, r);
      while block.is("Ns") || block.is("Nd") {
        length += block.is("Nd") as usize;
        block = &block.kids[1];
      }
      longest = longest.max(length);
      in_another |= r.is("Nd") && !links(block).is_empty();
    });
    *self.longest.entry(longest).or_default() += 1;
    self.in_another += in_another as u64;
  }

  pub fn print(&self) {
    println!("cases {}", self.cases);
    println!("done {}", self.done);
    for (number, count) in &self.refused {
      println!("refused {number}: {count}");
    }
    println!("done, with an Nd: {}", self.with_one);
    println!(
      "  of these, with one in another's body: {}",
      self.in_another
    );
    println!("  Nd records: {}", self.records);
    print!("  by their longest chain:");
    for (length, count) in &self.longest {
      print!(" {length}:{count}");
    }
    println!();
    println!("with another head, name or Op of an Nd: {}", self.changed);
  }
}

/// The `Nd` records of a tree in preorder, each without its body.
pub fn links(tree: &Rec) -> Vec<Rec> {
  let mut links = vec![];
  tree.each(&mut |r| {
    if r.is("Nd") {
      let mut link = r.clone();
      link.kids.remove(1);
      links.push(link);
    }
  });
  links
}

/// Random cases with dotted names and the fixed ones.
pub fn dotted(cases: u64, seed: u64) -> Dotted {
  let mut dotted = Dotted::default();
  for case in dotted_limits() {
    dotted.add(&case);
  }
  for number in 0..cases {
    dotted.add(&numbered_dotted(seed, number, false));
  }
  dotted
}

/// Random cases of the text and the fixed ones.
pub fn texts(cases: u64, seed: u64) -> Texts {
  let mut texts = Texts::default();
  for case in text_limits() {
    texts.add(&case);
  }
  for number in 0..cases {
    texts.add(&numbered_text(seed, number));
  }
  texts
}

/// Demand 3 over random cases, each run twice. The conditions, in document
/// 01's words: the first call succeeds, its output is accepted, every
/// expression exported as default in the output is an identifier, and so was
/// each of a namespace's in the input; the buffers are long enough.
#[derive(Default)]
pub struct Twice {
  pub cases: u64,
  pub refused: u64,
  /// The output was not accepted, by the refusal's number.
  pub output_refused: BTreeMap<u8, u64>,
  pub default_left: u64,
  pub default_in_namespace: u64,
  pub met: u64,
  /// Met the conditions, and the first call changed the tree.
  pub changed: u64,
  /// Met the conditions, and the tree holds an `Nd`.
  pub dotted: u64,
  /// Met the conditions, and the diagnostics of the calls differ.
  pub diagnostics_differ: u64,
  pub failed: Vec<Case>,
}

const ROOM: usize = 1 << 21;

pub fn twice(cases: impl Iterator<Item = Case>) -> Twice {
  let mut count = Twice::default();
  let mut buffers = [vec![0; ROOM], vec![0; ROOM]];
  let mut room = [vec![0; ROOM], vec![0; ROOM]];
  for case in cases {
    count.add(case, &mut buffers, &mut room);
  }
  count
}

impl Twice {
  fn add(
    &mut self,
    case: Case,
    buffers: &mut [Vec<u8>; 2],
    room: &mut [Vec<u8>; 2],
  ) {
    self.cases += 1;
    let [first, second] = buffers;
    let [first_room, second_room] = room;
    let answer =
      call(&case.tree, &case.list, case.unresolved, first, first_room);
    let Answer::Done(length, diagnostics) = answer else {
      self.refused += 1;
      return;
    };
    let written = &first[..length];
    if let Err(no) = check(written, &case.list) {
      *self.output_refused.entry(no.number).or_default() += 1;
      return;
    }
    let output = Rec::read(written, 0).expect("an accepted tree reads").0;
    let input = Rec::read(&case.tree, 0).expect("an accepted tree reads").0;
    if !defaults_are_identifiers(&output) {
      self.default_left += 1;
      return;
    }
    let mut in_namespaces = true;
    input.each(&mut |r| {
      in_namespaces &= !r.is("Nb") || defaults_are_identifiers(r);
    });
    if !in_namespaces {
      self.default_in_namespace += 1;
      return;
    }
    self.met += 1;
    let again = call(written, &case.list, case.unresolved, second, second_room);
    self.changed += (written != case.tree) as u64;
    self.dotted += !links(&input).is_empty() as u64;
    match again {
      Answer::Done(again, count) if second[..again] == *written => {
        let same = count == diagnostics
          && first_room[..10 * count] == second_room[..10 * count];
        self.diagnostics_differ += !same as u64;
      }
      _ => self.failed.push(case),
    }
  }

  pub fn print(&self) {
    println!("cases {}", self.cases);
    println!("first call refused {}", self.refused);
    for (number, count) in &self.output_refused {
      println!("output not accepted, {number}: {count}");
    }
    println!("output with a default expression {}", self.default_left);
    println!(
      "namespace with a default expression {}",
      self.default_in_namespace
    );
    println!("met the conditions of demand 3: {}", self.met);
    println!("  of these, changed by the first call: {}", self.changed);
    println!("  of these, with a dotted name: {}", self.dotted);
    println!("  of these, other diagnostics: {}", self.diagnostics_differ);
    println!("  of these, other bytes: {}", self.failed.len());
  }
}

/// Whether every `Xe` in the tree holds an `Id`.
fn defaults_are_identifiers(tree: &Rec) -> bool {
  let mut all = true;
  tree.each(&mut |r| all &= !r.is("Xe") || r.kids[0].is("Id"));
  all
}
