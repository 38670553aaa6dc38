//! How many of each diagnostic, and how deep: document 02's §1.
//!
//! The originals say a diagnostic's range, and not its record. So each record
//! gets a range of its own, the unchanged Rust runs on that tree too, and the
//! range of a diagnostic says where it is marked. With the former ranges put
//! back, this run has to give what the ordinary one gives: the same diagnostics
//! in the same order, and the same tree.

use std::collections::HashSet;

use crate::call::Answer;
use crate::call::Diagnostic;
use crate::call::call;
use crate::call::transform;
use crate::decode::CHOICES;
use crate::generate::Case;
use crate::generate::entry;
use crate::grammar::check;
use crate::grammar::entry_range;
use crate::record::Mark;
use crate::record::Rec;

/// The table's rows, d1 to d5, and its columns, depth 0 to 31.
pub const ROWS: usize = 5;
pub const COLUMNS: usize = 32;
pub const CELLS: usize = ROWS * COLUMNS;

/// The table, row by row.
pub type Counts = [u32; CELLS];

/// A diagnostic, and the record that it is marked at.
#[derive(Clone, Copy, Debug, PartialEq, Eq)]
pub struct Marked {
  pub diagnostic: Diagnostic,
  pub at: At,
}

/// A record's mark, and how many `Ns` and how many `Nd` records hold it. A
/// record does not hold itself.
#[derive(Clone, Copy, Debug, PartialEq, Eq)]
pub struct At {
  pub mark: Mark,
  pub depth: usize,
  pub dots: usize,
}

type Range = (u32, u32);

/// A record's own range, the one that it had, and where it stands.
struct Place {
  own: Range,
  former: Range,
  at: At,
}

/// The records in preorder; the first is number 1, so that no own range is that
/// of a made record, 0 to 0.
#[derive(Default)]
struct Places(Vec<Place>);

impl Places {
  /// Gives each record of the tree a range of its own.
  fn give(tree: &mut Rec) -> Places {
    let mut places = Places::default();
    places.add(tree, 0, 0);
    places
  }

  fn add(&mut self, r: &mut Rec, depth: usize, dots: usize) {
    let number = self.0.len() as u32 + 1;
    let former = (r.start, r.end);
    // Both ends stay what they were modulo CHOICES (see decode.rs).
    r.start = number * CHOICES + former.0 % CHOICES;
    r.end = r.start + (former.1 - former.0) % CHOICES;
    self.0.push(Place {
      own: (r.start, r.end),
      former,
      at: At {
        mark: r.mark,
        depth,
        dots,
      },
    });
    let depth = depth + r.is("Ns") as usize;
    let dots = dots + r.is("Nd") as usize;
    for kid in &mut r.kids {
      self.add(kid, depth, dots);
    }
  }

  /// The record that has this range as its own.
  fn find(&self, own: Range) -> &Place {
    (own.0 / CHOICES)
      .checked_sub(1)
      .and_then(|number| self.0.get(number as usize))
      .filter(|place| place.own == own)
      .expect("the range of a record")
  }

  /// A list that names the same records.
  fn list(&self, list: &[u8]) -> Vec<u8> {
    let former: HashSet<Range> = list.chunks(10).map(entry_range).collect();
    let listed = self.0.iter().filter(|p| former.contains(&p.former));
    listed.flat_map(|p| entry(p.own.0, p.own.1)).collect()
  }

  /// Puts the former ranges back; a made record has none of its own.
  fn put_back(&self, tree: &mut Rec) {
    tree.each_mut(&mut |r| {
      if (r.start, r.end) != (0, 0) {
        (r.start, r.end) = self.find((r.start, r.end)).former;
      }
    });
  }
}

/// The diagnostics of an accepted tree, in order, each with its record. Panics
/// if the ranges changed anything.
pub fn marked(tree: &Rec, list: &[u8], unresolved: u32) -> Vec<Marked> {
  let (output, diagnostics) = transform(tree, list, unresolved);
  let mut own = tree.clone();
  let places = Places::give(&mut own);
  let (mut own_output, own_diagnostics) =
    transform(&own, &places.list(list), unresolved);
  places.put_back(&mut own_output);
  assert!(
    own_output == output,
    "ranges of their own change the output"
  );
  let marked: Vec<Marked> = own_diagnostics
    .iter()
    .map(|d| {
      let place = places.find((d.start, d.end));
      Marked {
        diagnostic: Diagnostic {
          digit: d.digit,
          start: place.former.0,
          end: place.former.1,
        },
        at: place.at,
      }
    })
    .collect();
  assert!(
    marked.iter().map(|m| m.diagnostic).eq(diagnostics),
    "ranges of their own change the diagnostics"
  );
  marked
}

/// The number of diagnostics of each kind at each depth.
pub fn table(marked: &[Marked]) -> Counts {
  let mut counts = [0; CELLS];
  for m in marked {
    counts[cell(m.diagnostic.digit, m.at.depth)] += 1;
  }
  counts
}

/// The place of a kind, 1 to 5, and a depth in the table.
pub fn cell(digit: u8, depth: usize) -> usize {
  let row = digit as usize - 1;
  assert!(row < ROWS && depth < COLUMNS);
  row * COLUMNS + depth
}

/// The call: as `call`, and the table where it is done. A refusal leaves the
/// counts as they were.
pub fn depths(
  tree: &[u8],
  list: &[u8],
  unresolved: u32,
  out: &mut [u8],
  diagnostics: &mut [u8],
  counts: &mut Counts,
) -> Answer {
  let answer = call(tree, list, unresolved, out, diagnostics);
  if check(tree, list).is_err() {
    return answer;
  }
  let (tree, _) = Rec::read(tree, 0).expect("an accepted tree reads");
  let marked = marked(&tree, list, unresolved);
  if let Answer::Done(_, count) = answer {
    let bytes = marked.iter().flat_map(|m| m.diagnostic.encode());
    assert!(bytes.eq(diagnostics[..10 * count].iter().copied()));
    *counts = table(&marked);
  }
  answer
}

/// What the program `depths` prints of a table: five lines, and the total.
pub fn print(counts: &Counts) -> String {
  let mut text = String::new();
  for row in counts.chunks(COLUMNS) {
    let words: Vec<String> = row.iter().map(u32::to_string).collect();
    text += &words.join(" ");
    text.push('\n');
  }
  let total: u32 = counts.iter().sum();
  text + &format!("{total}\n")
}

/// The cells that are not 0, each as kind, depth and count: `1:0:2,5:3:1`, or
/// `-` where there is none.
pub fn show(counts: &Counts) -> String {
  let cells = counts.iter().enumerate().filter(|(_, count)| **count > 0);
  let words: Vec<String> = cells
    .map(|(at, count)| format!("{}:{}:{count}", at / COLUMNS + 1, at % COLUMNS))
    .collect();
  match words.is_empty() {
    true => "-".to_string(),
    false => words.join(","),
  }
}

/// What a call gave: the answer, the bytes that it wrote, and the table, which
/// is absent on a refusal.
#[derive(Clone, Debug, PartialEq, Eq)]
pub struct Outcome {
  pub answer: Answer,
  pub output: Vec<u8>,
  pub diagnostics: Vec<u8>,
  pub counts: Option<Counts>,
}

const UNTOUCHED: (u8, u32) = (0xa5, 0xa5a5_5a5a);

/// Runs a case on buffers of known bytes. What the call leaves has to be as it
/// was.
pub fn outcome(case: &Case) -> Outcome {
  let mut output = vec![UNTOUCHED.0; case.out];
  let mut diagnostics = vec![UNTOUCHED.0; case.diagnostics];
  let mut counts = [UNTOUCHED.1; CELLS];
  let answer = depths(
    &case.tree,
    &case.list,
    case.unresolved,
    &mut output,
    &mut diagnostics,
    &mut counts,
  );
  let (bytes, count, counts) = match answer {
    Answer::Done(bytes, count) => (bytes, count, Some(counts)),
    Answer::Refused(_) => {
      assert!(counts == [UNTOUCHED.1; CELLS]);
      (0, 0, None)
    }
  };
  assert!(output[bytes..].iter().all(|b| *b == UNTOUCHED.0));
  assert!(diagnostics[10 * count..].iter().all(|b| *b == UNTOUCHED.0));
  output.truncate(bytes);
  diagnostics.truncate(10 * count);
  Outcome {
    answer,
    output,
    diagnostics,
    counts,
  }
}
