//! The cases of the program `test_replay` with the Rust's answers: twelve
//! numbers of four bytes for each, then its bytes, as
//! crates/test_replay/src/main.rt says.

use crate::call::Answer;
use crate::depths;
use crate::generate::Case;
use crate::generate::TextCase;
use crate::lines::outcome;
use crate::text;

/// The most bytes of a case's output buffer and of its diagnostics buffer.
const ROOM: usize = 4096;

/// What the program need not read: of a tree or a list that is too long only
/// its length counts.
const LONGEST_TREE: usize = 524_288;
const LONGEST_LIST: usize = 40_960;

fn stored(bytes: &[u8], longest: usize) -> &[u8] {
  match bytes.len() > longest {
    true => &[],
    false => bytes,
  }
}

/// The case with its buffers cut to what the program has room for.
fn cut(case: &Case) -> Case {
  Case {
    tree: case.tree.clone(),
    list: case.list.clone(),
    out: case.out.min(ROOM),
    diagnostics: case.diagnostics.min(ROOM),
    unresolved: case.unresolved,
  }
}

/// The twelve numbers, the last two of which are given, the tree and the list.
fn head(case: &Case, answer: Answer, last: [usize; 2]) -> Vec<u8> {
  let answer = match answer {
    Answer::Done(bytes, count) => [0, bytes, count],
    Answer::Refused(no) => [no.number as usize, no.place, 0],
  };
  let tree = stored(&case.tree, LONGEST_TREE);
  let list = stored(&case.list, LONGEST_LIST);
  let mut bytes = vec![];
  for number in [
    tree.len(),
    case.tree.len(),
    list.len(),
    case.list.len(),
    case.unresolved as usize,
    case.out,
    case.diagnostics,
  ]
  .iter()
  .chain(&answer)
  .chain(&last)
  {
    bytes.extend((*number as u32).to_le_bytes());
  }
  bytes.extend(tree);
  bytes.extend(list);
  bytes
}

/// A case of the transform with its answer.
pub fn write(case: &Case) -> Vec<u8> {
  let case = cut(case);
  let outcome = outcome(&case);
  let mut bytes = head(&case, outcome.answer, [0, 0]);
  bytes.extend(outcome.output);
  bytes.extend(outcome.diagnostics);
  bytes
}

/// The same for `depths`: the eleventh number is 1, the twelfth says how many
/// cells of the table are not 0, and they come last, in order: for each its
/// place, row by row (0 to 159), and its count, four bytes each. A refusal has
/// none: the counts are as they were.
pub fn write_depths(case: &Case) -> Vec<u8> {
  let case = cut(case);
  let outcome = depths::outcome(&case);
  let counts = outcome.counts.unwrap_or([0; depths::CELLS]);
  let cells: Vec<(u32, u32)> =
    (0..).zip(counts).filter(|cell| cell.1 > 0).collect();
  let mut bytes = head(&case, outcome.answer, [1, cells.len()]);
  bytes.extend(outcome.output);
  bytes.extend(outcome.diagnostics);
  for (place, count) in cells {
    bytes.extend(place.to_le_bytes());
    bytes.extend(count.to_le_bytes());
  }
  bytes
}

/// Whether the whole output of the case fits in the program's buffers, or is
/// refused with them too.
pub fn has_room(case: &Case) -> bool {
  match depths::outcome(case).answer {
    Answer::Done(bytes, count) => bytes <= ROOM && 10 * count <= ROOM,
    Answer::Refused(_) => true,
  }
}

/// A case of the text with its answer: five numbers of four bytes (the tree's
/// bytes that follow and its length, the length of the buffer; 0 and the text's
/// length, or the refusal's number and its place), then the tree and the text.
/// A refusal has none: the buffer is as it was. Where the tree is longer than
/// the bytes that follow, any bytes do.
pub fn write_text(case: &TextCase) -> Vec<u8> {
  let room = case.room.min(ROOM);
  let (number, value, text) = match text::text(&case.tree, room) {
    Ok(text) => (0, text.len(), text),
    Err(no) => (no.number as usize, no.place, vec![]),
  };
  let tree = stored(&case.tree, LONGEST_TREE);
  let mut bytes = vec![];
  for n in [tree.len(), case.tree.len(), room, number, value] {
    bytes.extend((n as u32).to_le_bytes());
  }
  bytes.extend(tree);
  bytes.extend(text);
  bytes
}
