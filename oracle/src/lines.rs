//! Cases with their answers as plain lines, one case a line, eight fields with
//! a space between them:
//!
//! tree, list (both in hex), unresolved context, length of the output buffer,
//! length of the diagnostics buffer, answer (`ok,BYTES,DIAGNOSTICS` or
//! `refused,NUMBER,PLACE`), output, diagnostics (both in hex: the bytes that
//! were written). A field of no bytes is `-`.

use crate::call::Answer;
use crate::call::call;
use crate::generate::Case;
use crate::grammar::Refused;

/// What a call gave: the answer, and the bytes that it wrote.
#[derive(Clone, Debug, PartialEq, Eq)]
pub struct Outcome {
  pub answer: Answer,
  pub output: Vec<u8>,
  pub diagnostics: Vec<u8>,
}

const UNTOUCHED: [u8; 2] = [0xa5, 0x5a];

/// Runs a case on buffers of known bytes. What lies beyond the counts has to
/// be as it was.
pub fn outcome(case: &Case) -> Outcome {
  let mut output = vec![UNTOUCHED[0]; case.out];
  let mut diagnostics = vec![UNTOUCHED[1]; case.diagnostics];
  let answer = call(
    &case.tree,
    &case.list,
    case.unresolved,
    &mut output,
    &mut diagnostics,
  );
  let (bytes, count) = match answer {
    Answer::Done(bytes, count) => (bytes, count),
    Answer::Refused(_) => (0, 0),
  };
  assert!(output[bytes..].iter().all(|b| *b == UNTOUCHED[0]));
  assert!(diagnostics[10 * count..].iter().all(|b| *b == UNTOUCHED[1]));
  output.truncate(bytes);
  diagnostics.truncate(10 * count);
  Outcome {
    answer,
    output,
    diagnostics,
  }
}

pub fn write(case: &Case, outcome: &Outcome) -> String {
  let answer = match outcome.answer {
    Answer::Done(bytes, count) => format!("ok,{bytes},{count}"),
    Answer::Refused(no) => format!("refused,{},{}", no.number, no.place),
  };
  format!(
    "{} {} {} {} {} {answer} {} {}",
    hex(&case.tree),
    hex(&case.list),
    case.unresolved,
    case.out,
    case.diagnostics,
    hex(&outcome.output),
    hex(&outcome.diagnostics),
  )
}

pub fn read(line: &str) -> Option<(Case, Outcome)> {
  let fields: Vec<&str> = line.split(' ').collect();
  let [
    tree,
    list,
    unresolved,
    out,
    room,
    answer,
    output,
    diagnostics,
  ] = fields[..]
  else {
    return None;
  };
  let answer: Vec<&str> = answer.split(',').collect();
  let [word, first, second] = answer[..] else {
    return None;
  };
  let case = Case {
    tree: parse_hex(tree)?,
    list: parse_hex(list)?,
    unresolved: unresolved.parse().ok()?,
    out: out.parse().ok()?,
    diagnostics: room.parse().ok()?,
  };
  let answer = match word {
    "ok" => Answer::Done(first.parse().ok()?, second.parse().ok()?),
    _ => Answer::Refused(Refused {
      number: first.parse().ok()?,
      place: second.parse().ok()?,
    }),
  };
  let outcome = Outcome {
    answer,
    output: parse_hex(output)?,
    diagnostics: parse_hex(diagnostics)?,
  };
  Some((case, outcome))
}

pub fn hex(bytes: &[u8]) -> String {
  const DIGITS: &[u8; 16] = b"0123456789abcdef";
  if bytes.is_empty() {
    return "-".to_string();
  }
  bytes
    .iter()
    .flat_map(|b| [b >> 4, b & 15])
    .map(|digit| DIGITS[digit as usize] as char)
    .collect()
}

pub fn parse_hex(text: &str) -> Option<Vec<u8>> {
  if text == "-" {
    return Some(vec![]);
  }
  let digits: Vec<u8> = text
    .chars()
    .map(|c| c.to_digit(16).map(|digit| digit as u8))
    .collect::<Option<_>>()?;
  if digits.len() % 2 != 0 {
    return None;
  }
  Some(
    digits
      .chunks(2)
      .map(|pair| pair[0] << 4 | pair[1])
      .collect(),
  )
}
