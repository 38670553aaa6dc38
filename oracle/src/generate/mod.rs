//! Random cases: grammatical trees in which every mark and every rule of the
//! transform comes up often, overload lists that hit and miss, damaged copies,
//! trees and lists at their limits, and buffers that are just long enough, one
//! byte short, or ample; cases with namespaces in namespaces, for the depth of
//! diagnostics; cases with dotted names; and cases of the text. The same seed
//! gives the same cases.

mod damage;
mod depth_limits;
mod dotted_limits;
mod limits;
mod text;
mod text_limits;
mod tree;

pub use depth_limits::KINDS;
pub use depth_limits::Way;
pub use depth_limits::depth_limits;
pub use depth_limits::in_namespaces;
pub use dotted_limits::dotted_limits;
pub use limits::limits;
pub use limits::long_key;
pub use text::TextCase;
pub use text::text_case;
pub use text_limits::text_limits;
pub use tree::dotted;
pub use tree::nested;
pub use tree::tree;

use crate::call::result;
use crate::grammar::MAX_LIST;
use crate::record::Rec;
use damage::damage_bytes;
use damage::damage_list;
use damage::damage_tree;
use limits::deep;

#[derive(Clone, Debug)]
pub struct Case {
  pub tree: Vec<u8>,
  pub list: Vec<u8>,
  pub unresolved: u32,
  /// The lengths of the two buffers.
  pub out: usize,
  pub diagnostics: usize,
}

/// Random numbers: splitmix64.
pub struct Rng(u64);

impl Rng {
  pub fn new(seed: u64) -> Rng {
    Rng(seed.wrapping_mul(0x9e37_79b9_7f4a_7c15) ^ 0x1234_5678_9abc_def0)
  }

  fn next(&mut self) -> u64 {
    self.0 = self.0.wrapping_add(0x9e37_79b9_7f4a_7c15);
    let mut z = self.0;
    z = (z ^ (z >> 30)).wrapping_mul(0xbf58_476d_1ce4_e5b9);
    z = (z ^ (z >> 27)).wrapping_mul(0x94d0_49bb_1331_11eb);
    z ^ (z >> 31)
  }

  pub fn below(&mut self, limit: usize) -> usize {
    (self.next() % limit as u64) as usize
  }

  /// True so many times in a hundred.
  pub fn percent(&mut self, chance: usize) -> bool {
    self.below(100) < chance
  }

  pub fn one_of<'a, T>(&mut self, choices: &'a [T]) -> &'a T {
    &choices[self.below(choices.len())]
  }

  /// One of the choices, each as often as its weight says.
  fn weighted<'a>(&mut self, choices: &[(usize, &'a str)]) -> &'a str {
    let mut left = self.below(choices.iter().map(|choice| choice.0).sum());
    for (weight, choice) in choices {
      if left < *weight {
        return choice;
      }
      left -= weight;
    }
    unreachable!()
  }
}

pub fn entry(start: u32, end: u32) -> [u8; 10] {
  let mut bytes = [0; 10];
  bytes[..2].copy_from_slice(b"ov");
  bytes[2..6].copy_from_slice(&start.to_le_bytes());
  bytes[6..].copy_from_slice(&end.to_le_bytes());
  bytes
}

/// A list that names some of the ranges in the tree: often those that count,
/// sometimes those of other records.
fn list(rng: &mut Rng, tree: &Rec) -> Vec<u8> {
  if rng.percent(35) {
    return vec![];
  }
  let chance = *rng.one_of(&[10, 30, 70]);
  let mut ranges = vec![];
  tree.each(&mut |r| {
    let counts = matches!(r.mark(), "Ed" | "Xd" | "Fd" | "Co" | "Me");
    if rng.percent(if counts { chance } else { 3 }) {
      ranges.push((r.start, r.end));
    }
  });
  for _ in 0..rng.below(3) {
    let start = rng.below(24) as u32;
    ranges.push((start, start + rng.below(8) as u32));
  }
  let mut bytes = vec![];
  for (start, end) in ranges.iter().take(MAX_LIST / 10) {
    bytes.extend(entry(*start, *end));
    if rng.percent(10) {
      bytes.extend(entry(*start, *end));
    }
  }
  bytes.truncate(MAX_LIST);
  bytes
}

/// One random case. With ample buffers where the answer is not to depend on
/// their length.
pub fn case(rng: &mut Rng, size: usize, ample: bool) -> Case {
  let (tree, unresolved) = match rng.below(40) {
    0 => {
      let depth = 60 + rng.below(7);
      (deep(rng, depth), 1)
    }
    _ => {
      let size = 2 + rng.below(size);
      tree(rng, size)
    }
  };
  around(rng, tree, unresolved, ample)
}

/// The same, with namespaces in namespaces and diagnostics at many depths.
pub fn depth_case(rng: &mut Rng, size: usize, ample: bool) -> Case {
  let size = 2 + rng.below(size);
  let (tree, unresolved) = nested(rng, size);
  around(rng, tree, unresolved, ample)
}

/// The same, with namespaces that mostly have dotted names.
pub fn dotted_case(rng: &mut Rng, size: usize, ample: bool) -> Case {
  let size = 2 + rng.below(size);
  let (tree, unresolved) = dotted(rng, size);
  around(rng, tree, unresolved, ample)
}

/// A case of a tree: a list, perhaps some damage, and buffers.
fn around(rng: &mut Rng, mut tree: Rec, unresolved: u32, ample: bool) -> Case {
  let mut list = list(rng, &tree);
  let mut bytes;
  match rng.below(10) {
    0 => {
      damage_tree(rng, &mut tree);
      bytes = tree.encode().unwrap_or_default();
    }
    1 => {
      bytes = tree.encode().unwrap_or_default();
      damage_bytes(rng, &mut bytes);
    }
    _ => bytes = tree.encode().unwrap_or_default(),
  }
  if rng.percent(3) {
    damage_list(rng, &mut list);
  }
  let mut case = Case {
    tree: bytes,
    list,
    unresolved,
    out: 65_536,
    diagnostics: 21_840,
  };
  if !ample {
    buffers(rng, &mut case);
  }
  case
}

/// Buffers that are exact, one byte short, or longer than needed.
fn buffers(rng: &mut Rng, case: &mut Case) {
  let (out, diagnostics) = match result(&case.tree, &case.list, case.unresolved)
  {
    Ok(result) => (
      result.output.map_or(0, |bytes| bytes.len()),
      10 * result.diagnostics.len(),
    ),
    Err(_) => (40, 20),
  };
  let mut length = |exact: usize| match rng.below(10) {
    0 => exact.saturating_sub(1),
    1 => rng.below(exact + 1),
    2..6 => exact,
    6 => exact + 1,
    _ => exact + rng.below(100),
  };
  case.out = length(out);
  case.diagnostics = length(diagnostics);
}
