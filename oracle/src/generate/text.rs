//! Cases of the text: a tree, and the length of the buffer.

use super::Rng;
use super::damage::damage_bytes;
use super::damage::damage_tree;
use super::dotted;
use super::limits::deep;
use super::nested;
use super::tree;
use super::tree::dress;
use super::tree::written;
use crate::text::whole;

#[derive(Clone, Debug, PartialEq, Eq)]
pub struct TextCase {
  pub tree: Vec<u8>,
  /// The length of the buffer.
  pub room: usize,
}

/// One random case of about `size` records: a tree that shows the text, in some
/// share damaged, and a buffer that is exact, short or longer than needed.
pub fn text_case(rng: &mut Rng, size: usize) -> TextCase {
  let size = 2 + rng.below(size);
  let mut tree = match rng.below(24) {
    0 => {
      let depth = 60 + rng.below(7);
      deep(rng, depth)
    }
    1..4 => tree(rng, size).0,
    4 => nested(rng, size).0,
    5 | 6 => dotted(rng, size).0,
    _ => written(rng, size),
  };
  dress(rng, &mut tree);
  let damage = rng.below(16);
  if damage == 0 {
    damage_tree(rng, &mut tree);
  }
  let mut tree = tree.encode().unwrap_or_default();
  if damage == 1 {
    damage_bytes(rng, &mut tree);
  }
  let exact = whole(&tree).map_or(40, |text| text.len());
  let room = match rng.below(16) {
    0 => exact.saturating_sub(1),
    1 => rng.below(exact + 1),
    2..8 => exact,
    8 => exact + 1,
    _ => exact + rng.below(100),
  };
  TextCase { tree, room }
}
