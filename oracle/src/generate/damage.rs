//! Damaged copies of trees and lists.

use super::Rng;
use super::entry;
use crate::grammar::Grammar;
use crate::record::HEAD;
use crate::record::Rec;

pub fn damage_list(rng: &mut Rng, list: &mut Vec<u8>) {
  if list.is_empty() {
    list.extend(entry(3, 9));
  }
  let at = 10 * rng.below(list.len() / 10);
  match rng.below(4) {
    0 => list.truncate(list.len() - 1 - rng.below(9)),
    1 => list.extend(&b"ov3456789"[..1 + rng.below(9)]),
    2 => list[at + rng.below(2)] ^= 1 << rng.below(8),
    _ => list[at..at + 10].copy_from_slice(&entry(9, 8)),
  }
}

/// Every record's place in the tree, as the numbers of the children on the way.
fn paths(tree: &Rec) -> Vec<Vec<usize>> {
  fn walk(tree: &Rec, path: &mut Vec<usize>, all: &mut Vec<Vec<usize>>) {
    all.push(path.clone());
    for (number, kid) in tree.kids.iter().enumerate() {
      path.push(number);
      walk(kid, path, all);
      path.pop();
    }
  }
  let mut all = vec![];
  walk(tree, &mut vec![], &mut all);
  all
}

fn at_path<'a>(tree: &'a mut Rec, path: &[usize]) -> &'a mut Rec {
  path
    .iter()
    .fold(tree, |tree, number| &mut tree.kids[*number])
}

/// A tree with one or two records that are not as the grammar wants them,
/// perhaps; often enough it is accepted all the same.
pub fn damage_tree(rng: &mut Rng, tree: &mut Rec) {
  let marks: Vec<&str> = Grammar::marks().collect();
  for _ in 0..1 + rng.below(2) {
    let paths = paths(tree);
    let other = rng.one_of(&paths).clone();
    let other = at_path(tree, &other).clone();
    let path = rng.one_of(&paths).clone();
    let r = at_path(tree, &path);
    match rng.below(12) {
      0 | 1 => r.mark = rng.one_of(&marks).as_bytes().try_into().unwrap(),
      2 => {
        r.mark[rng.below(2)] = rng.below(256) as u8;
      }
      3 => {
        if r.start < r.end || r.end > 0 {
          r.end = r.start.saturating_sub(1);
        } else {
          r.start = 1;
        }
      }
      4 => {
        r.kids.pop();
      }
      5 if !r.kids.is_empty() => {
        r.kids.remove(rng.below(r.kids.len()));
      }
      6 if !r.kids.is_empty() => {
        let number = rng.below(r.kids.len());
        r.kids.insert(number, r.kids[number].clone());
      }
      7 if other.depth() < 20 => {
        r.kids.insert(rng.below(r.kids.len() + 1), other);
      }
      8 if other.depth() < 20 => *r = other,
      9 => {
        r.text.push(rng.below(256) as u8);
      }
      10 => {
        r.text.pop();
      }
      _ => {
        r.text = rng
          .one_of(&[
            b"" as &[u8],
            b"\x00",
            b"\x010",
            b"\x0001",
            b"\x0212",
            b"\x001a",
            b"\x00\x00\x00",
            b"12345678",
          ])
          .to_vec();
      }
    }
  }
}

/// A damaged copy: bytes changed, cut off or added.
pub fn damage_bytes(rng: &mut Rng, bytes: &mut Vec<u8>) {
  for _ in 0..1 + rng.below(2) {
    let at = rng.below(bytes.len().max(1));
    match rng.below(6) {
      0 => bytes.truncate(at),
      1 => {
        let count = 1 + rng.below(20);
        bytes.extend((0..count).map(|_| rng.below(256) as u8));
      }
      2 if at < bytes.len() => bytes[at] ^= 1 << rng.below(8),
      3 if at < bytes.len() => bytes[at] = rng.below(256) as u8,
      4 if at < bytes.len() => {
        bytes.remove(at);
      }
      _ => {
        // A head's counts, near the start of the tree.
        let place = HEAD - 4 + rng.below(4);
        if place < bytes.len() {
          bytes[place] = bytes[place].wrapping_add(1 + rng.below(3) as u8);
        }
      }
    }
  }
}
