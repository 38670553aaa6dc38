//! The exported calls, from the static library of crates/dts, and records to try.
mod shapes;

pub use shapes::{constant, dotted, leaf, name, record, shapes, unlisted};

use vatnext_dts::raw;

/// The check of a tree and a list: 0 and the tree's length, or the refusal's number and its place.
pub fn check(tree: &[u8], list: &[u8]) -> (u32, u64) {
    let mut answer = [0; 2];
    let number = raw::check(tree, list, &mut answer);
    (number, answer[0])
}

/// The transform with an empty list and 1 as the unresolved context: 0, and the bytes written and the number of diagnostics.
pub fn transform(tree: &[u8], out: &mut [u8], diagnostics: &mut [u8]) -> (u32, [u64; 2]) {
    let mut answer = [0; 2];
    let number = raw::transform(tree, &[], 1, out, diagnostics, &mut answer);
    (number, answer)
}

/// The same with the table of depths, which has to hold as many as there are diagnostics.
pub fn depths(tree: &[u8], out: &mut [u8], diagnostics: &mut [u8]) -> (u32, [u64; 2]) {
    let mut answer = [0; 2];
    let mut counts = [[0; 32]; 5];
    let number = raw::depths(tree, &[], 1, out, diagnostics, &mut counts, &mut answer);
    assert!(number != 0 || counts.as_flattened().iter().map(|count| *count as u64).sum::<u64>() == answer[1]);
    (number, answer)
}

/// The text of a tree: 0, and the bytes written and 0.
pub fn text(tree: &[u8], out: &mut [u8]) -> (u32, [u64; 2]) {
    let mut answer = [0; 2];
    let number = raw::text(tree, out, &mut answer);
    (number, answer)
}
