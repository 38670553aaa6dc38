//! The C functions of `include/dts.h` as they are, each behind a safe function with slices for its pointers: the only
//! unsafe code of the crate.
//!
//! Each returns 0 or a refusal's number. `answer` then holds what the function says, or the refusal's place and 0.
#![allow(unsafe_code)]

// SAFETY: these are the functions of `include/dts.h`, with its types, in the library that `build.rs` links. Five rows of
// 32 counts, one behind the other, are the header's 160.
unsafe extern "C" {
    fn dts_check(
        tree: *const u8,
        tree_length: usize,
        list: *const u8,
        list_length: usize,
        answer: *mut [u64; 2],
    ) -> u32;

    fn dts_transform(
        tree: *const u8,
        tree_length: usize,
        list: *const u8,
        list_length: usize,
        unresolved_context: u32,
        out: *mut u8,
        out_length: usize,
        diagnostics: *mut u8,
        diagnostics_length: usize,
        answer: *mut [u64; 2],
    ) -> u32;

    fn dts_depths(
        tree: *const u8,
        tree_length: usize,
        list: *const u8,
        list_length: usize,
        unresolved_context: u32,
        out: *mut u8,
        out_length: usize,
        diagnostics: *mut u8,
        diagnostics_length: usize,
        counts: *mut [[u32; 32]; 5],
        answer: *mut [u64; 2],
    ) -> u32;

    fn dts_text(tree: *const u8, tree_length: usize, out: *mut u8, out_length: usize, answer: *mut [u64; 2]) -> u32;
}

// SAFETY, of each call below: each pointer comes from a slice, with that slice's length, or from an array of the
// header's length, and so is not null; what is written is lent to the call alone. Nothing else is asked of a caller, and
// no pointer is kept.

/// `dts_check`: the answer is the tree's length and 0.
pub fn check(tree: &[u8], list: &[u8], answer: &mut [u64; 2]) -> u32 {
    // SAFETY: as above
    unsafe { dts_check(tree.as_ptr(), tree.len(), list.as_ptr(), list.len(), answer) }
}

/// `dts_transform`: the answer is how many bytes of `out` are written, and how many diagnostics.
pub fn transform(
    tree: &[u8],
    list: &[u8],
    unresolved_context: u32,
    out: &mut [u8],
    diagnostics: &mut [u8],
    answer: &mut [u64; 2],
) -> u32 {
    // SAFETY: as above
    unsafe {
        dts_transform(
            tree.as_ptr(),
            tree.len(),
            list.as_ptr(),
            list.len(),
            unresolved_context,
            out.as_mut_ptr(),
            out.len(),
            diagnostics.as_mut_ptr(),
            diagnostics.len(),
            answer,
        )
    }
}

/// `dts_depths`: as [`transform`], and `counts` has a row for each of d1 to d5 and in it a count for each depth.
pub fn depths(
    tree: &[u8],
    list: &[u8],
    unresolved_context: u32,
    out: &mut [u8],
    diagnostics: &mut [u8],
    counts: &mut [[u32; 32]; 5],
    answer: &mut [u64; 2],
) -> u32 {
    // SAFETY: as above
    unsafe {
        dts_depths(
            tree.as_ptr(),
            tree.len(),
            list.as_ptr(),
            list.len(),
            unresolved_context,
            out.as_mut_ptr(),
            out.len(),
            diagnostics.as_mut_ptr(),
            diagnostics.len(),
            counts,
            answer,
        )
    }
}

/// `dts_text`: the answer is how many bytes of `out` are written, and 0.
pub fn text(tree: &[u8], out: &mut [u8], answer: &mut [u64; 2]) -> u32 {
    // SAFETY: as above
    unsafe { dts_text(tree.as_ptr(), tree.len(), out.as_mut_ptr(), out.len(), answer) }
}
