//! The proved declaration transform, as a safe call.
//!
//! A module goes in as a tree of flat records, and its declarations come out as such a tree, with the diagnostics of
//! what could not be typed: [`transform`], and [`depths`] where these are to be counted. [`text`] writes them as a .d.ts
//! file has them. The work is done by the static library that `rt lib` proves and writes in crates/dts; this crate calls
//! it, finds the sizes of its buffers, and reads what it wrote without a copy.
#![deny(unsafe_code, unsafe_op_in_unsafe_fn)]
#![warn(missing_docs)]

mod declarations;
mod depths;
pub mod raw;
mod record;
mod refused;
mod words;

pub use declarations::{Code, Declarations, Diagnostic};
pub use depths::Depths;
pub use record::{Children, Record};
pub use refused::{Refusal, Refused};
pub use words::Words;

use declarations::DIAGNOSTIC;

/// The longest tree, in bytes: a longer one is refusal 1.
pub const LONGEST_TREE: usize = 524_288;

/// A buffer of this many times the tree's length holds every output of it: counted by hand over the definition, and no
/// theorem. If the count were wrong, a tree could be refused with 9 that has declarations; nothing else would happen.
///
/// A record takes 15 bytes and its text. What is written for it takes at most 133 bytes (for an `Xe`: a declared const
/// without its type, and the `Xe` of its name) and its text at most twice (the `Id` of an `Sh`). So no output is 9
/// times as long as its tree; the longest known, of many `Xe` over a `Re`, is 6.3 times as long. The rest is slack.
const MOST_OUTPUT: usize = 16;

/// A buffer of this many times the tree's length holds every text of it: counted by hand as well, with the same
/// consequence.
///
/// What is written for a record of 15 bytes takes at most 76 bytes (for a `Vd` in 31 namespaces: 62 are its indent), for
/// an `Ns` with its name and its block 142, and 6 for each byte of a text (those of an `Ss` or a `Qu` that are escaped).
/// So no text is longer than 6 times its tree; the rest is slack.
const MOST_TEXT: usize = 8;

/// How long a record is at least; there are never more diagnostics than records.
const LEAST_RECORD: usize = 15;

/// The declarations of a module, and the diagnostics of what could not be typed.
///
/// `list` has the ranges of the overloads' implementations, 10 bytes each: `ov`, start and end. `unresolved_context` is
/// the context of the names that no scope declares.
///
/// ```
/// // `export default [];`
/// let tree = b"Mo\0\0\0\0\0\x12\0\0\0\0\0\x01\0\
///     Xe\0\0\0\0\0\x12\0\0\0\0\0\x01\0\
///     Ar\0\x0f\0\0\0\x11\0\0\0\0\0\0\0";
/// let declarations = vatnext_dts::transform(tree, &[], 1)?;
///
/// // `declare const _dts_1: readonly []; export default _dts_1;`
/// let marks: Vec<_> = declarations.root().children().map(|item| item.mark()).collect();
/// assert_eq!(marks, [*b"Vd", *b"Xe"]);
/// assert_eq!(declarations.as_bytes().len(), 170);
/// assert_eq!(declarations.diagnostics().len(), 0);
/// # Ok::<(), vatnext_dts::Refused>(())
/// ```
///
/// # Buffers
///
/// The first call has room for an output of twice the tree's length and for few diagnostics, which most modules fit. A
/// buffer that is too short gets the most that any output or diagnostics of such a tree need, and the call is made
/// again: so there are three calls at most, and no more than 10 MB of buffers.
///
/// # Stack
///
/// `bench/src/bin/stack.rs` measures what a call takes on trees of 64 levels, and holds it to 512 KiB.
///
/// # Errors
///
/// Refusals 1 to 8 say what is wrong with the tree or the list. [`Refusal::OutputFull`] says that the output has a text
/// that no head can hold: a key of more than 65,531 bytes in an object's type. The library says it then of every buffer;
/// so it is taken for an answer once it is said of one that every output fits.
pub fn transform(tree: &[u8], list: &[u8], unresolved_context: u32) -> Result<Declarations, Refused> {
    with_buffers(tree, |out, diagnostics| transform_into(tree, list, unresolved_context, out, diagnostics))
}

/// The declarations and diagnostics of a tree by a call that writes into buffers, made again with longer ones where they
/// are too short.
fn with_buffers(
    tree: &[u8],
    mut call: impl FnMut(&mut [u8], &mut [u8]) -> Result<(usize, usize), Refused>,
) -> Result<Declarations, Refused> {
    // of a longer tree nothing is written
    let length = tree.len().min(LONGEST_TREE);
    let most_output = MOST_OUTPUT * length;
    let most_diagnostics = DIAGNOSTIC * (length / LEAST_RECORD);
    let mut out = vec![0; (2 * length + 256).min(most_output)];
    let mut diagnostics = vec![0; (DIAGNOSTIC * 16).min(most_diagnostics)];
    loop {
        match call(&mut out, &mut diagnostics) {
            Ok((bytes, count)) => {
                out.truncate(bytes);
                out.shrink_to_fit();
                diagnostics.truncate(DIAGNOSTIC * count);
                diagnostics.shrink_to_fit();
                let tree = out;
                return Ok(Declarations { tree, diagnostics });
            }
            // each at most once: then the buffer has its most
            Err(Refused { refusal: Refusal::OutputFull, .. }) if out.len() < most_output => {
                out = vec![0; most_output];
            }
            Err(Refused { refusal: Refusal::DiagnosticsFull, .. }) if diagnostics.len() < most_diagnostics => {
                diagnostics = vec![0; most_diagnostics];
            }
            Err(refused) => return Err(refused),
        }
    }
}

/// The same into buffers of the caller's: how many bytes of declarations stand at the start of `out`, and how many
/// diagnostics of 10 bytes at the start of `diagnostics`. Every byte beyond is as it was.
///
/// # Errors
///
/// All refusals; both buffers then hold what they held before.
pub fn transform_into(
    tree: &[u8],
    list: &[u8],
    unresolved_context: u32,
    out: &mut [u8],
    diagnostics: &mut [u8],
) -> Result<(usize, usize), Refused> {
    let mut answer = [0; 2];
    let number = raw::transform(tree, list, unresolved_context, out, diagnostics, &mut answer);
    done(number, answer)
}

/// The declarations of a module, with its diagnostics counted by what they are and by how many namespaces hold them.
///
/// ```
/// use vatnext_dts::Code;
///
/// // `namespace n { export using a = b; }`
/// let tree = b"Mo\0\0\0\0\0\x23\0\0\0\0\0\x01\0\
///     Ns\0\0\0\0\0\x23\0\0\0\0\0\x02\0\
///     Op\0\x0a\0\0\0\x0b\0\0\0\x01\0\0\0n\
///     Nb\0\x0c\0\0\0\x23\0\0\0\0\0\x01\0\
///     Ed\0\x0e\0\0\0\x21\0\0\0\0\0\x01\0\
///     Us\0\x15\0\0\0\x21\0\0\0\0\0\0\0";
/// let (declarations, depths) = vatnext_dts::depths(tree, &[], 1)?;
///
/// assert_eq!(depths.count(Code::UnsupportedUsing, 1), 1);
/// assert_eq!(depths.count(Code::UnsupportedUsing, 0), 0);
/// let found: Vec<_> = depths.iter().collect();
/// assert_eq!(found, [(Code::UnableToInferType, 1, 1), (Code::UnsupportedUsing, 1, 1)]);
/// assert_eq!(depths.total(), declarations.diagnostics().len());
/// # Ok::<(), vatnext_dts::Refused>(())
/// ```
///
/// # Errors
///
/// Those of [`transform`], which gives the same declarations; buffers and stack are as there.
pub fn depths(tree: &[u8], list: &[u8], unresolved_context: u32) -> Result<(Declarations, Depths), Refused> {
    let mut depths = Depths::default();
    let declarations = with_buffers(tree, |out, diagnostics| {
        depths_into(tree, list, unresolved_context, out, diagnostics, &mut depths)
    })?;
    Ok((declarations, depths))
}

/// The same into buffers and a table of the caller's, as [`transform_into`] does; every count is written.
///
/// # Errors
///
/// All refusals; the buffers and the table then hold what they held before.
pub fn depths_into(
    tree: &[u8],
    list: &[u8],
    unresolved_context: u32,
    out: &mut [u8],
    diagnostics: &mut [u8],
    depths: &mut Depths,
) -> Result<(usize, usize), Refused> {
    let mut answer = [0; 2];
    let number = raw::depths(tree, list, unresolved_context, out, diagnostics, &mut depths.rows, &mut answer);
    done(number, answer)
}

/// The text of a tree, as a .d.ts file has it: two spaces of indent for each namespace around an item, and an item to a
/// line. Statements, bodies and initial values are left out.
///
/// The tree may be any that is accepted. For a module's declarations, give those that [`transform`] made:
///
/// ```
/// // `export default [];`
/// let tree = b"Mo\0\0\0\0\0\x12\0\0\0\0\0\x01\0\
///     Xe\0\0\0\0\0\x12\0\0\0\0\0\x01\0\
///     Ar\0\x0f\0\0\0\x11\0\0\0\0\0\0\0";
/// assert_eq!(vatnext_dts::text(tree)?, b"export default [ ]\n");
///
/// let declarations = vatnext_dts::transform(tree, &[], 1)?;
/// let text = vatnext_dts::text(declarations.as_bytes())?;
/// assert_eq!(text, b"declare const _dts_1 : readonly [ ]\nexport default _dts_1\n");
/// # Ok::<(), vatnext_dts::Refused>(())
/// ```
///
/// It is bytes and no `String`: names and opaque parts are written as they stand in the tree, which need not be UTF-8.
///
/// # Buffers
///
/// The first call has room for as many bytes as the tree has, which most texts fit. If it is too short, it gets the most
/// that any text of such a tree needs, and the call is made again: so there are two calls at most.
///
/// # Errors
///
/// Refusal 1 and 3 to 8 say what is wrong with the tree. The declarations of a tree can be longer or deeper than a tree
/// may be, and then have no text. [`Refusal::NumberOutside`] says that a number to be written has no spelling and can't
/// be written in decimal; its place is that of the first such `Nu`.
pub fn text(tree: &[u8]) -> Result<Vec<u8>, Refused> {
    // of a longer tree nothing is written
    let length = tree.len().min(LONGEST_TREE);
    let most = MOST_TEXT * length;
    let mut out = vec![0; length];
    loop {
        match text_into(tree, &mut out) {
            Ok(bytes) => {
                out.truncate(bytes);
                out.shrink_to_fit();
                return Ok(out);
            }
            // once: then the buffer has its most
            Err(Refused { refusal: Refusal::OutputFull, .. }) if out.len() < most => out = vec![0; most],
            Err(refused) => return Err(refused),
        }
    }
}

/// The same into a buffer of the caller's: how many bytes of text stand at the start of `out`. Every byte beyond is as it
/// was.
///
/// # Errors
///
/// Those of [`text`], and then [`Refusal::OutputFull`] where the text is longer than `out`; it then holds what it held
/// before.
pub fn text_into(tree: &[u8], out: &mut [u8]) -> Result<usize, Refused> {
    let mut answer = [0; 2];
    let number = raw::text(tree, out, &mut answer);
    done(number, answer).map(|(bytes, _)| bytes)
}

/// Whether a tree and an overload list are accepted.
///
/// # Errors
///
/// Refusals 1 to 8.
///
/// ```
/// use vatnext_dts::{Refusal, check};
///
/// let module = b"Mo\0\0\0\0\0\0\0\0\0\0\0\0\0";
/// assert!(check(module, &[]).is_ok());
/// let refused = check(&module[..14], &[]).unwrap_err();
/// assert_eq!((refused.refusal, refused.place), (Refusal::CutShort, 0));
/// ```
pub fn check(tree: &[u8], list: &[u8]) -> Result<(), Refused> {
    let mut answer = [0; 2];
    let number = raw::check(tree, list, &mut answer);
    done(number, answer).map(|_| ())
}

/// A C function's answer: two numbers, each a length, a count or a place within the caller's memory; or a refusal.
fn done(number: u32, answer: [u64; 2]) -> Result<(usize, usize), Refused> {
    let [first, second] = answer.map(|value| value as usize);
    match number {
        0 => Ok((first, second)),
        _ => Err(Refused { refusal: Refusal::from_number(number), place: first }),
    }
}
