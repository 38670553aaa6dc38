//! Stand-ins for the part of deno_ast, and of swc through it, that
//! transform_dts.rs and swc_helpers.rs name: types, fields and accessors,
//! with swc's names, and nothing more.
//!
//! Where a record says more than swc's node (flags without a name, `Op`s, the
//! head of a `No`), the rest is written down in a note (see `notes.rs` of the
//! oracle), and the number of the note travels in a place that the originals
//! only move along:
//!
//! - in `Span`, beside the range. A node that is passed or changed keeps its
//!   span, and so its note. A node made with the span of another (a tuple type
//!   with the array's) gets a note about another mark, which is not taken.
//! - in `SyntaxContext`, for an identifier, because the key of a shorthand is
//!   made with the identifier's span and without its context. Contexts are
//!   compared by their number alone. The record around an identifier that has
//!   no node of its own in swc (`Bd`, `Sh`) travels there too, with its range.
//! - in `raw`, for the `Op`s of a literal: a negated one keeps its span and
//!   loses its raw spelling.
//! - in `TypeParams`, for a `No` in the place of type parameters: the whole
//!   place is moved into a function's type.

pub mod swc {
  pub mod ast;
  pub mod atoms;
  pub mod common;
}

use swc::common::Spanned;

/// A range of the source text, as `range()` gives it.
#[derive(Clone, Copy, Debug, PartialEq, Eq, Hash)]
pub struct SourceRange {
  pub start: u32,
  pub end: u32,
}

pub trait SourceRangedForSpanned {
  fn range(&self) -> SourceRange;
}

impl<T: Spanned> SourceRangedForSpanned for T {
  fn range(&self) -> SourceRange {
    let span = self.span();
    SourceRange {
      start: span.lo,
      end: span.hi,
    }
  }
}

/// Specifiers and source texts are not ported.
#[derive(Clone, Debug)]
pub struct ModuleSpecifier;

#[derive(Clone, Debug)]
pub struct SourceTextInfo;
