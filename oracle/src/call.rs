//! The exported call: document 01's ten refusals around the unchanged Rust,
//! which gets trees without their chains of `Nd` (document 02's §2).

use deno_ast::ModuleSpecifier;
use deno_ast::SourceRange;
use deno_ast::SourceTextInfo;
use deno_ast::swc::ast::Module;
use deno_ast::swc::ast::Program;
use deno_ast::swc::common::SyntaxContext;

use crate::decode;
use crate::dotted;
use crate::encode;
use crate::fast_check::range_finder::ModulePublicRanges;
use crate::fast_check::transform_dts::FastCheckDtsDiagnostic;
use crate::fast_check::transform_dts::FastCheckDtsTransformer;
use crate::grammar::Refused;
use crate::grammar::check;
use crate::grammar::entry_range;
use crate::record::Rec;

#[derive(Clone, Copy, Debug, PartialEq, Eq)]
pub enum Answer {
  /// Bytes written, and diagnostics.
  Done(usize, usize),
  Refused(Refused),
}

impl std::fmt::Display for Answer {
  fn fmt(&self, f: &mut std::fmt::Formatter<'_>) -> std::fmt::Result {
    match self {
      Answer::Done(bytes, count) => write!(f, "ok {bytes} {count}"),
      Answer::Refused(no) => write!(f, "refused {} at {}", no.number, no.place),
    }
  }
}

/// A diagnostic: 1 to 5, and its range.
#[derive(Clone, Copy, Debug, PartialEq, Eq)]
pub struct Diagnostic {
  pub digit: u8,
  pub start: u32,
  pub end: u32,
}

impl Diagnostic {
  pub fn encode(&self) -> [u8; 10] {
    let mut bytes = [0; 10];
    bytes[0] = b'd';
    bytes[1] = b'0' + self.digit;
    bytes[2..6].copy_from_slice(&self.start.to_le_bytes());
    bytes[6..].copy_from_slice(&self.end.to_le_bytes());
    bytes
  }
}

/// The transform of an accepted tree: the unchanged Rust on the tree without
/// its chains of `Nd`, and these put back around the bodies in its answer.
pub fn transform(
  tree: &Rec,
  list: &[u8],
  unresolved: u32,
) -> (Rec, Vec<Diagnostic>) {
  let (tree, chains) = dotted::cut(tree);
  let (mut output, diagnostics) = unchanged(&tree, list, unresolved);
  chains.put_back(&mut output);
  (output, diagnostics)
}

/// The unchanged Rust on an accepted tree.
pub fn unchanged(
  tree: &Rec,
  list: &[u8],
  unresolved: u32,
) -> (Rec, Vec<Diagnostic>) {
  let (module, notes) = decode::module(tree);
  let (module, diagnostics) = run(module, list, unresolved);
  (encode::module(&module, &notes), diagnostics)
}

/// The unchanged Rust alone, on swc's tree.
pub fn run(
  module: Module,
  list: &[u8],
  unresolved: u32,
) -> (Module, Vec<Diagnostic>) {
  let impl_with_overload_ranges = list
    .chunks(10)
    .map(|entry| {
      let (start, end) = entry_range(entry);
      SourceRange { start, end }
    })
    .collect();
  let public_ranges = ModulePublicRanges {
    impl_with_overload_ranges,
  };
  let mut transformer = FastCheckDtsTransformer::new(
    &SourceTextInfo,
    &public_ranges,
    &ModuleSpecifier,
    SyntaxContext::from_u32(unresolved),
  );
  let Program::Module(module) = transformer.transform(Program::Module(module))
  else {
    unreachable!("a module becomes a module")
  };
  let diagnostics = transformer.diagnostics.iter().map(diagnostic).collect();
  (module, diagnostics)
}

pub fn diagnostic(from: &FastCheckDtsDiagnostic) -> Diagnostic {
  let digit = match from {
    FastCheckDtsDiagnostic::UnableToInferType { .. } => 1,
    FastCheckDtsDiagnostic::UnableToInferTypeFallbackAny { .. } => 2,
    FastCheckDtsDiagnostic::UnableToInferTypeFromProp { .. } => 3,
    FastCheckDtsDiagnostic::UnableToInferTypeFromSpread { .. } => 4,
    FastCheckDtsDiagnostic::UnsupportedUsing { .. } => 5,
  };
  let range = from.range().range;
  Diagnostic {
    digit,
    start: range.start,
    end: range.end,
  }
}

/// What the transform gives for a tree and a list that are not refused: the
/// output, unless a record of it cannot be written down, and the diagnostics.
pub struct Result {
  pub output: Option<Vec<u8>>,
  pub diagnostics: Vec<Diagnostic>,
}

pub fn result(
  tree: &[u8],
  list: &[u8],
  unresolved: u32,
) -> std::result::Result<Result, Refused> {
  check(tree, list)?;
  let (tree, _) = Rec::read(tree, 0).expect("an accepted tree reads");
  let (output, diagnostics) = transform(&tree, list, unresolved);
  Ok(Result {
    output: output.encode(),
    diagnostics,
  })
}

/// The call: the answer, and both buffers as they are afterwards.
pub fn call(
  tree: &[u8],
  list: &[u8],
  unresolved: u32,
  out: &mut [u8],
  diagnostics: &mut [u8],
) -> Answer {
  let refused = |number: u8| Answer::Refused(Refused { number, place: 0 });
  let result = match result(tree, list, unresolved) {
    Ok(result) => result,
    Err(no) => return Answer::Refused(no),
  };
  // Text that no head can hold fits in no buffer.
  let Some(output) = result.output.filter(|bytes| bytes.len() <= out.len())
  else {
    return refused(9);
  };
  let count = result.diagnostics.len();
  if 10 * count > diagnostics.len() {
    return refused(10);
  }
  out[..output.len()].copy_from_slice(&output);
  for (place, d) in diagnostics.chunks_mut(10).zip(&result.diagnostics) {
    place.copy_from_slice(&d.encode());
  }
  Answer::Done(output.len(), count)
}
