//! What a transform gives.
use crate::record::{Record, u32_at, written};
use crate::words::{DIAGNOSTICS, UNKNOWN, Words};
use std::fmt;

/// The bytes of a diagnostic: `d` and a digit, then start and end.
pub(crate) const DIAGNOSTIC: usize = 10;

/// A module's declarations, as a tree, and the diagnostics of what could not be typed.
///
/// Nothing is decoded ahead: [`root`](Declarations::root) reads the records where the library wrote them.
///
/// ```
/// // `const a = b;`, where no scope declares `b`
/// let tree = b"Mo\0\0\0\0\0\x0c\0\0\0\0\0\x01\0\
///     Vd\x02\0\0\0\0\x0c\0\0\0\0\0\x01\0\
///     Vr\0\x06\0\0\0\x0b\0\0\0\0\0\x02\0\
///     Bd\0\x06\0\0\0\x07\0\0\0\0\0\x02\0\
///     Id\0\x06\0\0\0\x07\0\0\0\x05\0\0\0\x02\0\0\0a\
///     No\0\0\0\0\0\0\0\0\0\0\0\0\0\
///     Id\0\x0a\0\0\0\x0b\0\0\0\x05\0\0\0\x01\0\0\0b";
/// let declarations = vatnext_dts::transform(tree, &[], 1)?;
///
/// // `declare const a: any;`
/// let constant = declarations.root().children().next().unwrap();
/// assert_eq!((constant.mark(), constant.flags()), (*b"Vd", 1 + 2));
/// let variable = constant.children().next().unwrap();
/// let name = variable.children().next().unwrap();
/// let ty = name.children().nth(1).unwrap();
/// assert_eq!((ty.mark(), ty.text()), (*b"Kw", &b"any"[..]));
///
/// let diagnostic = declarations.diagnostics().next().unwrap();
/// assert_eq!(
///     diagnostic.to_string(),
///     "d2 from 6 to 7: no type can be inferred, so it is `any`; \
///      write a type behind the name, or `as` and a type behind the value"
/// );
/// # Ok::<(), vatnext_dts::Refused>(())
/// ```
#[derive(Clone, Debug, PartialEq, Eq)]
pub struct Declarations {
    /// One whole record.
    pub(crate) tree: Vec<u8>,
    /// 10 bytes each.
    pub(crate) diagnostics: Vec<u8>,
}

impl Declarations {
    /// The declarations' tree, which can be transformed again.
    pub fn as_bytes(&self) -> &[u8] {
        &self.tree
    }

    /// The root of that tree, a `Mo`.
    pub fn root(&self) -> Record<'_> {
        written(&self.tree)
    }

    /// The diagnostics, in the order of what they are about.
    pub fn diagnostics(&self) -> impl ExactSizeIterator<Item = Diagnostic> + Clone + '_ {
        self.diagnostics.chunks_exact(DIAGNOSTIC).map(Diagnostic::read)
    }
}

/// What could not be typed, and where it stands in the module's source text.
#[derive(Clone, Copy, Debug, PartialEq, Eq, Hash)]
pub struct Diagnostic {
    /// What.
    pub code: Code,
    /// Where it starts.
    pub start: u32,
    /// Where it ends.
    pub end: u32,
}

impl Diagnostic {
    /// The diagnostic in these 10 bytes.
    fn read(bytes: &[u8]) -> Diagnostic {
        Diagnostic { code: Code::from_digit(bytes[1]), start: u32_at(bytes, 2), end: u32_at(bytes, 6) }
    }
}

impl fmt::Display for Diagnostic {
    fn fmt(&self, f: &mut fmt::Formatter<'_>) -> fmt::Result {
        let Words { wrong, remedy, .. } = self.code.words();
        let digit = [self.code.digit()];
        let (digit, start, end) = (digit.escape_ascii(), self.start, self.end);
        write!(f, "d{digit} from {start} to {end}: {wrong}; {remedy}")
    }
}

/// The kinds of diagnostics. The names are those of deno_graph's `FastCheckDtsDiagnostic`.
#[derive(Clone, Copy, Debug, PartialEq, Eq, Hash)]
#[non_exhaustive]
pub enum Code {
    /// d1: no type from an expression or a declaration.
    UnableToInferType,
    /// d2: no type, so that it is `any`.
    UnableToInferTypeFallbackAny,
    /// d3: no type from an object's property, which is left out.
    UnableToInferTypeFromProp,
    /// d4: no type from a spread, which is left out of an object and leaves an array without a type.
    UnableToInferTypeFromSpread,
    /// d5: an exported `using`, which is left out.
    UnsupportedUsing,
    /// A byte in the digit's place that this crate doesn't know, from a library of another version.
    Other(u8),
}

impl Code {
    /// The code with this digit, an ASCII character.
    pub fn from_digit(digit: u8) -> Code {
        match digit {
            b'1' => Code::UnableToInferType,
            b'2' => Code::UnableToInferTypeFallbackAny,
            b'3' => Code::UnableToInferTypeFromProp,
            b'4' => Code::UnableToInferTypeFromSpread,
            b'5' => Code::UnsupportedUsing,
            other => Code::Other(other),
        }
    }

    /// The code's digit, an ASCII character: `1` of d1.
    pub fn digit(self) -> u8 {
        match self {
            Code::UnableToInferType => b'1',
            Code::UnableToInferTypeFallbackAny => b'2',
            Code::UnableToInferTypeFromProp => b'3',
            Code::UnableToInferTypeFromSpread => b'4',
            Code::UnsupportedUsing => b'5',
            Code::Other(other) => other,
        }
    }

    /// What is wrong, where, and what to do.
    pub fn words(self) -> Words {
        let row = DIAGNOSTICS.get(usize::from(self.digit().wrapping_sub(b'1')));
        row.copied().unwrap_or(UNKNOWN)
    }
}

/// What is wrong.
impl fmt::Display for Code {
    fn fmt(&self, f: &mut fmt::Formatter<'_>) -> fmt::Result {
        f.write_str(self.words().wrong)
    }
}

#[cfg(test)]
mod tests {
    use super::*;

    #[test]
    fn digits_go_both_ways() {
        for digit in 0..=255 {
            let code = Code::from_digit(digit);
            assert_eq!(code.digit(), digit);
            let known = (b'1'..=b'5').contains(&digit);
            assert_eq!(matches!(code, Code::Other(_)), !known);
            assert_eq!(code.words() == UNKNOWN, !known);
        }
    }

    #[test]
    fn a_diagnostic_is_read() {
        let read = Diagnostic::read(b"d5\x01\x02\0\0\xff\xff\xff\xff");
        let (code, start, end) = (Code::UnsupportedUsing, 0x201, u32::MAX);
        assert_eq!(read, Diagnostic { code, start, end });
    }
}
