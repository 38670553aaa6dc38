//! Refusals.
use crate::words::{REFUSALS, UNKNOWN, Words};
use std::fmt;

/// Why a tree, a list or a buffer is refused. The names are those of the proved code.
#[derive(Clone, Copy, Debug, PartialEq, Eq, Hash)]
#[non_exhaustive]
pub enum Refusal {
    /// 1: the tree is over 524,288 bytes.
    TreeTooLong,
    /// 2: the list is over 40,960 bytes, no whole entries, or has a wrong mark or a start behind its end.
    BadOverloads,
    /// 3: a head or a text runs past the tree.
    CutShort,
    /// 4: an unknown mark.
    UnknownMark,
    /// 5: a mark that its slot doesn't allow, a wrong form of text, or too few children.
    Misplaced,
    /// 6: a start behind its end.
    BackwardRange,
    /// 7: more than 64 levels.
    TooDeep,
    /// 8: bytes after the root.
    TrailingBytes,
    /// 9: the output is longer than its buffer, or has a text that no head can hold. [`transform`](crate::transform)
    /// gives a buffer that is long enough, so that from there it is the second. [`text`](crate::text) never says it.
    OutputFull,
    /// 10: the diagnostics are longer than their buffer. [`transform`](crate::transform) never says it.
    DiagnosticsFull,
    /// 11: a number to be written in a text has no spelling, and is not whole or not below 2 to the 53 in size.
    NumberOutside,
    /// A number that this crate doesn't know, from a library of another version.
    Other(u32),
}

/// Refusals 1 to 11, in their order.
const NUMBERED: [Refusal; 11] = [
    Refusal::TreeTooLong,
    Refusal::BadOverloads,
    Refusal::CutShort,
    Refusal::UnknownMark,
    Refusal::Misplaced,
    Refusal::BackwardRange,
    Refusal::TooDeep,
    Refusal::TrailingBytes,
    Refusal::OutputFull,
    Refusal::DiagnosticsFull,
    Refusal::NumberOutside,
];

impl Refusal {
    /// The refusal with this number.
    pub fn from_number(number: u32) -> Refusal {
        let known = NUMBERED.get((number as usize).wrapping_sub(1));
        known.copied().unwrap_or(Refusal::Other(number))
    }

    /// The refusal's number, as the C functions return it.
    pub fn number(self) -> u32 {
        match self {
            Refusal::TreeTooLong => 1,
            Refusal::BadOverloads => 2,
            Refusal::CutShort => 3,
            Refusal::UnknownMark => 4,
            Refusal::Misplaced => 5,
            Refusal::BackwardRange => 6,
            Refusal::TooDeep => 7,
            Refusal::TrailingBytes => 8,
            Refusal::OutputFull => 9,
            Refusal::DiagnosticsFull => 10,
            Refusal::NumberOutside => 11,
            Refusal::Other(number) => number,
        }
    }

    /// What is wrong, where, and what to do.
    pub fn words(self) -> Words {
        let row = REFUSALS.get((self.number() as usize).wrapping_sub(1));
        row.copied().unwrap_or(UNKNOWN)
    }
}

/// What is wrong.
impl fmt::Display for Refusal {
    fn fmt(&self, f: &mut fmt::Formatter<'_>) -> fmt::Result {
        f.write_str(self.words().wrong)
    }
}

/// A refusal and its place. Its words say what is wrong, where, and what to do:
///
/// ```
/// let refused = vatnext_dts::check(b"zz\0\0\0\0\0\0\0\0\0\0\0\0\0", &[]).unwrap_err();
/// assert_eq!(
///     refused.to_string(),
///     "refusal 4 at byte 0: an unknown mark; write a mark of the grammar; \
///      if no record was to begin here, a text length or a child count before is wrong"
/// );
/// ```
#[derive(Clone, Copy, Debug, PartialEq, Eq, Hash)]
pub struct Refused {
    /// Why.
    pub refusal: Refusal,
    /// The record's offset for 3 to 7 and 11, that of the first extra byte for 8, else 0.
    pub place: usize,
}

impl fmt::Display for Refused {
    fn fmt(&self, f: &mut fmt::Formatter<'_>) -> fmt::Result {
        let words = self.refusal.words();
        write!(f, "refusal {}", self.refusal.number())?;
        if !words.place.is_empty() {
            write!(f, " at byte {}", self.place)?;
        }
        write!(f, ": {}; {}", words.wrong, words.remedy)
    }
}

impl std::error::Error for Refused {}

#[cfg(test)]
mod tests {
    use super::*;

    #[test]
    fn numbers_go_both_ways() {
        for number in 0..300 {
            assert_eq!(Refusal::from_number(number).number(), number);
        }
        for (i, refusal) in NUMBERED.into_iter().enumerate() {
            assert_eq!(refusal.number() as usize, i + 1);
            assert_eq!(refusal.words(), REFUSALS[i]);
        }
        assert_eq!(Refusal::from_number(0), Refusal::Other(0));
        assert_eq!(Refusal::from_number(u32::MAX), Refusal::Other(u32::MAX));
    }

    #[test]
    fn only_3_to_8_and_11_name_a_place() {
        for number in 0..13 {
            let refusal = Refusal::from_number(number);
            let said = Refused { refusal, place: 77 }.to_string();
            assert!(said.starts_with(&format!("refusal {number}")));
            assert_eq!(said.contains("at byte 77"), matches!(number, 3..=8 | 11));
        }
    }
}
