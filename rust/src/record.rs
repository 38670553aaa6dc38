//! Records, read where they stand.
use crate::{Refusal, Refused};
use std::fmt;
use std::iter::FusedIterator;

/// The bytes of a record's head: mark (2), flags (1), start and end (4 each), text length (2), child count (2).
const HEAD: usize = 15;

/// The lowest byte first.
fn u16_at(bytes: &[u8], at: usize) -> u16 {
    u16::from_le_bytes([bytes[at], bytes[at + 1]])
}

/// The lowest byte first.
pub(crate) fn u32_at(bytes: &[u8], at: usize) -> u32 {
    u32::from_le_bytes([bytes[at], bytes[at + 1], bytes[at + 2], bytes[at + 3]])
}

/// Where the record at the start of `bytes` ends; or where the record begins whose head or text runs past them. A loop
/// over the heads in it, whatever its depth.
fn end_of(bytes: &[u8]) -> Result<usize, usize> {
    let mut at = 0;
    let mut left: u64 = 1;
    while left > 0 {
        let rest = &bytes[at..];
        if rest.len() < HEAD || rest.len() - HEAD < usize::from(u16_at(rest, 11)) {
            return Err(at);
        }
        left = left - 1 + u64::from(u16_at(rest, 13));
        at += HEAD + usize::from(u16_at(rest, 11));
    }
    Ok(at)
}

/// A record of a tree: a mark, flags, a range, a text and children. It borrows the tree's bytes and copies none.
///
/// Every record that there is of this type stands whole in its bytes, with all that it holds, so that reading it never
/// fails. What a mark may hold is not tested here: [`check`](crate::check) does that.
#[derive(Clone, Copy, PartialEq, Eq, Hash)]
pub struct Record<'a> {
    /// The record's own bytes, and no others.
    bytes: &'a [u8],
}

impl<'a> Record<'a> {
    /// The record at the start of any bytes. What follows it is left out: [`as_bytes`](Record::as_bytes) says how long
    /// the record is. Takes time linear in its length.
    ///
    /// # Errors
    ///
    /// [`Refusal::CutShort`] with the place of the first record whose head or text runs past `bytes`.
    ///
    /// ```
    /// use vatnext_dts::Record;
    ///
    /// let record = Record::parse(b"Ki\0\x02\0\0\0\x05\0\0\0\x03\0\0\0key and more").unwrap();
    /// assert_eq!(record.mark(), *b"Ki");
    /// assert_eq!((record.start(), record.end()), (2, 5));
    /// assert_eq!(record.text(), b"key");
    /// assert_eq!(record.as_bytes().len(), 18);
    /// assert!(Record::parse(b"Ki").is_err());
    /// ```
    pub fn parse(bytes: &'a [u8]) -> Result<Record<'a>, Refused> {
        match end_of(bytes) {
            Ok(end) => Ok(Record { bytes: &bytes[..end] }),
            Err(place) => Err(Refused { refusal: Refusal::CutShort, place }),
        }
    }

    /// The bytes that the record fills, with all that it holds: a tree of its own.
    pub fn as_bytes(self) -> &'a [u8] {
        self.bytes
    }

    /// The two letters that say what the record is.
    pub fn mark(self) -> [u8; 2] {
        [self.bytes[0], self.bytes[1]]
    }

    /// The flags; what each means depends on the mark.
    pub fn flags(self) -> u8 {
        self.bytes[2]
    }

    /// Where the record's source text starts; start and end are 0 where there is none.
    pub fn start(self) -> u32 {
        u32_at(self.bytes, 3)
    }

    /// Where the record's source text ends.
    pub fn end(self) -> u32 {
        u32_at(self.bytes, 7)
    }

    /// The record's text: a name, a value or source text, as its mark says.
    pub fn text(self) -> &'a [u8] {
        &self.bytes[HEAD..self.body()]
    }

    /// The records in this one, in their order. To find where a child ends, all that it holds is walked over.
    pub fn children(self) -> Children<'a> {
        Children { rest: &self.bytes[self.body()..], left: u16_at(self.bytes, 13) }
    }

    /// Where the children begin.
    fn body(self) -> usize {
        HEAD + usize::from(u16_at(self.bytes, 11))
    }
}

/// The head and the text; of the children only how many.
impl fmt::Debug for Record<'_> {
    fn fmt(&self, f: &mut fmt::Formatter<'_>) -> fmt::Result {
        f.debug_struct("Record")
            .field("mark", &format_args!("{}", self.mark().escape_ascii()))
            .field("flags", &self.flags())
            .field("start", &self.start())
            .field("end", &self.end())
            .field("text", &format_args!("\"{}\"", self.text().escape_ascii()))
            .field("children", &self.children().len())
            .finish()
    }
}

/// The children of a [`Record`].
#[derive(Clone, Debug)]
pub struct Children<'a> {
    rest: &'a [u8],
    left: u16,
}

impl<'a> Iterator for Children<'a> {
    type Item = Record<'a>;

    fn next(&mut self) -> Option<Record<'a>> {
        self.left = self.left.checked_sub(1)?;
        let child = Record::parse(self.rest).ok()?;
        self.rest = &self.rest[child.bytes.len()..];
        Some(child)
    }

    fn size_hint(&self) -> (usize, Option<usize>) {
        let left = usize::from(self.left);
        (left, Some(left))
    }
}

impl ExactSizeIterator for Children<'_> {}

impl FusedIterator for Children<'_> {}

/// The root of an output: the library writes one whole record, which is proved of it.
pub(crate) fn written(bytes: &[u8]) -> Record<'_> {
    Record { bytes }
}

#[cfg(test)]
mod tests {
    use super::*;

    #[test]
    fn a_record_without_text_and_children() {
        let record = Record::parse(b"No\x05\x01\0\0\0\x02\0\0\0\0\0\0\0").unwrap();
        assert_eq!(record.mark(), *b"No");
        assert_eq!(record.flags(), 5);
        assert_eq!((record.start(), record.end()), (1, 2));
        assert_eq!(record.text(), b"");
        assert_eq!(record.children().len(), 0);
        assert!(record.children().next().is_none());
    }

    #[test]
    fn numbers_have_their_lowest_byte_first() {
        let bytes = b"Op\0\x01\x02\x03\x04\x05\x06\x07\x08\0\0\0\0";
        let record = Record::parse(bytes).unwrap();
        assert_eq!((record.start(), record.end()), (0x0403_0201, 0x0807_0605));
    }

    #[test]
    fn every_cut_is_told() {
        let whole = b"Mo\0\0\0\0\0\0\0\0\0\0\0\x01\0Op\0\0\0\0\0\0\0\0\0\x02\0\0\0ab";
        assert!(Record::parse(whole).is_ok());
        for length in 0..whole.len() {
            let place = if length < HEAD { 0 } else { HEAD };
            let refused = Record::parse(&whole[..length]).unwrap_err();
            assert_eq!((refused.refusal, refused.place), (Refusal::CutShort, place));
        }
    }

    #[test]
    fn what_follows_is_left_out() {
        let bytes = b"No\0\0\0\0\0\0\0\0\0\0\0\0\0No";
        assert_eq!(Record::parse(bytes).unwrap().as_bytes(), &bytes[..HEAD]);
    }

    #[test]
    fn many_levels_take_no_stack() {
        let mut bytes = b"Op\0\0\0\0\0\0\0\0\0\0\0\x01\0".repeat(200_000);
        assert_eq!(Record::parse(&bytes).unwrap_err().place, bytes.len());
        let count = bytes.len() - 2;
        bytes[count] = 0;
        assert_eq!(Record::parse(&bytes).unwrap().as_bytes().len(), bytes.len());
    }

    #[test]
    fn most_children_of_nothing() {
        let refused = Record::parse(b"Mo\0\0\0\0\0\0\0\0\0\0\0\xff\xff").unwrap_err();
        assert_eq!(refused.place, HEAD);
    }

    #[test]
    fn debug_shows_the_head() {
        let record = Record::parse(b"K\xff\0\0\0\0\0\0\0\0\0\x01\0\0\0\n").unwrap();
        let shown = "Record { mark: K\\xff, flags: 0, start: 0, end: 0, text: \"\\n\", children: 0 }";
        assert_eq!(format!("{record:?}"), shown);
    }
}
