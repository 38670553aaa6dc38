//! The table of a module's diagnostics.
use crate::declarations::Code;

/// The rows of the table, d1 to d5.
const ROWS: usize = 5;

/// The columns of the table, depth 0 to 31.
const COLUMNS: usize = 32;

/// How many of each diagnostic, and how deep: a count for each of d1 to d5 and each namespace depth from 0 to 31.
///
/// The depth of a diagnostic is the number of `Ns` records that hold the record that it is marked at. The name behind a
/// dot, an `Nd`, is no `Ns`. By default all counts are 0.
#[derive(Clone, Copy, Debug, Default, PartialEq, Eq, Hash)]
pub struct Depths {
    pub(crate) rows: [[u32; COLUMNS]; ROWS],
}

impl Depths {
    /// How many diagnostics of this code stand at this depth. Of what has no place in the table there is none.
    pub fn count(&self, code: Code, depth: usize) -> u32 {
        let row = self.rows.get(usize::from(code.digit().wrapping_sub(b'1')));
        row.and_then(|row| row.get(depth)).copied().unwrap_or(0)
    }

    /// How many diagnostics there are.
    pub fn total(&self) -> usize {
        self.iter().map(|(_, _, count)| count as usize).sum()
    }

    /// The counts that are not 0, each behind its code and its depth: d1 first, and depth 0 first.
    pub fn iter(&self) -> impl Iterator<Item = (Code, usize, u32)> + Clone + '_ {
        let codes = (b'1'..).map(Code::from_digit);
        let cells =
            codes.zip(&self.rows).flat_map(|(code, row)| (0..).zip(row).map(move |(depth, &n)| (code, depth, n)));
        cells.filter(|&(_, _, count)| count > 0)
    }

    /// All counts: a row for each of d1 to d5, and in it a count for each depth.
    pub fn rows(&self) -> &[[u32; COLUMNS]; ROWS] {
        &self.rows
    }
}

#[cfg(test)]
mod tests {
    use super::*;

    /// Each cell has a number of its own, and is found by its code and depth.
    #[test]
    fn every_cell() {
        let mut depths = Depths::default();
        assert_eq!((depths.total(), depths.iter().count()), (0, 0));
        for (number, cell) in (1..).zip(depths.rows.as_flattened_mut()) {
            *cell = number;
        }
        let cells: Vec<_> = depths.iter().collect();
        assert_eq!((cells.len(), depths.total()), (160, 160 * 161 / 2));
        for (at, (code, depth, count)) in cells.into_iter().enumerate() {
            assert_eq!((usize::from(code.digit() - b'1'), depth, count as usize), (at / 32, at % 32, at + 1));
            assert_eq!(depths.count(code, depth), count);
        }
    }

    #[test]
    fn what_has_no_place() {
        let depths = Depths { rows: [[1; COLUMNS]; ROWS] };
        for digit in 0..=255 {
            let known = (b'1'..=b'5').contains(&digit);
            assert_eq!(depths.count(Code::from_digit(digit), 31), u32::from(known));
            assert_eq!(depths.count(Code::from_digit(digit), 32), 0);
            assert_eq!(depths.count(Code::from_digit(digit), usize::MAX), 0);
        }
    }
}
