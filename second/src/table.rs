//! Puncturing tables of one's own (02, S-11): 196 numbers for the thirteen rates, and the test that they have to pass.

use crate::rates::{Rate, RATES};

/// Four rows for each rate, with the rate's numerator as their columns.
pub const ENTRIES: usize = 196;

pub type Table = [u8; ENTRIES];

/// Rows of a rate: B0 to B3.
const ROWS: usize = 4;
/// Columns of the widest rate.
const MOST_COLUMNS: usize = 8;

/// Table 65 of the standard, smallest rate first.
#[rustfmt::skip]
pub static STANDARD: Table = [
    // 1/4
    1,
    1,
    1,
    1,
    // 3/10
    1, 1, 1,
    1, 1, 1,
    1, 1, 1,
    1, 0, 0,
    // 1/3
    1,
    1,
    1,
    0,
    // 4/11
    1, 1, 1, 1,
    1, 1, 1, 1,
    1, 1, 1, 0,
    0, 0, 0, 0,
    // 1/2
    1,
    1,
    0,
    0,
    // 4/7
    1, 1, 1, 1,
    1, 0, 1, 0,
    0, 1, 0, 0,
    0, 0, 0, 0,
    // 3/5
    1, 1, 1,
    1, 0, 1,
    0, 0, 0,
    0, 0, 0,
    // 2/3
    1, 1,
    1, 0,
    0, 0,
    0, 0,
    // 8/11
    1, 1, 1, 1, 1, 1, 1, 1,
    1, 0, 0, 1, 0, 0, 1, 0,
    0, 0, 0, 0, 0, 0, 0, 0,
    0, 0, 0, 0, 0, 0, 0, 0,
    // 3/4
    1, 1, 1,
    1, 0, 0,
    0, 0, 0,
    0, 0, 0,
    // 4/5
    1, 1, 1, 1,
    1, 0, 0, 0,
    0, 0, 0, 0,
    0, 0, 0, 0,
    // 7/8
    1, 1, 1, 1, 1, 1, 1,
    1, 0, 0, 0, 0, 0, 0,
    0, 0, 0, 0, 0, 0, 0,
    0, 0, 0, 0, 0, 0, 0,
    // 8/9
    1, 1, 1, 1, 1, 1, 1, 1,
    1, 0, 0, 0, 0, 0, 0, 0,
    0, 0, 0, 0, 0, 0, 0, 0,
    0, 0, 0, 0, 0, 0, 0, 0,
];

/// The columns of one rate; bit j of a column is set if B_j is kept.
#[derive(Clone, Copy, PartialEq, Eq, Debug)]
pub struct Pattern {
    columns: [u8; MOST_COLUMNS],
    len: usize,
}

impl Pattern {
    /// The pattern of a rate in a table that passes.
    pub fn new(table: &Table, rate: &Rate) -> Pattern {
        let start = place(rate);
        let mut columns = [0; MOST_COLUMNS];
        for (column, kept) in columns.iter_mut().enumerate().take(rate.numerator) {
            for row in 0..ROWS {
                *kept |= table[start + row * rate.numerator + column] << row;
            }
        }
        Pattern { columns, len: rate.numerator }
    }

    pub fn columns(&self) -> &[u8] {
        &self.columns[..self.len]
    }
}

/// Where the rows of a rate begin.
pub fn place(rate: &Rate) -> usize {
    RATES.iter().take_while(|r| **r != rate).map(|r| ROWS * r.numerator).sum()
}

/// Whether numbers are a table that is accepted; otherwise 23.
pub fn passes(table: &[u8]) -> bool {
    if table.len() != ENTRIES || table.iter().any(|&entry| entry > 1) {
        return false;
    }
    RATES.iter().all(|rate| {
        let rows = &table[place(rate)..][..ROWS * rate.numerator];
        let ones = rows.iter().filter(|&&entry| entry == 1).count();
        rows[..rate.numerator].iter().all(|&entry| entry == 1) && ones == rate.denominator
    })
}

/// Any table that passes; `below(n)` draws a number below n.
pub fn drawn(mut below: impl FnMut(usize) -> usize) -> Table {
    let mut table = [0; ENTRIES];
    for rate in RATES {
        let rows = &mut table[place(rate)..][..ROWS * rate.numerator];
        rows[..rate.numerator].fill(1);
        let mut more = rate.denominator - rate.numerator;
        while more > 0 {
            let at = below(rows.len());
            more -= (rows[at] == 0) as usize;
            rows[at] = 1;
        }
    }
    table
}

#[cfg(test)]
mod tests {
    use super::*;
    use crate::digest::Random;
    use crate::rates::{R3_10, R4_7, R8_9};

    #[test]
    fn the_standards_table_passes() {
        assert!(passes(&STANDARD));
    }

    #[test]
    fn the_standards_patterns_are_those_of_the_rates() {
        for rate in RATES {
            assert_eq!(Pattern::new(&STANDARD, rate).columns(), rate.columns);
        }
    }

    #[test]
    fn thirteen_rates_fill_the_table() {
        let last = RATES[12];
        assert_eq!((place(last), place(last) + 4 * last.numerator), (164, ENTRIES));
    }

    #[test]
    fn rows_and_columns() {
        let mut table = STANDARD;
        // 3/10 begins after 1/4's four numbers; its one of B3 goes from column 0 to column 2.
        (table[4 + 9], table[4 + 11]) = (0, 1);
        assert_eq!(Pattern::new(&table, &R3_10).columns(), [0b0111, 0b0111, 0b1111]);
        assert!(passes(&table));
        assert_eq!(Pattern::new(&table, &R4_7), Pattern::new(&STANDARD, &R4_7));
    }

    #[test]
    fn drawn_tables_pass() {
        let mut random = Random(11);
        for _ in 0..100 {
            let table = drawn(|n| random.byte() as usize % n);
            assert!(passes(&table) && table != STANDARD);
        }
    }

    #[test]
    fn tables_that_fail() {
        assert!(!passes(&STANDARD[..195]) && !passes(&[&STANDARD[..], &[0]].concat()) && !passes(&[]));
        for at in 0..ENTRIES {
            let mut table = STANDARD;
            table[at] = 1 - table[at];
            assert!(!passes(&table), "{at}");
            for wrong in [2, 128, 255] {
                table[at] = wrong;
                assert!(!passes(&table), "{at}");
            }
        }
        // The number of ones fits, but a B0 is not all ones, or an entry is 2.
        let (mut table, at) = (STANDARD, place(&R8_9));
        (table[at], table[at + 9]) = (0, 1);
        assert!(!passes(&table));
        let (mut table, at) = (STANDARD, place(&R3_10));
        (table[at + 3], table[at + 4]) = (2, 0);
        assert!(!passes(&table));
        // One rate has a one more and the next a one less.
        let mut table = STANDARD;
        (table[place(&R4_7) + 5], table[place(&R4_7) - 3]) = (1, 0);
        assert!(!passes(&table));
    }
}
