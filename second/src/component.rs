//! The component code of one level (clause 7.3.2): a register of seven bits, four parities, puncturing, tail.

use crate::rates::Rate;
use crate::table::Pattern;

/// Generators; the highest of the seven bits is the newest input.
const GENERATORS: [u8; 4] = [0o133, 0o171, 0o145, 0o133];

/// Bit j of an entry is parity j of the register that is its index.
static PARITIES: [u8; 128] = table();

/// The mask says that seven bits are enough, so the index needs no check.
fn parities(register: u8) -> u8 {
    PARITIES[(register & 127) as usize]
}

const fn table() -> [u8; 128] {
    let mut table = [0; 128];
    let mut register = 0;
    while register < 128 {
        let mut j = 0;
        while j < 4 {
            let parity = (register as u8 & GENERATORS[j]).count_ones() as u8 & 1;
            table[register] |= parity << j;
            j += 1;
        }
        register += 1;
    }
    table
}

/// One protection part of a level.
#[derive(Clone, Copy, Debug)]
pub struct Part {
    pub rate: &'static Rate,
    /// The rate's columns in the table that is used.
    pub pattern: Pattern,
    /// Place of its first bit in the block's bits.
    pub start: usize,
    /// Input bits, without the tail's zeros.
    pub bits: usize,
    /// Coded bits, with the tail's.
    pub coded: usize,
}

/// A level: part A, then part B with the tail; the register runs on, the pattern starts anew.
#[derive(Clone, Copy, Debug)]
pub struct Level {
    pub a: Part,
    pub b: Part,
    /// Columns of the six zero bits.
    pub tail: [u8; 6],
}

impl Level {
    /// Coded bits of both parts.
    pub fn coded(&self) -> usize {
        self.a.coded + self.b.coded
    }

    /// Codes the level's bits out of the block's bits.
    pub fn encode(&self, bits: &[u8], coded: &mut [u8]) {
        let mut run = Encoder { register: 0, coded: coded.iter_mut() };
        run.take(self.a.of(bits), self.a.pattern.columns());
        run.take(self.b.of(bits), self.b.pattern.columns());
        run.take(&[0; 6], &self.tail);
        debug_assert!(run.coded.next().is_none());
    }

    /// Finds the level's bits within the block's bits; false if no bits give these coded bits.
    pub fn decode(&self, coded: &[u8], bits: &mut [u8]) -> bool {
        let mut run = Decoder { register: 0, coded: coded.iter() };
        let mut zeros = [0; 6];
        run.take(self.a.of_mut(bits), self.a.pattern.columns())
            && run.take(self.b.of_mut(bits), self.b.pattern.columns())
            && run.take(&mut zeros, &self.tail)
            && zeros == [0; 6]
    }
}

impl Part {
    fn of<'a>(&self, bits: &'a [u8]) -> &'a [u8] {
        &bits[self.start..self.start + self.bits]
    }

    fn of_mut<'a>(&self, bits: &'a mut [u8]) -> &'a mut [u8] {
        &mut bits[self.start..self.start + self.bits]
    }
}

struct Encoder<'a> {
    register: u8,
    coded: std::slice::IterMut<'a, u8>,
}

impl Encoder<'_> {
    /// Shifts bits in and writes the parities that the columns keep, over and over from the first column.
    fn take(&mut self, bits: &[u8], columns: &[u8]) {
        let mut column = 0;
        for bit in bits {
            self.register = self.register >> 1 | bit << 6;
            let parities = parities(self.register);
            let keep = columns[column];
            for j in 0..4 {
                if keep >> j & 1 == 1 {
                    *self.coded.next().unwrap() = parities >> j & 1;
                }
            }
            column += 1;
            if column == columns.len() {
                column = 0;
            }
        }
    }
}

struct Decoder<'a> {
    register: u8,
    coded: std::slice::Iter<'a, u8>,
}

impl Decoder<'_> {
    /// Solves each bit from the first parity, which every column keeps, and checks the other kept ones.
    fn take(&mut self, bits: &mut [u8], columns: &[u8]) -> bool {
        let mut column = 0;
        for bit in bits {
            let without = self.register >> 1;
            *bit = (parities(without) & 1) ^ self.coded.next().unwrap();
            self.register = without | *bit << 6;
            let parities = parities(self.register);
            let keep = columns[column];
            for j in 1..4 {
                if keep >> j & 1 == 1 && *self.coded.next().unwrap() != parities >> j & 1 {
                    return false;
                }
            }
            column += 1;
            if column == columns.len() {
                column = 0;
            }
        }
        true
    }
}

#[cfg(test)]
mod tests {
    use super::*;
    use crate::digest::Random;
    use crate::rates::{R1_2, RATES, TAIL};
    use crate::table::STANDARD;

    fn level(rate: &'static Rate, bits: usize, tail: [u8; 6]) -> Level {
        let kept: u32 = tail.iter().map(|c| c.count_ones()).sum();
        let coded = bits / rate.numerator * rate.denominator + kept as usize;
        let pattern = Pattern::new(&STANDARD, rate);
        let a = Part { rate, pattern, start: 0, bits: 0, coded: 0 };
        Level { a, b: Part { rate, pattern, start: 0, bits, coded }, tail }
    }

    #[test]
    fn one_and_six_zeros_at_rate_one_half() {
        let level = level(&R1_2, 1, TAIL[0]);
        let mut coded = [0; 14];
        level.encode(&[1], &mut coded);
        assert_eq!(coded, [1, 1, 0, 1, 1, 1, 1, 1, 0, 0, 1, 0, 1, 1]);
    }

    /// The recursion of the clause, written out: b_j of input i.
    fn parity(bits: &[u8], j: usize, i: usize) -> u8 {
        let delays: &[usize] = match j {
            1 => &[0, 1, 2, 3, 6],
            2 => &[0, 1, 4, 6],
            _ => &[0, 2, 3, 5, 6],
        };
        let a = |d: usize| if d <= i { bits.get(i - d).copied().unwrap_or(0) } else { 0 };
        delays.iter().fold(0, |sum, &d| sum ^ a(d))
    }

    #[test]
    fn every_pattern_and_tail_row_keeps_the_clause_s_parities() {
        let mut random = Random(7);
        for rate in RATES {
            for tail in TAIL {
                let level = level(rate, 10 * rate.numerator, tail);
                let bits: Vec<u8> = (0..level.b.bits).map(|_| random.byte() & 1).collect();
                let mut coded = vec![0; level.coded()];
                level.encode(&bits, &mut coded);
                let mut expected = Vec::new();
                for i in 0..bits.len() + 6 {
                    let keep = match i.checked_sub(bits.len()) {
                        Some(tail_bit) => tail[tail_bit],
                        None => rate.columns[i % rate.numerator],
                    };
                    expected.extend((0..4).filter(|j| keep >> j & 1 == 1).map(|j| parity(&bits, j, i)));
                }
                assert_eq!(coded, expected);
                let mut read = vec![0; bits.len()];
                assert!(level.decode(&coded, &mut read));
                assert_eq!(read, bits);
            }
        }
    }

    #[test]
    fn one_changed_bit_is_always_noticed() {
        let mut random = Random(8);
        for rate in RATES {
            let level = level(rate, 6 * rate.numerator, TAIL[3]);
            let bits: Vec<u8> = (0..level.b.bits).map(|_| random.byte() & 1).collect();
            let mut coded = vec![0; level.coded()];
            level.encode(&bits, &mut coded);
            for i in 0..coded.len() {
                coded[i] ^= 1;
                assert!(!level.decode(&coded, &mut bits.clone()), "{rate:?} {i}");
                coded[i] ^= 1;
            }
        }
    }
}
