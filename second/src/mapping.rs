//! Mapping of level bits to the numbers of cells (clause 7.4) and back.
//!
//! A number is top − 2 × (sum of weight × bit over its levels), top being 1, 3 or 7 for 4-, 16- or 64-QAM.

use crate::interleaver::Places;

/// How a level's coded bits get into the numbers: its weight, its axis if it has one, its interleaver's t.
#[derive(Clone, Copy, Debug, PartialEq, Eq)]
pub struct Way {
    pub weight: i16,
    /// First number of a cell that takes a bit, and the step to the next number that does.
    pub first: usize,
    pub step: usize,
    pub t: Option<usize>,
}

/// Bits go alternately to the real and the imaginary axis.
pub const fn both(weight: i16, t: Option<usize>) -> Way {
    Way { weight, first: 0, step: 1, t }
}

pub const fn real(weight: i16, t: Option<usize>) -> Way {
    Way { weight, first: 0, step: 2, t }
}

pub const fn imaginary(weight: i16, t: Option<usize>) -> Way {
    Way { weight, first: 1, step: 2, t }
}

impl Way {
    /// Interleaves the coded bits of one protection part and subtracts their share from its numbers.
    pub fn put(&self, coded: &[u8], numbers: &mut [i16]) {
        if coded.is_empty() {
            return;
        }
        let numbers = numbers.iter_mut().skip(self.first).step_by(self.step);
        let share = 2 * self.weight;
        match self.t {
            Some(t) => numbers.zip(Places::new(coded.len(), t)).for_each(|(v, p)| *v -= share * coded[p] as i16),
            None => numbers.zip(coded).for_each(|(v, &bit)| *v -= share * bit as i16),
        }
    }

    /// Takes the coded bits of one protection part out of its numbers, which are points.
    pub fn get(&self, numbers: &[i16], top: i16, coded: &mut [u8]) {
        if coded.is_empty() {
            return;
        }
        let bits = numbers.iter().skip(self.first).step_by(self.step);
        // top − v is twice the sum of weights.
        let bits = bits.map(|v| ((top - v) & (2 * self.weight) != 0) as u8);
        match self.t {
            Some(t) => Places::new(coded.len(), t).zip(bits).for_each(|(p, bit)| coded[p] = bit),
            None => coded.iter_mut().zip(bits).for_each(|(place, bit)| *place = bit),
        }
    }
}

/// Whether a number is a coordinate of the constellation with this top.
pub fn is_coordinate(v: i16, top: i16) -> bool {
    v & 1 == 1 && (-top..=top).contains(&v)
}

/// Whether all numbers are.
pub fn are_points(numbers: &[i16], top: i16) -> bool {
    numbers.iter().all(|&v| is_coordinate(v, top))
}

/// Whether all cells are points or (0, 0).
pub fn are_points_or_zero(numbers: &[i16], top: i16) -> bool {
    numbers.chunks(2).all(|cell| cell == [0, 0] || are_points(cell, top))
}
