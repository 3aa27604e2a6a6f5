//! Where the bits of a block go: its levels, their parts, and the places of its interleavers.

use crate::fixed::{CYCLES_13, CYCLES_21};
use crate::places::{by_axes, in_parts, ROOM};
use crate::standard::{Settings, FAC_BITS, FAC_CELLS, FAC_TAIL, HMMIX, R3_5, RX, RY, SM16, SM64, TAILS};

/// Input bits of one part of a level.
#[derive(Clone, Copy, Default)]
pub struct Part {
    /// Place of its first bit in the block.
    pub from: usize,
    pub bits: usize,
    pub rate: usize,
}

/// A level: part A, part B, and the tail's columns.
#[derive(Clone, Copy, Default)]
pub struct Level {
    pub a: Part,
    pub b: Part,
    pub tail: [u8; 6],
    /// Which of the three rows of coded bits it writes: from which place, and how far its bits are apart.
    pub row: usize,
    pub first: usize,
    pub stride: usize,
}

#[derive(Clone, Copy, PartialEq, Eq, Default)]
pub enum Constellation {
    #[default]
    Qam4,
    Qam16,
    Sm64,
    HmMix,
    HmSym,
}

/// Real 0 is the VSPP's; then imaginary 0, real 1, imaginary 1, real 2, imaginary 2.
const MOST_LEVELS: usize = 6;

#[derive(Default)]
pub struct Block {
    levels: [Level; MOST_LEVELS],
    used: usize,
    pub constellation: Constellation,
    pub cells: usize,
    /// Bits of the VSPP, which come first.
    pub vspp: usize,
    pub bits: usize,
}

impl Block {
    pub fn levels(&self) -> &[Level] {
        &self.levels[..self.used]
    }

    pub fn bytes(&self) -> usize {
        self.bits.div_ceil(8)
    }

    pub fn fac() -> Block {
        let b = Part { from: 0, bits: FAC_BITS, rate: R3_5 };
        let mut block = Block { cells: FAC_CELLS, bits: FAC_BITS, used: 1, ..Block::default() };
        block.levels[0] = Level { b, tail: FAC_TAIL, stride: 1, ..Level::default() };
        block
    }

    pub fn sdc(s: &Settings) -> Block {
        let constellation = if s.sdc == 0 { Constellation::Qam16 } else { Constellation::Qam4 };
        let mut block = Block { cells: s.sdc_cells(), constellation, ..Block::default() };
        block.add(s.rates_sdc(), s.rates_sdc(), [0, 2 * s.sdc_cells()], &[(0, 0), (1, 0)], 1);
        block
    }

    /// A multiplex frame.
    pub fn msc(s: &Settings) -> Block {
        let constellation = match s.msc {
            SM64 => Constellation::Sm64,
            HMMIX => Constellation::HmMix,
            SM16 => Constellation::Qam16,
            _ => Constellation::HmSym,
        };
        let (n, n1) = (s.cells(), s.n1());
        let (each, stride) = (s.bits_a_cell(), 3 - s.bits_a_cell());
        let mut block = Block { cells: n, constellation, ..Block::default() };
        if let Some(rate) = s.rate_vspp() {
            block.add(&[rate], &[rate], [0, each * n], &[(0, 0)], stride);
            block.vspp = block.bits;
        }
        let rows: &[(usize, usize)] = match constellation {
            Constellation::HmMix => &[(0, 1), (1, 0), (1, 1), (2, 0), (2, 1)],
            Constellation::HmSym => &[(1, 0), (2, 0)],
            _ => &[(0, 0), (1, 0), (2, 0)],
        };
        block.add(s.rates_a(), s.rates_b(), [each * n1, each * (n - n1)], rows, stride);
        block
    }

    /// Adds levels of so many coded bits in parts A and B: A's bits level by level, then B's.
    fn add(&mut self, a: &[usize], b: &[usize], coded: [usize; 2], rows: &[(usize, usize)], stride: usize) {
        let bits_a = |rate: usize| coded[0] / RY[rate] * RX[rate];
        let mut from_a = self.bits;
        let mut from_b = self.bits + a.iter().map(|&rate| bits_a(rate)).sum::<usize>();
        for ((&a, &b), &(row, first)) in a.iter().zip(b).zip(rows) {
            let a = Part { from: from_a, bits: bits_a(a), rate: a };
            let rest = coded[1] - 12;
            let tail = TAILS[rest % RY[b]];
            let b = Part { from: from_b, bits: rest / RY[b] * RX[b], rate: b };
            (from_a, from_b) = (from_a + a.bits, from_b + b.bits);
            self.levels[self.used] = Level { a, b, tail, row, first, stride };
            self.used += 1;
        }
        self.bits = from_b;
    }
}

/// Places of the numbers in the rows of coded bits: t = 13, t = 21.
pub struct Orders([[u16; ROOM]; 2]);

impl Default for Orders {
    fn default() -> Orders {
        Orders([[0; ROOM]; 2])
    }
}

impl Orders {
    /// For a block with so many cells in parts A and B.
    pub fn make(&mut self, constellation: Constellation, cells: [usize; 2]) {
        let [t13, t21] = &mut self.0;
        let numbers = cells.map(|n| 2 * n);
        match constellation {
            Constellation::Qam4 => in_parts(&CYCLES_21, numbers, t21),
            Constellation::HmMix => {
                by_axes(&CYCLES_13, cells, t13);
                by_axes(&CYCLES_21, cells, t21);
            }
            _ => {
                in_parts(&CYCLES_13, numbers, t13);
                in_parts(&CYCLES_21, numbers, t21);
            }
        }
    }

    /// Those of t = 13 and of t = 21 for so many cells, two a cell.
    pub fn of(&self, cells: usize) -> [&[[u16; 2]]; 2] {
        self.0.each_ref().map(|order| &order.as_chunks().0[..cells])
    }
}
