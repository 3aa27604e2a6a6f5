//! An FAC block, an SDC block or a multiplex frame: from its packed bits to its cells and back.

use crate::component::{Level, Part};
use crate::dispersal::disperse;
use crate::mapping::{are_points, both, imaginary, real, Way};
use crate::packing::{pack, unpack};
use crate::rates::{Rate, R3_5, SDC, TAIL};
use crate::settings::{with_tail, without_tail, Settings, FAC_BITS, FAC_CELLS};
use crate::settings::{HMMIX, HMSYM, SM64};
use crate::table::{Pattern, Table, STANDARD};

/// Ways of the levels in the order of the partition, the VSPP left out.
static WAYS_4QAM: [Way; 1] = [both(1, Some(21))];
static WAYS_16QAM: [Way; 2] = [both(1, Some(13)), both(2, Some(21))];
static WAYS_SM64: [Way; 3] = [both(1, None), both(2, Some(13)), both(4, Some(21))];
static WAYS_HMSYM: [Way; 2] = [both(1, Some(13)), both(2, Some(21))];
static WAYS_HMMIX: [Way; 5] = [
    imaginary(1, None),
    real(1, Some(13)),
    imaginary(2, Some(13)),
    real(2, Some(21)),
    imaginary(4, Some(21)),
];

/// Buffers for the bits between two stages, one bit a byte.
pub struct Scratch {
    pub bits: Vec<u8>,
    pub coded: Vec<u8>,
}

impl Scratch {
    /// Room for any block; 64-QAM carries at most six bits a cell, and a level at most two.
    pub fn for_cells(cells: usize) -> Scratch {
        Scratch { bits: vec![0; 6 * cells], coded: vec![0; 2 * cells] }
    }
}

/// The layout of a block.
pub struct Block {
    /// The puncturing table.
    pub table: Table,
    pub levels: Vec<(Level, Way)>,
    /// Greatest coordinate of the constellation.
    pub top: i16,
    pub cells: usize,
    /// Bits of the VSPP, which come first.
    pub vspp: usize,
    /// All bits.
    pub bits: usize,
}

impl Block {
    pub fn fac() -> Block {
        Block::fac_by(&STANDARD)
    }

    /// An FAC block with a table that passes.
    pub fn fac_by(table: &Table) -> Block {
        let pattern = Pattern::new(table, &R3_5);
        let a = Part { rate: &R3_5, pattern, start: 0, bits: 0, coded: 0 };
        let b = Part { rate: &R3_5, pattern, start: 0, bits: FAC_BITS, coded: 2 * FAC_CELLS };
        // 72 bits are whole rounds of the pattern, so the tail goes on at its first column.
        let c = pattern.columns();
        let tail = [c[0], c[1], c[2], c[0], c[1], c[2]];
        let levels = vec![(Level { a, b, tail }, WAYS_4QAM[0])];
        Block { table: *table, levels, top: 1, cells: FAC_CELLS, vspp: 0, bits: FAC_BITS }
    }

    pub fn sdc(settings: &Settings) -> Block {
        Block::sdc_by(&STANDARD, settings)
    }

    pub fn sdc_by(table: &Table, settings: &Settings) -> Block {
        let rates = SDC[settings.sdc as usize];
        let ways: &[Way] = if settings.sdc == 0 { &WAYS_16QAM } else { &WAYS_4QAM };
        let mut block = Block::empty(table, settings.sdc_top(), settings.n_sdc());
        block.add_levels(rates, 0, rates, 2 * settings.n_sdc(), ways);
        block
    }

    /// A multiplex frame of permitted settings.
    pub fn frame(settings: &Settings) -> Block {
        Block::frame_by(&STANDARD, settings)
    }

    pub fn frame_by(table: &Table, settings: &Settings) -> Block {
        let cells = settings.n_mux();
        let mut block = Block::empty(table, settings.msc_top(), cells);
        let per_cell = settings.bits_per_cell();
        let n1 = settings.lengths().n1;
        match settings.msc {
            HMMIX => block.add_vspp(settings.vspp_rate(), cells, real(4, None)),
            HMSYM => block.add_vspp(settings.vspp_rate(), 2 * cells, both(4, None)),
            _ => {}
        }
        let ways: &[Way] = match settings.msc {
            SM64 => &WAYS_SM64,
            HMMIX => &WAYS_HMMIX,
            HMSYM => &WAYS_HMSYM,
            _ => &WAYS_16QAM,
        };
        let (a, b) = (settings.part_a().rates, settings.part_b().rates);
        block.add_levels(a, per_cell * n1, b, per_cell * (cells - n1), ways);
        block
    }

    fn empty(table: &Table, top: i16, cells: usize) -> Block {
        Block { table: *table, levels: Vec::new(), top, cells, vspp: 0, bits: 0 }
    }

    /// The VSPP's level has no part A: one pattern over all its bits.
    fn add_vspp(&mut self, rate: &'static Rate, coded: usize, way: Way) {
        self.add_levels(&[rate], 0, &[rate], coded, &[way]);
        self.vspp = self.bits;
    }

    /// Adds levels and gives them bits: part A level by level, then part B.
    fn add_levels(
        &mut self,
        rates_a: &[&'static Rate],
        coded_a: usize,
        rates_b: &[&'static Rate],
        coded_b: usize,
        ways: &[Way],
    ) {
        let bits_a: usize = rates_a.iter().map(|r| without_tail(r, coded_a)).sum();
        let mut start_a = self.bits;
        let mut start_b = self.bits + bits_a;
        for ((rate_a, rate_b), way) in rates_a.iter().zip(rates_b).zip(ways) {
            let pattern = Pattern::new(&self.table, rate_a);
            let a = Part { rate: rate_a, pattern, start: start_a, bits: without_tail(rate_a, coded_a), coded: coded_a };
            let pattern = Pattern::new(&self.table, rate_b);
            let b = Part { rate: rate_b, pattern, start: start_b, bits: with_tail(rate_b, coded_b), coded: coded_b };
            start_a += a.bits;
            start_b += b.bits;
            let tail = TAIL[(coded_b - 12) % rate_b.denominator];
            self.levels.push((Level { a, b, tail }, *way));
        }
        self.bits = start_b;
    }

    pub fn bytes(&self) -> usize {
        self.bits.div_ceil(8)
    }

    pub fn numbers(&self) -> usize {
        2 * self.cells
    }

    /// Cells in mapping order; all numbers are written.
    pub fn code(&self, bytes: &[u8], numbers: &mut [i16], scratch: &mut Scratch) {
        let bits = &mut scratch.bits[..self.bits];
        unpack(bytes, bits);
        self.disperse(bits);
        numbers.fill(self.top);
        for (level, way) in &self.levels {
            let coded = &mut scratch.coded[..level.coded()];
            level.encode(bits, coded);
            let (coded_a, coded_b) = coded.split_at(level.a.coded);
            let (numbers_a, numbers_b) = numbers.split_at_mut(level.a.coded * way.step);
            way.put(coded_a, numbers_a);
            way.put(coded_b, numbers_b);
        }
    }

    /// The packed bits that give these cells; false, and any bytes, if there are none.
    pub fn read(&self, numbers: &[i16], bytes: &mut [u8], scratch: &mut Scratch) -> bool {
        if !are_points(numbers, self.top) {
            return false;
        }
        let bits = &mut scratch.bits[..self.bits];
        for (level, way) in &self.levels {
            let coded = &mut scratch.coded[..level.coded()];
            let (coded_a, coded_b) = coded.split_at_mut(level.a.coded);
            let (numbers_a, numbers_b) = numbers.split_at(level.a.coded * way.step);
            way.get(numbers_a, self.top, coded_a);
            way.get(numbers_b, self.top, coded_b);
            if !level.decode(coded, bits) {
                return false;
            }
        }
        self.disperse(bits);
        pack(bits, bytes);
        true
    }

    /// The VSPP and the remainder are dispersed by themselves.
    fn disperse(&self, bits: &mut [u8]) {
        let (vspp, remainder) = bits.split_at_mut(self.vspp);
        disperse(vspp);
        disperse(remainder);
    }
}
