//! Settings, their refusals, lengths (clause 7.2.1.1) and sizes of the buffers.

use crate::forms::MemoryElement;
use crate::memory::Element;
use crate::rates::{self, Combination, Rate};

/// MSC modes.
pub const SM64: u8 = 0;
pub const HMMIX: u8 = 1;
pub const HMSYM: u8 = 2;
pub const SM16: u8 = 3;

pub const FAC_CELLS: usize = 65;
pub const FAC_BITS: usize = 72;
pub const FAC_BYTES: usize = 9;

/// MSC cells per multiplex frame by robustness mode and occupancy (tables 75 to 78); 0 is unused.
static N_MUX: [[usize; 6]; 4] = [
    [1259, 1422, 2632, 2959, 5464, 6118],
    [966, 1110, 2051, 2337, 4249, 4774],
    [0, 0, 0, 1844, 0, 3867],
    [0, 0, 0, 1226, 0, 2606],
];

/// MSC cells per super frame, with the fillers.
static N_SFA: [[usize; 6]; 4] = [
    [3778, 4268, 7897, 8877, 16394, 18354],
    [2900, 3330, 6153, 7013, 12747, 14323],
    [0, 0, 0, 5532, 0, 11603],
    [0, 0, 0, 3679, 0, 7819],
];

/// SDC cells (table 63).
static N_SDC: [[usize; 6]; 4] = [
    [167, 190, 359, 405, 754, 846],
    [130, 150, 282, 322, 588, 662],
    [0, 0, 0, 288, 0, 607],
    [0, 0, 0, 152, 0, 332],
];

/// The 16 pairings of robustness mode and occupancy.
pub static PAIRINGS: [(u8, u8); 16] = [
    (0, 0), (0, 1), (0, 2), (0, 3), (0, 4), (0, 5),
    (1, 0), (1, 1), (1, 2), (1, 3), (1, 4), (1, 5),
    (2, 3), (2, 5), (3, 3), (3, 5),
];

#[derive(Clone, Copy, PartialEq, Eq, Debug, Default)]
pub struct Settings {
    pub mode: u8,
    pub occupancy: u8,
    pub msc: u8,
    pub level_a: u8,
    pub level_b: u8,
    pub vspp: u8,
    /// Bytes in part A.
    pub x: u16,
    pub sdc: u8,
    pub interleaving: u8,
}

#[derive(Clone, Copy, PartialEq, Eq, Debug, Default)]
pub struct Lengths {
    pub n1: usize,
    pub n2: usize,
    pub l1: usize,
    pub l2: usize,
    pub vspp: usize,
}

#[derive(Clone, Copy, PartialEq, Eq, Debug, Default)]
pub struct Sizes {
    pub sdc_bytes: usize,
    pub msc_bytes: usize,
    pub fac_numbers: usize,
    pub sdc_numbers: usize,
    pub msc_numbers: usize,
    pub memory_numbers: usize,
}

impl Sizes {
    /// Elements of memory as calls are lent it.
    pub fn memory_lent(&self) -> usize {
        self.memory_numbers / 2 * MemoryElement::A_CELL
    }
}

impl Lengths {
    /// Bits of a multiplex frame.
    pub fn frame_bits(&self) -> usize {
        self.vspp + self.l1 + self.l2
    }
}

impl Settings {
    /// The ten bytes: mode, occupancy, MSC mode, levels A and B, VSPP level, X, SDC mode, interleaving.
    pub fn bytes(&self) -> [u8; 10] {
        let [high, low] = self.x.to_be_bytes();
        let s = self;
        [s.mode, s.occupancy, s.msc, s.level_a, s.level_b, s.vspp, high, low, s.sdc, s.interleaving]
    }

    pub fn from_bytes(b: [u8; 10]) -> Settings {
        Settings {
            mode: b[0],
            occupancy: b[1],
            msc: b[2],
            level_a: b[3],
            level_b: b[4],
            vspp: b[5],
            x: u16::from_be_bytes([b[6], b[7]]),
            sdc: b[8],
            interleaving: b[9],
        }
    }

    pub fn hex(&self) -> String {
        self.bytes().iter().map(|b| format!("{b:02X}")).collect()
    }

    pub fn long(&self) -> bool {
        self.interleaving == 0
    }

    /// Slots of the interleaving memory.
    pub fn slots(&self) -> usize {
        if self.long() { 5 } else { 1 }
    }

    pub fn hierarchical(&self) -> bool {
        self.msc == HMMIX || self.msc == HMSYM
    }

    /// Coded bits that a cell takes from one level: one per axis, but HMmix codes each axis by itself.
    pub fn bits_per_cell(&self) -> usize {
        if self.msc == HMMIX { 1 } else { 2 }
    }

    /// Greatest coordinate of the MSC's constellation.
    pub fn msc_top(&self) -> i16 {
        if self.msc == SM16 { 3 } else { 7 }
    }

    /// Greatest coordinate of the SDC's constellation.
    pub fn sdc_top(&self) -> i16 {
        if self.sdc == 0 { 3 } else { 1 }
    }

    pub fn n_mux(&self) -> usize {
        N_MUX[self.mode as usize][self.occupancy as usize]
    }

    pub fn n_sfa(&self) -> usize {
        N_SFA[self.mode as usize][self.occupancy as usize]
    }

    pub fn n_sdc(&self) -> usize {
        N_SDC[self.mode as usize][self.occupancy as usize]
    }

    pub fn part_a(&self) -> &'static Combination {
        &rates::combinations(self.msc)[self.level_a as usize]
    }

    pub fn part_b(&self) -> &'static Combination {
        &rates::combinations(self.msc)[self.level_b as usize]
    }

    pub fn vspp_rate(&self) -> &'static Rate {
        rates::VSPP[self.vspp as usize]
    }

    /// The lowest refusal 1 to 7 that applies, or 0.
    pub fn refusal(&self) -> u8 {
        if self.mode > 3 {
            return 1;
        }
        if self.occupancy > 5 || self.n_mux() == 0 {
            return 2;
        }
        if self.msc > 3 {
            return 3;
        }
        let levels = rates::combinations(self.msc).len() as u8;
        if self.level_a >= levels || self.level_b >= levels {
            return 4;
        }
        if self.vspp > if self.hierarchical() { 3 } else { 0 } {
            return 5;
        }
        if self.sdc > 1 || self.interleaving > 1 {
            return 6;
        }
        if self.n1() + 20 > self.n_mux() {
            return 7;
        }
        0
    }

    /// Bits that part A gains with each RYlcm cells.
    fn bits_per_step(&self) -> usize {
        let a = self.part_a();
        let coded = self.bits_per_cell() * a.common;
        a.rates.iter().map(|r| coded / r.denominator * r.numerator).sum()
    }

    /// Cells of part A: the smallest multiple of RYlcm that holds 8X bits.
    fn n1(&self) -> usize {
        (8 * self.x as usize).div_ceil(self.bits_per_step()) * self.part_a().common
    }

    /// The greatest X that is not refused, the other settings being permitted.
    pub fn largest_x(&self) -> u16 {
        let steps = (self.n_mux() - 20) / self.part_a().common;
        (steps * self.bits_per_step() / 8) as u16
    }

    /// All five are 0 for refused settings.
    pub fn lengths(&self) -> Lengths {
        if self.refusal() != 0 {
            return Lengths::default();
        }
        let per_cell = self.bits_per_cell();
        let n1 = self.n1();
        let n2 = self.n_mux() - n1;
        let a = self.part_a().rates.iter().map(|r| without_tail(r, per_cell * n1));
        let b = self.part_b().rates.iter().map(|r| with_tail(r, per_cell * n2));
        let vspp = match self.hierarchical() {
            true => with_tail(self.vspp_rate(), per_cell * (n1 + n2)),
            false => 0,
        };
        Lengths { n1, n2, l1: a.sum(), l2: b.sum(), vspp }
    }

    /// Bits of an SDC block.
    pub fn sdc_bits(&self) -> usize {
        sdc_bits(self.sdc, self.n_sdc())
    }

    /// All six are 0 for refused settings.
    pub fn sizes(&self) -> Sizes {
        if self.refusal() != 0 {
            return Sizes::default();
        }
        Sizes {
            sdc_bytes: self.sdc_bits().div_ceil(8),
            msc_bytes: 3 * self.lengths().frame_bits().div_ceil(8),
            fac_numbers: 3 * 2 * FAC_CELLS,
            sdc_numbers: 2 * self.n_sdc(),
            msc_numbers: 2 * self.n_sfa(),
            memory_numbers: 2 * self.n_mux() * self.slots(),
        }
    }

    /// The eleven numbers, lengths before sizes.
    pub fn lengths_and_sizes(&self) -> [usize; 11] {
        let l = self.lengths();
        let z = self.sizes();
        [
            l.n1, l.n2, l.l1, l.l2, l.vspp,
            z.sdc_bytes, z.msc_bytes,
            z.fac_numbers, z.sdc_numbers, z.msc_numbers, z.memory_lent(),
        ]
    }
}

/// Input bits of a level that gives `coded` bits, a multiple of the denominator, and has no tail.
pub fn without_tail(rate: &Rate, coded: usize) -> usize {
    coded / rate.denominator * rate.numerator
}

/// Input bits of a level that gives `coded` bits, at least 12 of them from the tail.
pub fn with_tail(rate: &Rate, coded: usize) -> usize {
    (coded - 12) / rate.denominator * rate.numerator
}

/// Bits of an SDC block of so many cells.
pub fn sdc_bits(sdc: u8, cells: usize) -> usize {
    rates::SDC[sdc as usize].iter().map(|r| with_tail(r, 2 * cells)).sum()
}

#[cfg(test)]
mod tests {
    use super::*;

    fn settings(hex: &str) -> Settings {
        let mut b = [0; 10];
        for (i, b) in b.iter_mut().enumerate() {
            *b = u8::from_str_radix(&hex[2 * i..2 * i + 2], 16).unwrap();
        }
        Settings::from_bytes(b)
    }

    #[test]
    fn hex_and_bytes_agree() {
        let s = settings("010302010203ABCD0101");
        assert_eq!((s.x, s.vspp, s.interleaving), (0xABCD, 3, 1));
        assert_eq!(s.hex(), "010302010203ABCD0101");
    }

    #[test]
    fn part_a_ends_twenty_cells_before_the_frame() {
        let s = Settings { occupancy: 3, x: 1101, ..Settings::default() };
        assert_eq!((s.refusal(), s.lengths().n1), (0, 2936));
        assert_eq!(Settings { x: 1102, ..s }.refusal(), 7);
        assert_eq!(s.largest_x(), 1101);
    }

    #[test]
    fn lengths_of_the_cases() {
        let s = Settings { mode: 1, occupancy: 3, level_b: 1, ..Settings::default() };
        assert_eq!(s.lengths().l2, 8390);
        let s = Settings { occupancy: 3, msc: HMSYM, ..Settings::default() };
        assert_eq!((s.lengths().l2, s.lengths().vspp), (5313, 2953));
        assert_eq!((sdc_bits(1, 100), sdc_bits(0, 100)), (94, 186));
    }

    #[test]
    fn refusals_of_the_cases() {
        assert_eq!(Settings { mode: 3, occupancy: 4, ..Settings::default() }.refusal(), 2);
        for (level_a, level_b) in [(2, 0), (0, 2)] {
            assert_eq!(Settings { msc: SM16, level_a, level_b, ..Settings::default() }.refusal(), 4);
        }
    }

    #[test]
    fn example_of_annex_c() {
        // 266 + 19 bytes in part A, level 0; 798 + 59 in part B, level 1.
        let s = settings("000300000100011D0000");
        assert_eq!(s.x, 266 + 19);
        let l = Lengths { n1: 0x02F8, n2: 0x0897, l1: 0x08E8, l2: 0x1ED6, vspp: 0 };
        assert_eq!(s.lengths(), l);
        // The bytes of both parts fit.
        assert!(l.l1 >= 8 * (266 + 19) && l.l2 >= 8 * (798 + 59));
    }

    #[test]
    fn lowest_refusal_is_given() {
        let mut b = [9, 9, 9, 9, 9, 9, 0xFF, 0xFF, 9, 9];
        let mends = [(0, 1), (1, 2), (2, 3), (3, 4), (4, 4), (5, 5), (8, 6), (9, 6)];
        for (byte, number) in mends {
            assert_eq!(Settings::from_bytes(b).refusal(), number);
            b[byte] = 0;
        }
        assert_eq!(Settings::from_bytes(b).refusal(), 7);
        (b[6], b[7]) = (0, 1);
        assert_eq!(Settings::from_bytes(b).refusal(), 0);
    }

    #[test]
    fn refused_settings_have_no_lengths_and_sizes() {
        let s = Settings { x: 65535, ..Settings::default() };
        assert_eq!((s.lengths(), s.sizes()), (Lengths::default(), Sizes::default()));
    }

    #[test]
    fn super_frame_has_at_most_two_fillers() {
        for (mode, occupancy) in PAIRINGS {
            let s = Settings { mode, occupancy, ..Settings::default() };
            assert!(s.refusal() == 0 && s.n_sfa() - 3 * s.n_mux() <= 2);
        }
    }

    #[test]
    fn largest_x_is_the_last_accepted() {
        for (mode, occupancy) in PAIRINGS {
            for msc in 0..4 {
                for level_a in 0..rates::combinations(msc).len() as u8 {
                    let s = Settings { mode, occupancy, msc, level_a, ..Settings::default() };
                    let x = s.largest_x();
                    assert_eq!(Settings { x, ..s }.refusal(), 0);
                    assert_eq!(Settings { x: x + 1, ..s }.refusal(), 7);
                }
            }
        }
    }
}
