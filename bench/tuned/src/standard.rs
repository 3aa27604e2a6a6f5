//! Numbers of the standard (001, clause 7) and the settings of 01 with their refusals.

/// MSC modes.
pub const SM64: u8 = 0;
pub const HMMIX: u8 = 1;
pub const HMSYM: u8 = 2;
pub const SM16: u8 = 3;

pub const FAC_CELLS: usize = 65;
pub const FAC_BITS: usize = 72;

/// Greatest sizes over all permitted settings.
pub const MOST_CELLS: usize = 6118;
pub const MOST_FRAME_BYTES: usize = 3599;
pub const MOST_SDC_BYTES: usize = 210;

/// By robustness mode and occupancy; 0 is not allowed.
static N_MUX: [[usize; 6]; 4] = [
    [1259, 1422, 2632, 2959, 5464, MOST_CELLS],
    [966, 1110, 2051, 2337, 4249, 4774],
    [0, 0, 0, 1844, 0, 3867],
    [0, 0, 0, 1226, 0, 2606],
];

static N_SFA: [[usize; 6]; 4] = [
    [3778, 4268, 7897, 8877, 16394, 18354],
    [2900, 3330, 6153, 7013, 12747, 14323],
    [0, 0, 0, 5532, 0, 11603],
    [0, 0, 0, 3679, 0, 7819],
];

static N_SDC: [[usize; 6]; 4] = [
    [167, 190, 359, 405, 754, 846],
    [130, 150, 282, 322, 588, 662],
    [0, 0, 0, 288, 0, 607],
    [0, 0, 0, 152, 0, 332],
];

/// Rates by their place in table 65.
pub const RATES: usize = 13;
pub const R1_4: usize = 0;
pub const R3_10: usize = 1;
pub const R1_3: usize = 2;
pub const R4_11: usize = 3;
pub const R1_2: usize = 4;
pub const R4_7: usize = 5;
pub const R3_5: usize = 6;
pub const R2_3: usize = 7;
pub const R8_11: usize = 8;
pub const R3_4: usize = 9;
pub const R4_5: usize = 10;
pub const R7_8: usize = 11;
pub const R8_9: usize = 12;

/// Numerators and denominators.
pub const RX: [usize; RATES] = [1, 3, 1, 4, 1, 4, 3, 2, 8, 3, 4, 7, 8];
pub const RY: [usize; RATES] = [4, 10, 3, 11, 2, 7, 5, 3, 11, 4, 5, 8, 9];

/// Table 65, a number a column: bit j is set where B_j is kept.
pub const COLUMNS: [[u8; 8]; RATES] = [
    [15, 0, 0, 0, 0, 0, 0, 0],
    [15, 7, 7, 0, 0, 0, 0, 0],
    [7, 0, 0, 0, 0, 0, 0, 0],
    [7, 7, 7, 3, 0, 0, 0, 0],
    [3, 0, 0, 0, 0, 0, 0, 0],
    [3, 5, 3, 1, 0, 0, 0, 0],
    [3, 1, 3, 0, 0, 0, 0, 0],
    [3, 1, 0, 0, 0, 0, 0, 0],
    [3, 1, 1, 3, 1, 1, 3, 1],
    [3, 1, 1, 0, 0, 0, 0, 0],
    [3, 1, 1, 1, 0, 0, 0, 0],
    [3, 1, 1, 1, 1, 1, 1, 0],
    [3, 1, 1, 1, 1, 1, 1, 1],
];

/// Table 66: columns of the tail's six bits by the remainder of clause 7.3.2.
pub const TAILS: [[u8; 6]; 12] = [
    [3, 3, 3, 3, 3, 3],
    [7, 3, 3, 3, 3, 3],
    [7, 3, 3, 7, 3, 3],
    [7, 7, 3, 7, 3, 3],
    [7, 7, 3, 7, 7, 3],
    [7, 7, 7, 7, 7, 3],
    [7, 7, 7, 7, 7, 7],
    [15, 7, 7, 7, 7, 7],
    [15, 7, 7, 15, 7, 7],
    [15, 15, 7, 15, 7, 7],
    [15, 15, 7, 15, 7, 15],
    [15, 15, 15, 15, 7, 15],
];

/// The FAC's tail goes on with the pattern of 3/5.
pub const FAC_TAIL: [u8; 6] = [3, 1, 3, 3, 1, 3];

/// Rates by protection level, level by level without the VSPP, and RYlcm: tables 67, 68, 69 and 71.
type Protection = (&'static [usize], usize);

static OF_SM16: [Protection; 2] = [(&[R1_3, R2_3], 3), (&[R1_2, R3_4], 4)];
static OF_SM64: [Protection; 4] =
    [(&[R1_4, R1_2, R3_4], 4), (&[R1_3, R2_3, R4_5], 15), (&[R1_2, R3_4, R7_8], 8), (&[R2_3, R4_5, R8_9], 45)];
static OF_HMSYM: [Protection; 4] =
    [(&[R3_10, R3_5], 10), (&[R4_11, R8_11], 11), (&[R4_7, R7_8], 56), (&[R2_3, R8_9], 9)];
/// Imaginary 0, real 1, imaginary 1, real 2, imaginary 2.
static OF_HMMIX: [Protection; 4] = [
    (&[R1_4, R3_10, R1_2, R3_5, R3_4], 20),
    (&[R1_3, R4_11, R2_3, R8_11, R4_5], 165),
    (&[R1_2, R4_7, R3_4, R7_8, R7_8], 56),
    (&[R2_3, R2_3, R4_5, R8_9, R8_9], 45),
];

/// Table 70: the VSPP.
static OF_VSPP: [usize; 4] = [R1_2, R4_7, R3_5, R2_3];

/// Tables 72 and 73: the SDC in 16-QAM and in 4-QAM.
static OF_SDC: [&[usize]; 2] = [&[R1_3, R2_3], &[R1_2]];

/// The 196 numbers of table 65 as a state has them: rows B0 to B3 of each rate (02, S-11).
pub static TABLE_65: [u8; 196] = table_65();

const fn table_65() -> [u8; 196] {
    let mut table = [0; 196];
    let (mut at, mut rate) = (0, 0);
    while rate < RATES {
        let mut k = 0;
        while k < 4 * RX[rate] {
            table[at] = COLUMNS[rate][k % RX[rate]] >> (k / RX[rate]) & 1;
            at += 1;
            k += 1;
        }
        rate += 1;
    }
    table
}

#[derive(Clone, Copy, PartialEq, Eq, Default)]
pub struct Settings {
    pub mode: u8,
    pub occupancy: u8,
    pub msc: u8,
    pub level_a: u8,
    pub level_b: u8,
    pub vspp: u8,
    pub x: u16,
    pub sdc: u8,
    pub interleaving: u8,
}

impl Settings {
    pub fn new(b: &[u8; 10]) -> Settings {
        Settings {
            mode: b[0],
            occupancy: b[1],
            msc: b[2],
            level_a: b[3],
            level_b: b[4],
            vspp: b[5],
            x: u16::from_be_bytes([b[6], b[7]]),
            sdc: b[8],
            interleaving: b[9],
        }
    }

    pub fn cells(&self) -> usize {
        N_MUX[self.mode as usize][self.occupancy as usize]
    }

    pub fn sdc_cells(&self) -> usize {
        N_SDC[self.mode as usize][self.occupancy as usize]
    }

    pub fn fillers(&self) -> usize {
        N_SFA[self.mode as usize][self.occupancy as usize] - 3 * self.cells()
    }

    pub fn slots(&self) -> usize {
        if self.interleaving == 0 { 5 } else { 1 }
    }

    /// Greatest coordinate of the MSC.
    pub fn top(&self) -> i16 {
        if self.msc == SM16 { 3 } else { 7 }
    }

    pub fn sdc_top(&self) -> i16 {
        if self.sdc == 0 { 3 } else { 1 }
    }

    /// Coded bits of a level in a cell.
    pub fn bits_a_cell(&self) -> usize {
        if self.msc == HMMIX { 1 } else { 2 }
    }

    fn protection(&self) -> &'static [Protection] {
        match self.msc {
            SM64 => &OF_SM64,
            HMMIX => &OF_HMMIX,
            HMSYM => &OF_HMSYM,
            _ => &OF_SM16,
        }
    }

    pub fn rates_a(&self) -> &'static [usize] {
        self.protection()[self.level_a as usize].0
    }

    pub fn rates_b(&self) -> &'static [usize] {
        self.protection()[self.level_b as usize].0
    }

    /// The rate of the VSPP where there is one.
    pub fn rate_vspp(&self) -> Option<usize> {
        matches!(self.msc, HMMIX | HMSYM).then(|| OF_VSPP[self.vspp as usize])
    }

    pub fn rates_sdc(&self) -> &'static [usize] {
        OF_SDC[self.sdc as usize]
    }

    /// Cells of part A: the smallest multiple of RYlcm that carries 8X bits.
    pub fn n1(&self) -> usize {
        let (rates, lcm) = self.protection()[self.level_a as usize];
        let bits: usize = rates.iter().map(|&r| self.bits_a_cell() * lcm / RY[r] * RX[r]).sum();
        (8 * self.x as usize).div_ceil(bits) * lcm
    }

    /// The lowest of 1 to 7 that applies, or 0.
    pub fn refusal(&self) -> u8 {
        if self.mode > 3 {
            return 1;
        }
        if self.occupancy > 5 || self.cells() == 0 {
            return 2;
        }
        if self.msc > SM16 {
            return 3;
        }
        if self.level_a.max(self.level_b) as usize >= self.protection().len() {
            return 4;
        }
        if self.vspp > if matches!(self.msc, HMMIX | HMSYM) { 3 } else { 0 } {
            return 5;
        }
        if self.sdc > 1 || self.interleaving > 1 {
            return 6;
        }
        if self.n1() + 20 > self.cells() { 7 } else { 0 }
    }
}
