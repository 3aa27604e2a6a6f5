//! Tables that no setting changes, made by the compiler.

use crate::standard::MOST_FRAME_BYTES;

/// The dispersal sequence p(0), p(1), ..: a byte a bit, all ones for 1.
pub static DISPERSAL: [u8; 8 * MOST_FRAME_BYTES] = dispersal();

const fn dispersal() -> [u8; 8 * MOST_FRAME_BYTES] {
    let mut p = [0; 8 * MOST_FRAME_BYTES];
    let (mut register, mut n) = (0x1FF_u32, 0);
    while n < p.len() {
        let bit = (register >> 8 ^ register >> 4) & 1;
        register = register << 1 | bit;
        p[n] = if bit == 1 { 0xFF } else { 0 };
        n += 1;
    }
    p
}

/// The eight bits of a byte, highest first, a byte each.
pub static SPREAD: [u64; 256] = spread();

const fn spread() -> [u64; 256] {
    let mut table = [0; 256];
    let mut byte = 0;
    while byte < 256 {
        let mut i = 0;
        while i < 8 {
            table[byte] |= (byte as u64 >> (7 - i) & 1) << (8 * i);
            i += 1;
        }
        byte += 1;
    }
    table
}

/// The other way: bit 0 of each byte of a word, the first byte's highest.
pub fn gathered(word: u64) -> u8 {
    ((word & 0x0101_0101_0101_0101).wrapping_mul(0x8040_2010_0804_0201) >> 56) as u8
}

/// Both numbers of a cell's byte (02, S-7).
pub static NUMBERS: [[i16; 2]; 256] = numbers();

const fn numbers() -> [[i16; 2]; 256] {
    let mut table = [[0; 2]; 256];
    let mut byte = 0;
    while byte < 256 {
        table[byte] = [(byte as u8 as i8 >> 4) as i16, (((byte as u8) << 4) as i8 >> 4) as i16];
        byte += 1;
    }
    table
}

/// A cell's byte from its numbers, which are points.
pub fn byte(real: i16, imaginary: i16) -> u8 {
    (real << 4) as u8 | imaginary as u8 & 15
}

/// Level bits of an axis from a label: level p's bit has the weight of its place.
pub type Weights = [u8; 3];

pub const STANDARD: Weights = [1, 2, 4];
pub const HIERARCHICAL: Weights = [4, 1, 2];

/// From level bits of `L` lanes to coordinates, and back; levels stand `L` bits apart, lanes next to each other.
pub struct Labels<const L: usize> {
    /// Real axis, imaginary axis: the coordinate's half byte of each lane in the lane's byte.
    pub map: [[u32; 512]; 2],
    /// A lane's byte to its level bits, real ones from bit 0, imaginary ones from bit 16.
    pub unmap: [u32; 256],
}

impl<const L: usize> Labels<L> {
    /// Coordinates are top − 2 × (sum of the level bits' weights).
    pub const fn new(top: i16, weights: [Weights; 2]) -> Labels<L> {
        let mut labels = Labels { map: [[0; 512]; 2], unmap: [0; 256] };
        let mut axis = 0;
        while axis < 2 {
            let mut index = 0;
            while index < 1 << (3 * L) {
                let mut lane = 0;
                while lane < L {
                    let coordinate = top - 2 * label(index >> lane, L, weights[axis]);
                    labels.map[axis][index] |= ((coordinate & 15) as u32) << (8 * lane + 4 * (1 - axis));
                    lane += 1;
                }
                index += 1;
            }
            axis += 1;
        }
        let mut byte = 0;
        while byte < 256 {
            let [real, imaginary] = NUMBERS[byte];
            labels.unmap[byte] = bits(top - real, L, weights[0]) | bits(top - imaginary, L, weights[1]) << 16;
            byte += 1;
        }
        labels
    }
}

/// The label of lane 0.
const fn label(index: usize, lanes: usize, weights: Weights) -> i16 {
    let (mut sum, mut level) = (0, 0);
    while level < 3 {
        sum += (index >> (lanes * level) & 1) as i16 * weights[level] as i16;
        level += 1;
    }
    sum
}

/// Level bits of lane 0 from twice their label.
const fn bits(twice: i16, lanes: usize, weights: Weights) -> u32 {
    let (mut all, mut level) = (0, 0);
    while level < 3 {
        all |= ((twice >> 1 & weights[level] as i16 != 0) as u32) << (lanes * level);
        level += 1;
    }
    all
}

/// Each interleaver's whole cycle for sizes s from 8, the one of size s from place s on.
pub static CYCLES_5: [u16; 16384] = cycles(5);
pub static CYCLES_13: [u16; 32768] = cycles(13);
pub static CYCLES_21: [u16; 32768] = cycles(21);

const fn cycles<const N: usize>(t: usize) -> [u16; N] {
    let mut table = [0; N];
    let mut s = 8;
    while s < N {
        let (mut place, mut i) = (0, 0);
        while i < s {
            table[s + i] = place as u16;
            place = (t * place + s / 4 - 1) % s;
            i += 1;
        }
        s *= 2;
    }
    table
}
