//! Owned buffers of one super frame, for the subcommands and tests that run Code and Read.

use crate::digest::{Digest, Random};
use crate::settings::{Settings, FAC_BITS, FAC_BYTES};
use crate::superframe::{code, read, Answer, Bits, BitsMut, Cells, CellsMut, State};

/// Packed bits of a super frame.
#[derive(Clone, PartialEq, Eq, Debug)]
pub struct BitBuffers {
    pub fac: Vec<u8>,
    pub sdc: Vec<u8>,
    pub msc: Vec<u8>,
}

/// Numbers of the cells of a super frame.
#[derive(Clone, PartialEq, Eq, Debug)]
pub struct CellBuffers {
    pub fac: Vec<i16>,
    pub sdc: Vec<i16>,
    pub msc: Vec<i16>,
}

impl BitBuffers {
    /// All bytes have one value.
    pub fn filled(s: &Settings, value: u8) -> BitBuffers {
        let z = s.sizes();
        BitBuffers { fac: vec![value; 3 * FAC_BYTES], sdc: vec![value; z.sdc_bytes], msc: vec![value; z.msc_bytes] }
    }

    /// Draws three FAC blocks, the SDC block and, if wanted, three frames; otherwise these are zero.
    pub fn random(s: &Settings, random: &mut Random, frames: bool) -> BitBuffers {
        let mut bits = BitBuffers::filled(s, 0);
        bits.fac.chunks_mut(FAC_BYTES).for_each(|b| random.block(FAC_BITS, b));
        random.block(s.sdc_bits(), &mut bits.sdc);
        let frame_bits = s.lengths().frame_bits();
        if frames {
            bits.msc.chunks_mut(frame_bits.div_ceil(8)).for_each(|b| random.block(frame_bits, b));
        }
        bits
    }

    pub fn take(&self, d: &mut Digest) {
        d.take_bytes(&self.fac);
        d.take_bytes(&self.sdc);
        d.take_bytes(&self.msc);
    }
}

impl CellBuffers {
    /// All numbers have one value.
    pub fn filled(s: &Settings, value: i16) -> CellBuffers {
        let z = s.sizes();
        let [fac, sdc, msc] = [z.fac_numbers, z.sdc_numbers, z.msc_numbers].map(|n| vec![value; n]);
        CellBuffers { fac, sdc, msc }
    }

    /// Writes numbers that are no points into the cells that a reader with this count ignores.
    pub fn fill_ignored(&mut self, row_numbers: usize, count: usize) {
        for (k, row) in self.msc.chunks_exact_mut(row_numbers).take(3).enumerate() {
            for (i, cell) in row.chunks_mut(2).enumerate() {
                if i % 5 > (count + k).min(4) {
                    cell.copy_from_slice(&[-32768, 77]);
                }
            }
        }
    }

    /// Numbers raised by 8.
    pub fn take(&self, d: &mut Digest) {
        d.take_cells(&self.fac);
        d.take_cells(&self.sdc);
        d.take_cells(&self.msc);
    }
}

/// Memory of the right length for permitted settings, filled with what Reset has to clear.
pub fn old_memory(s: &Settings) -> Vec<i16> {
    vec![-1; s.sizes().memory_numbers]
}

/// Code on owned buffers; the state is replaced by the returned one.
pub fn code_buffers(state: &mut State, memory: &mut [i16], bits: &BitBuffers, cells: &mut CellBuffers) -> u8 {
    let bits = Bits { fac: &bits.fac, sdc: &bits.sdc, msc: &bits.msc };
    let cells = CellsMut { fac: &mut cells.fac, sdc: &mut cells.sdc, msc: &mut cells.msc };
    let (next, answer) = code(*state, memory, bits, cells);
    *state = next;
    answer
}

/// Read on owned buffers; the state is replaced by the returned one.
pub fn read_buffers(state: &mut State, memory: &mut [i16], cells: &CellBuffers, bits: &mut BitBuffers) -> Answer {
    let cells = Cells { fac: &cells.fac, sdc: &cells.sdc, msc: &cells.msc };
    let bits = BitsMut { fac: &mut bits.fac, sdc: &mut bits.sdc, msc: &mut bits.msc };
    let (next, answer) = read(*state, memory, cells, bits);
    *state = next;
    answer
}
