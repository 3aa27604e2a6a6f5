//! Blocks of equal layout, one a lane: from packed bits to the cells' bytes and back.

use crate::component::{self, Input, Parities, LEAD};
use crate::fixed::{gathered, Labels, DISPERSAL, HIERARCHICAL, SPREAD, STANDARD};
use crate::layout::{Block, Constellation, Level, Orders};
use crate::standard::{MOST_CELLS, MOST_FRAME_BYTES};

/// Cells of a block, a byte each.
pub type Cells = [u8; MOST_CELLS];

/// Working buffers; nothing in them outlives a call but the zeros of the leads.
pub struct Work {
    bits: [u8; 8 * MOST_FRAME_BYTES],
    input: Input,
    other: Input,
    parities: Parities,
    /// Rows of coded bits by level; both axes of a cell side by side.
    coded: [[u8; 2 * MOST_CELLS]; 3],
}

impl Default for Work {
    fn default() -> Work {
        Work {
            bits: [0; 8 * MOST_FRAME_BYTES],
            input: [0; LEAD + component::ROOM],
            other: [0; LEAD + component::ROOM],
            parities: [[0; component::ROOM]; 3],
            coded: [[0; 2 * MOST_CELLS]; 3],
        }
    }
}

/// Labels of a constellation for so many lanes.
struct Labelling<const L: usize>;

impl<const L: usize> Labelling<L> {
    const QAM4: &'static Labels<L> = &Labels::new(1, [[1, 0, 0]; 2]);
    const QAM16: &'static Labels<L> = &Labels::new(3, [[1, 2, 0]; 2]);
    const SM64: &'static Labels<L> = &Labels::new(7, [STANDARD; 2]);
    const HMMIX: &'static Labels<L> = &Labels::new(7, [HIERARCHICAL, STANDARD]);
    const HMSYM: &'static Labels<L> = &Labels::new(7, [HIERARCHICAL; 2]);

    fn of(constellation: Constellation) -> &'static Labels<L> {
        match constellation {
            Constellation::Qam4 => Self::QAM4,
            Constellation::Qam16 => Self::QAM16,
            Constellation::Sm64 => Self::SM64,
            Constellation::HmMix => Self::HMMIX,
            Constellation::HmSym => Self::HMSYM,
        }
    }
}

/// Codes a block in each lane.
pub fn code<const L: usize>(
    block: &Block, orders: &Orders, bytes: [&[u8]; L], cells: &mut [Cells; L], work: &mut Work,
) {
    unpack(bytes, &mut work.bits);
    disperse::<L>(block, &mut work.bits);
    for level in block.levels() {
        take_input(level, &work.bits, &mut work.input);
        component::encode(level, &work.input, &mut work.parities, &mut work.coded[level.row]);
    }
    let labels = Labelling::<L>::of(block.constellation);
    match block.constellation {
        Constellation::Qam4 => map::<L, 1>(block.cells, orders, labels, &work.coded, cells),
        Constellation::Qam16 => map::<L, 2>(block.cells, orders, labels, &work.coded, cells),
        _ => map::<L, 3>(block.cells, orders, labels, &work.coded, cells),
    }
}

/// Reads a block in each lane; 1 in each lane whose cells no bits give.
pub fn read<const L: usize>(
    block: &Block, orders: &Orders, cells: [&[u8]; L], bytes: [&mut [u8]; L], work: &mut Work,
) -> u8 {
    let labels = Labelling::<L>::of(block.constellation);
    match block.constellation {
        Constellation::Qam4 => unmap::<L, 1>(block.cells, orders, labels, cells, &mut work.coded),
        Constellation::Qam16 => unmap::<L, 2>(block.cells, orders, labels, cells, &mut work.coded),
        _ => unmap::<L, 3>(block.cells, orders, labels, cells, &mut work.coded),
    }
    let mut wrong = 0;
    for level in block.levels() {
        let coded = &work.coded[level.row];
        wrong |= component::decode(level, coded, &mut work.other, &mut work.input, &mut work.parities);
        give_input(level, &work.input, &mut work.bits);
    }
    disperse::<L>(block, &mut work.bits);
    work.bits[block.bits..].iter_mut().take(7).for_each(|bit| *bit = 0);
    pack(&work.bits, bytes);
    wrong
}

/// Eight bits of each lane a step.
fn unpack<const L: usize>(bytes: [&[u8]; L], bits: &mut [u8]) {
    for (i, word) in bits.as_chunks_mut().0.iter_mut().take(bytes[0].len()).enumerate() {
        let lanes = (0..L).fold(0, |lanes, lane| lanes | SPREAD[bytes[lane][i] as usize] << lane);
        *word = lanes.to_le_bytes();
    }
}

fn pack<const L: usize>(bits: &[u8], bytes: [&mut [u8]; L]) {
    for (lane, bytes) in bytes.into_iter().enumerate() {
        for (byte, word) in bytes.iter_mut().zip(bits.as_chunks().0) {
            *byte = gathered(u64::from_le_bytes(*word) >> lane);
        }
    }
}

/// Adds the sequence to the VSPP and to the remainder.
fn disperse<const L: usize>(block: &Block, bits: &mut [u8]) {
    let lanes = (1 << L) - 1;
    let (vspp, remainder) = bits[..block.bits].split_at_mut(block.vspp);
    vspp.iter_mut().zip(&DISPERSAL).for_each(|(bit, p)| *bit ^= p & lanes);
    remainder.iter_mut().zip(&DISPERSAL).for_each(|(bit, p)| *bit ^= p & lanes);
}

/// Puts a level's bits behind the lead, and six zeros behind them.
fn take_input(level: &Level, bits: &[u8], input: &mut Input) {
    let (a, b) = (level.a, level.b);
    let (to_a, rest) = input[LEAD..].split_at_mut(a.bits);
    to_a.copy_from_slice(&bits[a.from..a.from + a.bits]);
    rest[..b.bits].copy_from_slice(&bits[b.from..b.from + b.bits]);
    rest[b.bits..b.bits + 6].fill(0);
}

fn give_input(level: &Level, input: &Input, bits: &mut [u8]) {
    let (a, b) = (level.a, level.b);
    let (from_a, rest) = input[LEAD..].split_at(a.bits);
    bits[a.from..a.from + a.bits].copy_from_slice(from_a);
    bits[b.from..b.from + b.bits].copy_from_slice(&rest[..b.bits]);
}

type Rows = [[u8; 2 * MOST_CELLS]; 3];

/// Interleaves and maps, a cell of each lane a step.
fn map<const L: usize, const LEVELS: usize>(
    n: usize, orders: &Orders, labels: &Labels<L>, coded: &Rows, cells: &mut [Cells; L],
) {
    let [t13, t21] = orders.of(n);
    let [row0, row1, row2] = coded;
    let plain = row0.as_chunks::<2>().0;
    for k in 0..n {
        let label = |axis: usize| -> usize {
            let (p13, p21) = (t13[k][axis] as usize, t21[k][axis] as usize);
            let bits = match LEVELS {
                1 => row0[p21] as usize,
                2 => row0[p13] as usize | (row1[p21] as usize) << L,
                _ => plain[k][axis] as usize | (row1[p13] as usize) << L | (row2[p21] as usize) << (2 * L),
            };
            bits & 511
        };
        let lanes = labels.map[0][label(0)] | labels.map[1][label(1)];
        (0..L).for_each(|lane| cells[lane][k] = (lanes >> (8 * lane)) as u8);
    }
}

/// The other way.
fn unmap<const L: usize, const LEVELS: usize>(
    n: usize, orders: &Orders, labels: &Labels<L>, cells: [&[u8]; L], coded: &mut Rows,
) {
    let [t13, t21] = orders.of(n);
    let [row0, row1, row2] = coded;
    let lane = (1 << L) - 1;
    for k in 0..n {
        let both = (0..L).fold(0, |both, lane| both | labels.unmap[cells[lane][k] as usize] << lane);
        for axis in 0..2 {
            let bits = both >> (16 * axis);
            let level = |p: usize| (bits >> (L * p)) as u8 & lane;
            let (p13, p21) = (t13[k][axis] as usize, t21[k][axis] as usize);
            match LEVELS {
                1 => row0[p21] = level(0),
                2 => (row0[p13], row1[p21]) = (level(0), level(1)),
                _ => (row0[2 * k + axis], row1[p13], row2[p21]) = (level(0), level(1), level(2)),
            }
        }
    }
}
