//! Code and Read of super frames, with the state, memory and answers of include/drmcoder.h.

use crate::block::{self, Cells, Work};
use crate::fixed::{byte, CYCLES_5, NUMBERS};
use crate::layout::{Block, Constellation, Orders};
use crate::places::{in_parts, ROOM};
use crate::standard::{Settings, FAC_CELLS, MOST_CELLS, MOST_FRAME_BYTES, MOST_SDC_BYTES, TABLE_65};

const STATE_BYTES: usize = 208;
const DEPTH: usize = 5;
const FAC_NUMBERS: usize = 2 * FAC_CELLS;
const FAC_BYTES: usize = 9;

/// (1, 1), then (1, −1).
const FILLERS: [i16; 4] = [1, 1, 1, -1];

/// The answer to a state of the wrong length.
const BAD_SLICE: u8 = 255;

/// What one setting asks for.
struct Tables {
    settings: Settings,
    sdc: Block,
    msc: Block,
    sdc_orders: Orders,
    msc_orders: Orders,
    /// Places of the cell interleaver.
    cells: [u16; ROOM],
}

impl Tables {
    fn make(&mut self, s: &Settings) {
        let (n, n1) = (s.cells(), s.n1());
        (self.settings, self.sdc, self.msc) = (*s, Block::sdc(s), Block::msc(s));
        self.sdc_orders.make(self.sdc.constellation, [0, s.sdc_cells()]);
        self.msc_orders.make(self.msc.constellation, [n1, n - n1]);
        in_parts(&CYCLES_5, [0, n], &mut self.cells);
    }

    fn bytes(&self) -> [usize; 3] {
        [3 * FAC_BYTES, self.sdc.bytes(), 3 * self.msc.bytes()]
    }

    fn numbers(&self) -> [usize; 3] {
        [3 * FAC_NUMBERS, 2 * self.sdc.cells, 2 * (3 * self.msc.cells + self.settings.fillers())]
    }
}

/// A coder or reader with its tables and working buffers. `L` blocks or frames go through at once, 1 or 3.
pub struct Tuned<const L: usize> {
    /// Tables are made anew where settings change only; otherwise in each call, which then takes nothing from the last.
    keep: bool,
    tables: Box<Tables>,
    fac: Block,
    fac_orders: Box<Orders>,
    work: Box<Work>,
    /// Blocks or frames of a call.
    cells: Box<[Cells; 3]>,
    /// A reader's memory and bytes until the call is accepted.
    memory: Vec<u8>,
    bytes: [Vec<u8>; 3],
}

impl<const L: usize> Tuned<L> {
    pub fn new(keep: bool) -> Tuned<L> {
        let mut fac_orders = Box::<Orders>::default();
        fac_orders.make(Constellation::Qam4, [0, FAC_CELLS]);
        let mut tables = Box::new(Tables {
            settings: Settings::default(),
            sdc: Block::default(),
            msc: Block::default(),
            sdc_orders: Orders::default(),
            msc_orders: Orders::default(),
            cells: [0; ROOM],
        });
        tables.make(&Settings::default());
        Tuned {
            keep,
            tables,
            fac: Block::fac(),
            fac_orders,
            work: Box::default(),
            cells: Box::new([[0; MOST_CELLS]; 3]),
            memory: vec![0; DEPTH * MOST_CELLS],
            bytes: [3 * FAC_BYTES, MOST_SDC_BYTES, 3 * MOST_FRAME_BYTES].map(|n| vec![0; n]),
        }
    }

    /// Bytes and cells in the order FAC, SDC, MSC; 0 or the refusal.
    pub fn code(&mut self, state: &mut [u8], memory: &mut [u8], bytes: [&[u8]; 3], cells: [&mut [i16]; 3]) -> u8 {
        let s = match self.begin(state, memory) {
            Ok(s) => s,
            Err(refusal) => return refusal,
        };
        let (sdc, msc) = (&self.tables.sdc, &self.tables.msc);
        if bytes.map(|b| b.len()) != self.tables.bytes() {
            return 9;
        }
        if cells.each_ref().map(|c| c.len()) != self.tables.numbers() {
            return 10;
        }
        if spare_set(sdc, bytes[1]) || bytes[2].chunks(msc.bytes()).any(|frame| spare_set(msc, frame)) {
            return 11;
        }
        if !in_range(&s, state) || !bytes_pass(memory, s.top()) {
            return 12;
        }
        let [fac_cells, sdc_cells, msc_cells] = cells;
        self.code_fac(bytes[0], fac_cells);
        self.code_sdc(bytes[1], sdc_cells);
        self.code_frames(bytes[2]);
        let (rows, fillers) = msc_cells.split_at_mut(6 * s.cells());
        self.send(&s, state[10] as usize, memory, rows);
        fillers.copy_from_slice(&FILLERS[..fillers.len()]);
        advance(&s, state);
        0
    }

    /// Settings of a state, with tables made for them; or one of 255, 1 to 7, 23 and 8.
    fn begin(&mut self, state: &[u8], memory: &[u8]) -> Result<Settings, u8> {
        if state.len() != STATE_BYTES {
            return Err(BAD_SLICE);
        }
        let s = Settings::new(state.first_chunk().unwrap());
        match s.refusal() {
            0 if state[12..] != TABLE_65 => return Err(23),
            0 if memory.len() != s.slots() * s.cells() => return Err(8),
            0 => {}
            refusal => return Err(refusal),
        }
        if !self.keep || self.tables.settings != s {
            self.tables.make(&s);
        }
        Ok(s)
    }

    fn code_fac(&mut self, bytes: &[u8], out: &mut [i16]) {
        let cells = self.cells.first_chunk_mut::<L>().unwrap();
        for (bytes, out) in bytes.chunks(L * FAC_BYTES).zip(out.chunks_mut(L * FAC_NUMBERS)) {
            let lanes = std::array::from_fn(|lane| &bytes[lane * FAC_BYTES..][..FAC_BYTES]);
            block::code(&self.fac, &self.fac_orders, lanes, cells, &mut self.work);
            cells.iter().zip(out.chunks_mut(FAC_NUMBERS)).for_each(|(cells, out)| put_numbers(cells, out));
        }
    }

    fn code_sdc(&mut self, bytes: &[u8], out: &mut [i16]) {
        let cells = self.cells.first_chunk_mut::<1>().unwrap();
        block::code(&self.tables.sdc, &self.tables.sdc_orders, [bytes], cells, &mut self.work);
        put_numbers(&cells[0], out);
    }

    fn code_frames(&mut self, bytes: &[u8]) {
        let Tables { msc, msc_orders, .. } = &*self.tables;
        let each = msc.bytes();
        for (bytes, cells) in bytes.chunks(L * each).zip(self.cells.as_chunks_mut::<L>().0) {
            let lanes = std::array::from_fn(|lane| &bytes[lane * each..][..each]);
            block::code(msc, msc_orders, lanes, cells, &mut self.work);
        }
    }

    /// Sends the rows of the three frames, and then lays these in memory.
    fn send(&self, s: &Settings, position: usize, memory: &mut [u8], rows: &mut [i16]) {
        let (n, slots) = (s.cells(), s.slots());
        let places = &self.tables.cells[..n];
        for (r, row) in rows.chunks_exact_mut(2 * n).enumerate() {
            // The frame that is so many frames back: of this call, or in memory.
            let frame = |delay: usize| match r.checked_sub(delay % slots) {
                Some(own) => &self.cells[own][..n],
                None => &memory[(position + DEPTH + r - delay) % DEPTH * n..][..n],
            };
            let frames: [&[u8]; DEPTH] = std::array::from_fn(frame);
            let cell = |delay: usize, place: u16| NUMBERS[frames[delay][place as usize] as usize];
            let (fives, rest) = row.as_chunks_mut::<2>().0.as_chunks_mut::<DEPTH>();
            let (place_fives, place_rest) = places.as_chunks::<DEPTH>();
            for (to, places) in fives.iter_mut().zip(place_fives) {
                (0..DEPTH).for_each(|delay| to[delay] = cell(delay, places[delay]));
            }
            rest.iter_mut().zip(place_rest).enumerate().for_each(|(delay, (to, place))| *to = cell(delay, *place));
        }
        for (r, cells) in self.cells.iter().enumerate() {
            memory[(position + r) % slots * n..][..n].copy_from_slice(&cells[..n]);
        }
    }

    /// Cells and bytes in the order FAC, SDC, MSC; finished frames, or 256 × the refusal and its block.
    pub fn read(&mut self, state: &mut [u8], memory: &mut [u8], cells: [&[i16]; 3], bytes: [&mut [u8]; 3]) -> u16 {
        match self.try_read(state, memory, cells, bytes.each_ref().map(|b| b.len())) {
            Ok(finished) => {
                memory.copy_from_slice(&self.memory[..memory.len()]);
                bytes.into_iter().zip(&self.bytes).for_each(|(to, from)| to.copy_from_slice(&from[..to.len()]));
                advance(&self.tables.settings, state);
                finished
            }
            Err([refusal, block]) => u16::from_be_bytes([refusal, block]),
        }
    }

    /// Reads into its own buffers; finished frames, or the refusal and its block.
    fn try_read(&mut self, state: &[u8], memory: &[u8], cells: [&[i16]; 3], room: [usize; 3]) -> Result<u16, [u8; 2]> {
        let s = self.begin(state, memory).map_err(|refusal| [refusal, 0])?;
        if cells.map(|c| c.len()) != self.tables.numbers() {
            return Err([9, 0]);
        }
        if room != self.tables.bytes() {
            return Err([10, 0]);
        }
        if !in_range(&s, state) || !bytes_pass(memory, s.top()) {
            return Err([12, 0]);
        }
        let (position, count) = (state[10] as usize, state[11] as usize);
        if let Some(block) = bad_block(&s, count, cells) {
            return Err([13, block]);
        }
        self.read_fac(cells[0])?;
        self.read_sdc(cells[1])?;
        self.memory[..memory.len()].copy_from_slice(memory);
        let finished = self.take_rows(&s, position, count, cells[2]);
        self.read_frames(finished)?;
        Ok(finished as u16)
    }

    fn read_fac(&mut self, numbers: &[i16]) -> Result<(), [u8; 2]> {
        numbers.chunks(FAC_NUMBERS).zip(self.cells.iter_mut()).for_each(|(from, to)| put_bytes(from, to));
        let blocks = self.bytes[0].chunks_mut(L * FAC_BYTES);
        for ((g, cells), bytes) in self.cells.as_chunks::<L>().0.iter().enumerate().zip(blocks) {
            let cells = cells.each_ref().map(|c| &c[..]);
            let wrong = block::read(&self.fac, &self.fac_orders, cells, lanes(bytes), &mut self.work);
            right(wrong, g * L)?;
        }
        Ok(())
    }

    fn read_sdc(&mut self, numbers: &[i16]) -> Result<(), [u8; 2]> {
        let Tables { sdc, sdc_orders, .. } = &*self.tables;
        put_bytes(numbers, &mut self.cells[0]);
        let bytes = [&mut self.bytes[1][..sdc.bytes()]];
        right(block::read(sdc, sdc_orders, [&self.cells[0][..]], bytes, &mut self.work), 3)
    }

    /// Puts received rows where the coder took them, and each frame that is finished aside; how many these are.
    fn take_rows(&mut self, s: &Settings, position: usize, count: usize, rows: &[i16]) -> usize {
        let (n, slots) = (s.cells(), s.slots());
        let mut finished = 0;
        for (r, row) in rows.chunks_exact(2 * n).take(3).enumerate() {
            let starts = std::array::from_fn(|delay| (position + r + DEPTH - delay) % slots * n);
            let known = known(s, count, r);
            take_row(row, &self.tables.cells[..n], starts, known, &mut self.memory);
            if known == DEPTH {
                let oldest = (position + r + 1) % slots * n;
                self.cells[finished][..n].copy_from_slice(&self.memory[oldest..oldest + n]);
                finished += 1;
            }
        }
        finished
    }

    /// Reads the finished frames; bytes beyond them are zero.
    fn read_frames(&mut self, finished: usize) -> Result<(), [u8; 2]> {
        let Tables { msc, msc_orders, .. } = &*self.tables;
        let each = msc.bytes();
        let groups = self.bytes[2][..3 * each].chunks_mut(L * each);
        for (g, bytes) in groups.enumerate().take(finished.div_ceil(L)) {
            // A lane without a frame does the last one's work again.
            let cells: [&[u8]; L] = std::array::from_fn(|lane| &self.cells[(g * L + lane).min(finished - 1)][..]);
            right(block::read(msc, msc_orders, cells, lanes(bytes), &mut self.work), 4 + g * L)?;
        }
        self.bytes[2][finished * each..3 * each].fill(0);
        Ok(())
    }
}

/// A lane's share of packed blocks.
fn lanes<const L: usize>(bytes: &mut [u8]) -> [&mut [u8]; L] {
    let each = bytes.len() / L;
    let mut blocks = bytes.chunks_mut(each);
    std::array::from_fn(|_| blocks.next().unwrap())
}

/// 14 with the lowest of the lanes that are wrong.
fn right(wrong: u8, first: usize) -> Result<(), [u8; 2]> {
    match wrong {
        0 => Ok(()),
        _ => Err([14, first as u8 + wrong.trailing_zeros() as u8]),
    }
}

/// How many delays of row r are of frames that were sent: the cells of others are ignored.
fn known(s: &Settings, count: usize, r: usize) -> usize {
    if s.slots() == 1 { DEPTH } else { (count + r + 1).min(DEPTH) }
}

fn take_row(row: &[i16], places: &[u16], starts: [usize; DEPTH], known: usize, memory: &mut [u8]) {
    let mut put = |delay: usize, [real, imaginary]: [i16; 2], place: u16| {
        memory[starts[delay] + place as usize] = byte(real, imaginary);
    };
    let (fives, rest) = row.as_chunks::<2>().0.as_chunks::<DEPTH>();
    let (place_fives, place_rest) = places.as_chunks::<DEPTH>();
    for (cells, places) in fives.iter().zip(place_fives) {
        if known == DEPTH {
            (0..DEPTH).for_each(|delay| put(delay, cells[delay], places[delay]));
        } else {
            (0..known).for_each(|delay| put(delay, cells[delay], places[delay]));
        }
    }
    rest.iter().zip(place_rest).enumerate().take(known).for_each(|(delay, (cell, place))| put(delay, *cell, *place));
}

/// The lowest block with a cell, not ignored, that is no point, or with a wrong filler.
fn bad_block(s: &Settings, count: usize, cells: [&[i16]; 3]) -> Option<u8> {
    let fac = cells[0].chunks(FAC_NUMBERS).position(|block| !points_pass(block, 1));
    if fac.is_some() {
        return fac.map(|block| block as u8);
    }
    if !points_pass(cells[1], s.sdc_top()) {
        return Some(3);
    }
    let (rows, fillers) = cells[2].split_at(6 * s.cells());
    for (r, row) in rows.chunks_exact(2 * s.cells()).enumerate() {
        let known = known(s, count, r);
        let five = |cells: &[i16]| points_pass(&cells[..cells.len().min(2 * known)], s.top());
        let passes = if known == DEPTH { points_pass(row, s.top()) } else { row.chunks(2 * DEPTH).all(five) };
        if !passes {
            return Some(4 + r as u8);
        }
    }
    (*fillers != FILLERS[..fillers.len()]).then_some(7)
}

/// Whether all numbers are coordinates: raised by the top they are even, and 0 to twice the top.
fn points_pass(numbers: &[i16], top: i16) -> bool {
    numbers.iter().fold(0, |outside, v| outside | v.wrapping_add(top) & !(2 * top)) == 0
}

/// Whether all cells of memory are points: both halves odd, and in 16-QAM their two highest bits equal.
fn bytes_pass(memory: &[u8], top: i16) -> bool {
    let high = if top == 3 { 0x44 } else { 0 };
    memory.iter().fold(0, |outside, b| outside | !b & 0x11 | (b ^ b >> 1) & high) == 0
}

fn in_range(s: &Settings, state: &[u8]) -> bool {
    (state[10].max(state[11]) as usize) < s.slots()
}

/// Whether a spare bit of a packed block is set.
fn spare_set(block: &Block, bytes: &[u8]) -> bool {
    block.bits % 8 != 0 && bytes[block.bits / 8] << (block.bits % 8) != 0
}

/// Position and count three frames later.
fn advance(s: &Settings, state: &mut [u8]) {
    if s.slots() == DEPTH {
        state[10] = (state[10] + 3) % DEPTH as u8;
        state[11] = (state[11] + 3).min(4);
    }
}

fn put_numbers(cells: &[u8], out: &mut [i16]) {
    out.as_chunks_mut().0.iter_mut().zip(cells).for_each(|(to, cell)| *to = NUMBERS[*cell as usize]);
}

fn put_bytes(numbers: &[i16], out: &mut [u8]) {
    numbers.as_chunks().0.iter().zip(out).for_each(|(&[real, imaginary], to)| *to = byte(real, imaginary));
}
