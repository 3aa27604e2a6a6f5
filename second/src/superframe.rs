//! Reset, Code and Read: super frames of three FAC blocks, one SDC block and three multiplex frames.
//!
//! MSC cells are interleaved over five frames (clause 7.6) and followed by fillers (clause 7.7).

use crate::block::{Block, Scratch};
use crate::interleaver::Places;
use crate::mapping::{are_points, are_points_or_zero, is_coordinate};
use crate::packing::spare_bit_set;
use crate::settings::{Settings, FAC_BYTES, FAC_CELLS};
use crate::table::{passes, Table, ENTRIES, STANDARD};

/// Slots of the memory in long interleaving, and so the number of frames a row's cells come from.
const DEPTH: usize = 5;

/// Bytes of a state: settings, position, count and the table's numbers (02, S-11).
pub const STATE_BYTES: usize = 12 + ENTRIES;

pub(crate) const FAC_NUMBERS: usize = 2 * FAC_CELLS;

/// (1, 1), then (1, −1).
const FILLERS: [i16; 4] = [1, 1, 1, -1];

#[derive(Clone, Copy, PartialEq, Eq, Debug)]
pub struct State {
    pub settings: Settings,
    /// The slot written next.
    pub position: u8,
    /// Frames seen, up to 4.
    pub count: u8,
    /// The puncturing table.
    pub table: Table,
}

impl Default for State {
    /// All zero, with the standard's table.
    fn default() -> State {
        State { settings: Settings::default(), position: 0, count: 0, table: STANDARD }
    }
}

/// Numbers of the cells of a frame before the first, in mapping order: those of a frame whose bits are all zero (02, S-5).
fn start_cells(settings: &Settings, table: &Table) -> Vec<i16> {
    let frame = Block::frame_by(table, settings);
    let mut numbers = vec![0; frame.numbers()];
    frame.code(&vec![0; frame.bytes()], &mut numbers, &mut Scratch::for_cells(frame.cells));
    numbers
}

/// Whether 12 lets (0, 0) in memory pass.
#[derive(Clone, Copy)]
pub(crate) enum Empties {
    Pass,
    Refused,
}

/// An answer of the reader.
#[derive(Clone, Copy, PartialEq, Eq, Debug)]
pub enum Answer {
    /// So many multiplex frames are finished.
    Finished(u8),
    Refused { number: u8, block: u8 },
}

/// Packed bits of a super frame.
pub struct Bits<'a> {
    pub fac: &'a [u8],
    pub sdc: &'a [u8],
    pub msc: &'a [u8],
}

pub struct BitsMut<'a> {
    pub fac: &'a mut [u8],
    pub sdc: &'a mut [u8],
    pub msc: &'a mut [u8],
}

/// Numbers of the cells of a super frame, real before imaginary.
pub struct Cells<'a> {
    pub fac: &'a [i16],
    pub sdc: &'a [i16],
    pub msc: &'a [i16],
}

pub struct CellsMut<'a> {
    pub fac: &'a mut [i16],
    pub sdc: &'a mut [i16],
    pub msc: &'a mut [i16],
}

/// Takes new settings and fills the memory; the number of the refusal, or 0, comes with the state.
pub fn reset(old: State, settings: Settings, memory: &mut [i16]) -> (State, u8) {
    reset_table(old, settings, &STANDARD, memory)
}

/// Reset with a table of one's own.
pub fn reset_table(old: State, settings: Settings, table: &[u8], memory: &mut [i16]) -> (State, u8) {
    let refusal = match settings.refusal() {
        0 if !passes(table) => 23,
        0 if memory.len() != settings.sizes().memory_numbers => 8,
        number => number,
    };
    if refusal != 0 {
        return (old, refusal);
    }
    let table = table.try_into().expect("a table that passes");
    let cells = start_cells(&settings, &table);
    memory.chunks_mut(cells.len()).for_each(|slot| slot.copy_from_slice(&cells));
    (State { settings, position: 0, count: 0, table }, 0)
}

/// Codes one super frame; the number of the refusal, or 0, comes with the state.
pub fn code(state: State, memory: &mut [i16], bits: Bits, cells: CellsMut) -> (State, u8) {
    let refusal = code_refusal(&state, memory, &bits, &cells);
    if refusal != 0 {
        return (state, refusal);
    }
    let s = &state.settings;
    let mut scratch = Scratch::for_cells(s.n_mux());
    let fac = Block::fac_by(&state.table);
    for (bytes, numbers) in bits.fac.chunks(FAC_BYTES).zip(cells.fac.chunks_mut(FAC_NUMBERS)) {
        fac.code(bytes, numbers, &mut scratch);
    }
    Block::sdc_by(&state.table, s).code(bits.sdc, cells.sdc, &mut scratch);
    let frame = Block::frame_by(&state.table, s);
    let (rows, fillers) = cells.msc.split_at_mut(3 * frame.numbers());
    let mut row_state = state;
    for (bytes, row) in bits.msc.chunks(frame.bytes()).zip(rows.chunks_mut(frame.numbers())) {
        let slots = Slots::new(&row_state);
        frame.code(bytes, &mut memory[slots.numbers(0)], &mut scratch);
        slots.send(memory, row);
        row_state = row_state.after_row();
    }
    fillers.copy_from_slice(&FILLERS[..fillers.len()]);
    (row_state, 0)
}

fn code_refusal(state: &State, memory: &[i16], bits: &Bits, cells: &CellsMut) -> u8 {
    let s = &state.settings;
    if s.refusal() != 0 {
        return s.refusal();
    }
    if !passes(&state.table) {
        return 23;
    }
    let z = s.sizes();
    if memory.len() != z.memory_numbers {
        return 8;
    }
    if (bits.fac.len(), bits.sdc.len(), bits.msc.len()) != (3 * FAC_BYTES, z.sdc_bytes, z.msc_bytes) {
        return 9;
    }
    if (cells.fac.len(), cells.sdc.len(), cells.msc.len()) != (z.fac_numbers, z.sdc_numbers, z.msc_numbers) {
        return 10;
    }
    let frame_bits = s.lengths().frame_bits();
    let mut frames = bits.msc.chunks(frame_bits.div_ceil(8));
    if spare_bit_set(bits.sdc, s.sdc_bits()) || frames.any(|f| spare_bit_set(f, frame_bits)) {
        return 11;
    }
    if !state.in_range() || !are_points(memory, s.msc_top()) {
        return 12;
    }
    0
}

/// Reads one super frame.
pub fn read(state: State, memory: &mut [i16], cells: Cells, bits: BitsMut) -> (State, Answer) {
    let number = read_refusal(Empties::Refused, &state, memory, &cells, &bits);
    if number != 0 {
        return (state, Answer::Refused { number, block: 0 });
    }
    let s = &state.settings;
    let frame = Block::frame_by(&state.table, s);
    let (rows, fillers) = cells.msc.split_at(3 * frame.numbers());
    if let Some(block) = bad_point(&state, &cells, rows, fillers) {
        return (state, Answer::Refused { number: 13, block });
    }
    // Nothing lent is written until every block is read.
    let mut read = ReadBits::new(s);
    let finished = match read.read(&state, memory, &cells, rows, &frame) {
        Ok(finished) => finished,
        Err(block) => return (state, Answer::Refused { number: 14, block }),
    };
    bits.fac.copy_from_slice(&read.fac);
    bits.sdc.copy_from_slice(&read.sdc);
    bits.msc.copy_from_slice(&read.msc);
    let mut row_state = state;
    for row in rows.chunks(frame.numbers()) {
        Slots::new(&row_state).keep(row, memory);
        row_state = row_state.after_row();
    }
    (row_state, Answer::Finished(finished))
}

pub(crate) fn read_refusal(empties: Empties, state: &State, memory: &[i16], cells: &Cells, bits: &BitsMut) -> u8 {
    let s = &state.settings;
    if s.refusal() != 0 {
        return s.refusal();
    }
    if !passes(&state.table) {
        return 23;
    }
    let z = s.sizes();
    if memory.len() != z.memory_numbers {
        return 8;
    }
    if (cells.fac.len(), cells.sdc.len(), cells.msc.len()) != (z.fac_numbers, z.sdc_numbers, z.msc_numbers) {
        return 9;
    }
    if (bits.fac.len(), bits.sdc.len(), bits.msc.len()) != (3 * FAC_BYTES, z.sdc_bytes, z.msc_bytes) {
        return 10;
    }
    let memory_passes = match empties {
        Empties::Pass => are_points_or_zero(memory, s.msc_top()),
        Empties::Refused => are_points(memory, s.msc_top()),
    };
    if !state.in_range() || !memory_passes {
        return 12;
    }
    0
}

/// The lowest block with a cell, not ignored, that is no point of its constellation, or with a wrong filler.
fn bad_point(state: &State, cells: &Cells, rows: &[i16], fillers: &[i16]) -> Option<u8> {
    let s = &state.settings;
    for (block, numbers) in (0..).zip(cells.fac.chunks(FAC_NUMBERS)) {
        if !are_points(numbers, 1) {
            return Some(block);
        }
    }
    if !are_points(cells.sdc, s.sdc_top()) {
        return Some(3);
    }
    let mut row_state = *state;
    for (block, row) in (4..).zip(rows.chunks(2 * s.n_mux())) {
        if !row_state.row_has_points(row) {
            return Some(block);
        }
        row_state = row_state.after_row();
    }
    (*fillers != FILLERS[..fillers.len()]).then_some(7)
}

impl State {
    /// Settings, position, count and the table.
    pub fn bytes(&self) -> [u8; STATE_BYTES] {
        let mut bytes = [0; STATE_BYTES];
        bytes[..10].copy_from_slice(&self.settings.bytes());
        bytes[10..12].copy_from_slice(&[self.position, self.count]);
        bytes[12..].copy_from_slice(&self.table);
        bytes
    }

    pub fn from_bytes(b: [u8; STATE_BYTES]) -> State {
        let (settings, table) = (std::array::from_fn(|i| b[i]), std::array::from_fn(|i| b[12 + i]));
        State { settings: Settings::from_bytes(settings), position: b[10], count: b[11], table }
    }

    /// Whether 12 lets position and count pass.
    pub fn in_range(&self) -> bool {
        let most = if self.settings.long() { 4 } else { 0 };
        self.position <= most && self.count <= most
    }

    /// One frame later.
    pub(crate) fn after_row(self) -> State {
        if !self.settings.long() {
            return self;
        }
        State { position: (self.position + 1) % DEPTH as u8, count: (self.count + 1).min(4), ..self }
    }

    /// Whether all cells of the next row are points, but for those of frames before the first.
    fn row_has_points(&self, row: &[i16]) -> bool {
        let top = self.settings.msc_top();
        let slots = Slots::new(self);
        row.chunks(2).zip(slots.delays()).all(|(cell, delay)| {
            slots.ignored(delay) || (is_coordinate(cell[0], top) && is_coordinate(cell[1], top))
        })
    }
}

/// Where the cells of one row lie in memory.
pub(crate) struct Slots {
    cells: usize,
    /// Slots in memory: 5, or 1 in short interleaving, where every delay is 0.
    depth: usize,
    position: usize,
    count: usize,
}

impl Slots {
    pub(crate) fn new(state: &State) -> Slots {
        let s = &state.settings;
        let (position, count) = (state.position as usize, state.count as usize);
        Slots { cells: s.n_mux(), depth: s.slots(), position, count }
    }

    /// First number of the frame that is so many frames back.
    fn base(&self, delay: usize) -> usize {
        (self.position + self.depth - delay) % self.depth * 2 * self.cells
    }

    fn numbers(&self, delay: usize) -> std::ops::Range<usize> {
        self.base(delay)..self.base(delay) + 2 * self.cells
    }

    /// The delay of sent cells 0, 1, ...: i mod 5.
    fn delays(&self) -> impl Iterator<Item = usize> {
        (0..self.depth).cycle()
    }

    /// Where sent cells 0, 1, ... have their number in memory: delay, place of the cell's numbers.
    fn sent(&self) -> impl Iterator<Item = (usize, usize)> {
        let mut bases = [0; DEPTH];
        (0..self.depth).for_each(|delay| bases[delay] = self.base(delay));
        let places = Places::new(self.cells, 5);
        places.zip(self.delays()).map(move |(place, delay)| (delay, bases[delay] + 2 * place))
    }

    /// Whether a cell with this delay is of a frame before the first.
    pub(crate) fn ignored(&self, delay: usize) -> bool {
        delay > self.count
    }

    /// Whether the row has the last cell of a frame.
    pub(crate) fn finishes(&self) -> bool {
        !self.ignored(self.depth - 1)
    }

    /// Sends a row from memory.
    fn send(&self, memory: &[i16], row: &mut [i16]) {
        for (cell, (_, at)) in row.chunks_exact_mut(2).zip(self.sent()) {
            cell.copy_from_slice(&memory[at..at + 2]);
        }
    }

    /// Puts the cells of a received row where the coder took them.
    pub(crate) fn keep(&self, row: &[i16], memory: &mut [i16]) {
        for (cell, (delay, at)) in row.chunks_exact(2).zip(self.sent()) {
            if !self.ignored(delay) {
                memory[at..at + 2].copy_from_slice(cell);
            }
        }
    }

    /// Gathers the frame that is finished with row k of the received rows: what earlier calls received of it
    /// lies in memory, the rest in the rows up to k.
    pub(crate) fn gather(&self, memory: &[i16], rows: &[i16], k: usize, frame: &mut [i16]) {
        let row_numbers = 2 * self.cells;
        let last = self.depth - 1;
        let old = self.base(last);
        for (i, (place, delay)) in Places::new(self.cells, 5).zip(self.delays()).take(self.cells).enumerate() {
            // The cell came with the row that many rows after the frame's own.
            let cell = match (k + delay).checked_sub(last) {
                Some(row) => &rows[row * row_numbers + 2 * i..][..2],
                None => &memory[old + 2 * place..][..2],
            };
            frame[2 * place..2 * place + 2].copy_from_slice(cell);
        }
    }
}

/// Bits read so far in a call.
struct ReadBits {
    fac: [u8; 3 * FAC_BYTES],
    sdc: Vec<u8>,
    msc: Vec<u8>,
    scratch: Scratch,
}

impl ReadBits {
    fn new(s: &Settings) -> ReadBits {
        let z = s.sizes();
        let scratch = Scratch::for_cells(s.n_mux());
        ReadBits { fac: [0; 27], sdc: vec![0; z.sdc_bytes], msc: vec![0; z.msc_bytes], scratch }
    }

    /// Reads all blocks and finished frames; the number of these, or the lowest block that no bits give.
    fn read(&mut self, state: &State, memory: &[i16], cells: &Cells, rows: &[i16], frame: &Block) -> Result<u8, u8> {
        let fac = Block::fac_by(&state.table);
        let blocks = cells.fac.chunks(FAC_NUMBERS).zip(self.fac.chunks_mut(FAC_BYTES));
        for (block, (numbers, bytes)) in (0..).zip(blocks) {
            if !fac.read(numbers, bytes, &mut self.scratch) {
                return Err(block);
            }
        }
        if !Block::sdc_by(&state.table, &state.settings).read(cells.sdc, &mut self.sdc, &mut self.scratch) {
            return Err(3);
        }
        let mut finished = 0;
        let mut numbers = vec![0; frame.numbers()];
        let mut row_state = *state;
        for k in 0..3 {
            let slots = Slots::new(&row_state);
            row_state = row_state.after_row();
            if !slots.finishes() {
                continue;
            }
            slots.gather(memory, rows, k, &mut numbers);
            let at = finished as usize * frame.bytes();
            if !frame.read(&numbers, &mut self.msc[at..at + frame.bytes()], &mut self.scratch) {
                return Err(4 + finished);
            }
            finished += 1;
        }
        Ok(finished)
    }
}
