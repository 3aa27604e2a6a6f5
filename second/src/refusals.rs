//! Subcommand `refusals`: calls with something wrong, their answers, and a digest of all they were lent.

use crate::buffers::{BitBuffers, CellBuffers};
use crate::calls::{at, must, words, Calls, Side, COUNT, POSITION};
use crate::digest::{Digest, Random};
use crate::forms::MemoryElement;
use crate::memory::Element;
use crate::settings::Settings;
use crate::superframe::Answer;
use std::io::{self, Write};

/// B/0, 64-QAM SM, levels 0 and 1, X = 100, SDC in 16-QAM, long interleaving.
pub const BASE: [u8; 10] = [1, 0, 0, 0, 1, 0, 0, 100, 0, 0];

/// Settings that are refused.
pub static BAD: [[u8; 10]; 31] = [
    [4, 0, 0, 0, 1, 0, 0, 100, 0, 0],
    [255, 0, 0, 0, 1, 0, 0, 100, 0, 0],
    [1, 6, 0, 0, 1, 0, 0, 100, 0, 0],
    [1, 255, 0, 0, 1, 0, 0, 100, 0, 0],
    [2, 0, 0, 0, 1, 0, 0, 100, 0, 0],
    [2, 4, 0, 0, 1, 0, 0, 100, 0, 0],
    [3, 2, 0, 0, 1, 0, 0, 100, 0, 0],
    [3, 4, 0, 0, 1, 0, 0, 100, 0, 0],
    [1, 0, 4, 0, 1, 0, 0, 100, 0, 0],
    [1, 0, 255, 0, 1, 0, 0, 100, 0, 0],
    [1, 0, 0, 4, 1, 0, 0, 100, 0, 0],
    [1, 0, 0, 0, 4, 0, 0, 100, 0, 0],
    [1, 0, 3, 2, 1, 0, 0, 100, 0, 0],
    [1, 0, 3, 0, 2, 0, 0, 100, 0, 0],
    [1, 0, 0, 0, 1, 1, 0, 100, 0, 0],
    [1, 0, 3, 0, 1, 1, 0, 100, 0, 0],
    [1, 0, 1, 0, 1, 4, 0, 100, 0, 0],
    [1, 0, 2, 0, 1, 255, 0, 100, 0, 0],
    [1, 0, 0, 0, 1, 0, 0, 100, 2, 0],
    [1, 0, 0, 0, 1, 0, 0, 100, 0, 2],
    [1, 0, 0, 0, 1, 0, 1, 99, 0, 0],
    [1, 0, 0, 0, 1, 0, 255, 255, 0, 0],
    [9, 9, 9, 9, 9, 9, 255, 255, 9, 9],
    [1, 9, 9, 9, 9, 9, 255, 255, 9, 9],
    [1, 0, 9, 9, 9, 9, 255, 255, 9, 9],
    [1, 0, 0, 9, 9, 9, 255, 255, 9, 9],
    [1, 0, 0, 0, 9, 9, 255, 255, 9, 9],
    [1, 0, 0, 0, 1, 9, 255, 255, 9, 9],
    [1, 0, 0, 0, 1, 0, 255, 255, 9, 9],
    [1, 0, 0, 0, 1, 0, 255, 255, 0, 9],
    [1, 0, 0, 0, 1, 0, 255, 255, 0, 0],
];

pub fn print(calls: &impl Calls, out: &mut impl Write) -> io::Result<()> {
    for (case, settings) in BAD.iter().enumerate() {
        let (answer, digest) = at(lengths_case(calls, settings), || format!("refusals, lengths {case}"))?;
        writeln!(out, "lengths {case} {answer} 0 {digest}")?;
    }
    let run = at(Run::new(calls), || "refusals, the run before".to_string())?;
    for case in 0..36 {
        let (answer, digest) = at(reset_case(calls, &run, case), || format!("refusals, reset {case}"))?;
        writeln!(out, "reset {case} {answer} 0 {digest}")?;
    }
    for case in 0..57 {
        let (answer, digest) = at(code_case(calls, &run, case), || format!("refusals, code {case}"))?;
        writeln!(out, "code {case} {answer} 0 {digest}")?;
    }
    for case in 0..81 {
        let (answer, digest) = at(read_case(calls, &run, case), || format!("refusals, read {case}"))?;
        match answer {
            Answer::Finished(n) => writeln!(out, "read {case} 0 {n} {digest}")?,
            Answer::Refused { number, block } => writeln!(out, "read {case} {number} {block} {digest}")?,
        }
    }
    Ok(())
}

/// A refused call writes nothing; zeros are taken then.
fn lengths_case(calls: &impl Calls, settings: &[u8; 10]) -> io::Result<(u8, u64)> {
    let (mut lengths, mut sizes) = ([90; 5], [90; 6]);
    let answer = calls.lengths(settings, &mut lengths);
    let other = calls.sizes(settings, &mut sizes);
    must(answer == other, || format!("lengths are answered by {answer}, but sizes by {other}"))?;
    if answer != 0 {
        must_be_same(lengths == [90; 5] && sizes == [90; 6], answer)?;
        (lengths, sizes) = ([0; 5], [0; 6]);
    }
    let mut d = Digest::default();
    lengths.iter().for_each(|&v| d.take(v as u64));
    sizes.iter().for_each(|&v| d.take(v as u64));
    Ok((answer, d.0))
}

/// A coder that has coded two super frames and a reader that has read them; the third comes next.
struct Run {
    coder: Side,
    reader: Side,
    /// A reader that has read nothing.
    fresh: Side,
    bits: BitBuffers,
    first_cells: CellBuffers,
    cells: CellBuffers,
}

impl Run {
    fn new(calls: &impl Calls) -> io::Result<Run> {
        let s = Settings::from_bytes(BASE);
        let mut random = Random(1);
        let bits = [(); 3].map(|()| BitBuffers::random(&s, &mut random, true));
        let fresh = Side::fresh(calls, &s)?;
        let (mut coder, mut reader) = (fresh.clone(), fresh.clone());
        let first_cells = coded(calls, &mut coder, &bits[0])?;
        let second_cells = coded(calls, &mut coder, &bits[1])?;
        for (cells, finished) in [(&first_cells, 0), (&second_cells, 2)] {
            let answer = calls.read(&mut reader, cells, &mut BitBuffers::filled(&s, 0));
            let right = answer == Answer::Finished(finished);
            must(right, || format!("Read answers {} instead of {finished}", words(answer)))?;
        }
        let (position, count) = (reader.state[POSITION], reader.state[COUNT]);
        must((position, count) == (1, 4), || format!("position {position}, count {count} instead of 1, 4"))?;
        // The third super frame is coded on a copy.
        let cells = coded(calls, &mut coder.clone(), &bits[2])?;
        let [.., bits] = bits;
        Ok(Run { coder, reader, fresh, bits, first_cells, cells })
    }
}

/// The cells of an accepted call of Code.
fn coded(calls: &impl Calls, coder: &mut Side, bits: &BitBuffers) -> io::Result<CellBuffers> {
    let mut cells = CellBuffers::filled(&Settings::from_bytes(BASE), 0);
    let answer = calls.code(coder, bits, &mut cells);
    must(answer == 0, || format!("Code answers {answer} instead of 0"))?;
    Ok(cells)
}

/// Settings, position, count, then memory with numbers raised by 32768.
fn side_digest(side: &Side) -> Digest {
    let mut d = Digest::default();
    d.take_bytes(&side.state);
    take_numbers(&mut d, &side.memory);
    d
}

fn take_numbers(d: &mut Digest, numbers: &[i16]) {
    numbers.iter().for_each(|&v| d.take((v as i64 + 32768) as u64));
}

/// Short interleaving with the base's other settings.
fn short() -> Settings {
    Settings { interleaving: 1, ..Settings::from_bytes(BASE) }
}

/// A refused call must have left all as it was.
fn must_be_same(same: bool, refusal: impl std::fmt::Display) -> io::Result<()> {
    must(same, || format!("refused by {refusal}, but has written"))
}

fn reset_case(calls: &impl Calls, run: &Run, case: usize) -> io::Result<(u8, u64)> {
    let mut settings = Settings::from_bytes(BASE);
    let mut side = run.coder.clone();
    match case {
        0..=30 => settings = Settings::from_bytes(BAD[case]),
        31 => shorter(&mut side.memory),
        32 => longer(&mut side.memory),
        33 => settings = short(),
        34 => {
            settings.x = 65535;
            shorter(&mut side.memory);
        }
        _ => {}
    }
    let before = side.clone();
    let answer = calls.reset(&mut side, &settings.bytes());
    must_be_same(answer == 0 || side == before, answer)?;
    Ok((answer, side_digest(&side).0))
}

/// All that a call of Code is handed.
#[derive(Clone, PartialEq)]
struct CodeCall {
    side: Side,
    bits: BitBuffers,
    cells: CellBuffers,
}

fn code_case(calls: &impl Calls, run: &Run, case: usize) -> io::Result<(u8, u64)> {
    let cells = CellBuffers::filled(&Settings::from_bytes(BASE), 5);
    let mut call = CodeCall { side: run.coder.clone(), bits: run.bits.clone(), cells };
    spoil_code(&mut call, case);
    let before = call.clone();
    let answer = calls.code(&mut call.side, &call.bits, &mut call.cells);
    must_be_same(answer == 0 || call == before, answer)?;
    let mut d = side_digest(&call.side);
    take_numbers(&mut d, &call.cells.fac);
    take_numbers(&mut d, &call.cells.sdc);
    take_numbers(&mut d, &call.cells.msc);
    Ok((answer, d.0))
}

fn spoil_code(c: &mut CodeCall, case: usize) {
    let frame_bytes = c.bits.msc.len() / 3;
    match case {
        0..=30 => put_settings(&mut c.side, &BAD[case]),
        31 => shorter(&mut c.side.memory),
        32 => longer(&mut c.side.memory),
        33 => drop(c.bits.fac.pop()),
        34 => drop(c.bits.sdc.pop()),
        35 => c.bits.msc.push(0),
        36 => drop(c.cells.fac.pop()),
        37 => c.cells.sdc.push(5),
        38 => drop(c.cells.msc.pop()),
        39 => *c.bits.sdc.last_mut().unwrap() |= 1,
        40 => c.bits.msc[frame_bytes - 1] |= 1,
        41 => c.bits.msc[2 * frame_bytes - 1] |= 16,
        42 => c.bits.msc[3 * frame_bytes - 1] |= 1,
        43 => c.side.state[POSITION] = 5,
        44 => c.side.state[COUNT] = 5,
        45 => c.side.state[POSITION] = 255,
        46..=49 => spoil_memory(&mut c.side.memory, case - 46),
        // Several faults at once: the lowest number is given.
        50 => [31, 33, 36, 39, 43].iter().for_each(|&k| spoil_code(c, k)),
        51 => [33, 36, 39, 43].iter().for_each(|&k| spoil_code(c, k)),
        52 => [36, 39, 43].iter().for_each(|&k| spoil_code(c, k)),
        53 => [39, 43].iter().for_each(|&k| spoil_code(c, k)),
        54 | 55 => shorten(&mut c.side, case - 54),
        _ => {}
    }
}

/// A memory cell that is neither (0, 0) nor a point, in any form that memory is lent in.
fn spoil_memory(memory: &mut Vec<i16>, kind: usize) {
    match kind {
        0 => memory[0] = 2,
        1 => *memory.last_mut().unwrap() = 8,
        2 => (memory[200], memory[201]) = (0, 1),
        _ => memory[0] = -32768,
    }
    *memory = MemoryElement::numbers(&MemoryElement::memory(memory));
}

/// Numbers of an element of the memory that is lent.
const ELEMENT_NUMBERS: usize = 2 / MemoryElement::A_CELL;

fn shorter(memory: &mut Vec<i16>) {
    memory.truncate(memory.len() - ELEMENT_NUMBERS);
}

fn longer(memory: &mut Vec<i16>) {
    memory.extend([0; ELEMENT_NUMBERS]);
}

/// Short interleaving with its length of memory, but position or count 1.
fn shorten(side: &mut Side, kind: usize) {
    put_settings(side, &short().bytes());
    side.memory.truncate(short().sizes().memory_numbers);
    (side.state[POSITION], side.state[COUNT]) = if kind == 0 { (1, 0) } else { (0, 1) };
}

fn put_settings(side: &mut Side, settings: &[u8; 10]) {
    side.state[..10].copy_from_slice(settings);
}

/// All that a call of Read is handed.
#[derive(Clone, PartialEq)]
struct ReadCall {
    side: Side,
    cells: CellBuffers,
    bits: BitBuffers,
}

fn read_case(calls: &impl Calls, run: &Run, case: usize) -> io::Result<(Answer, u64)> {
    // The last cases have a reader just reset, and the first super frame.
    let (side, cells) = if case < 78 { (&run.reader, &run.cells) } else { (&run.fresh, &run.first_cells) };
    let bits = BitBuffers::filled(&Settings::from_bytes(BASE), 90);
    let mut call = ReadCall { side: side.clone(), cells: cells.clone(), bits };
    spoil_read(&mut call, case);
    let before = call.clone();
    let answer = calls.read(&mut call.side, &call.cells, &mut call.bits);
    must_be_same(matches!(answer, Answer::Finished(_)) || call == before, words(answer))?;
    let mut d = side_digest(&call.side);
    call.bits.take(&mut d);
    Ok((answer, d.0))
}

fn spoil_read(c: &mut ReadCall, case: usize) {
    match case {
        0..=30 => put_settings(&mut c.side, &BAD[case]),
        31 => shorter(&mut c.side.memory),
        32 => longer(&mut c.side.memory),
        33 => drop(c.cells.fac.pop()),
        34 => c.cells.sdc.push(1),
        35 => drop(c.cells.msc.pop()),
        36 => drop(c.bits.fac.pop()),
        37 => c.bits.sdc.push(90),
        38 => drop(c.bits.msc.pop()),
        39 => c.side.state[POSITION] = 5,
        40 => c.side.state[COUNT] = 5,
        41 => c.side.state[POSITION] = 255,
        42..=45 => spoil_memory(&mut c.side.memory, case - 42),
        // Several faults at once: the lowest number, then the lowest block.
        67 => [31, 33, 36, 39].iter().for_each(|&k| spoil_read(c, k)),
        68 => [33, 36, 39].iter().for_each(|&k| spoil_read(c, k)),
        69 => [36, 39].iter().for_each(|&k| spoil_read(c, k)),
        70 => [39, 46].iter().for_each(|&k| spoil_read(c, k)),
        71 => [55, 57].iter().for_each(|&k| spoil_read(c, k)),
        72 => [50, 49].iter().for_each(|&k| spoil_read(c, k)),
        73 => [63, 59].iter().for_each(|&k| spoil_read(c, k)),
        74 => [62, 61].iter().for_each(|&k| spoil_read(c, k)),
        75 | 76 => shorten(&mut c.side, case - 75),
        // 77 has nothing wrong; from 78 on the reader is just reset.
        _ => spoil_cells(c, case),
    }
}

/// The cases of Read in which single cells are changed.
fn spoil_cells(c: &mut ReadCall, case: usize) {
    // Numbers of a row, and so of a slot of memory.
    let row = 2 * Settings::from_bytes(BASE).n_mux();
    match case {
        // No point: FAC blocks, SDC, rows, fillers.
        46..=48 => c.cells.fac[130 * (case - 46) + 3] = 3,
        49 => c.cells.sdc[7] = 5,
        50..=52 => c.cells.msc[row * (case - 50)] = 0,
        53 => (c.cells.msc[row + 8], c.cells.msc[row + 9]) = (0, 0),
        54 => c.cells.msc[3 * row - 1] = -32768,
        55 => c.cells.msc[3 * row + 1] = -1,
        56 => c.cells.msc[3 * row + 3] = 1,
        // No bits: one coded bit of level 0 is changed.
        57..=59 => change_bit(&mut c.cells.fac[130 * (case - 57) + 5], 1),
        60 => change_bit(&mut c.cells.sdc[9], 3),
        61..=63 => change_bit(&mut c.cells.msc[row * (case - 61) + 8], 7),
        // A finished frame with a cell never received.
        64..=66 => c.side.memory[row * (case - 62)..][..2].fill(0),
        78 => c.cells.fill_ignored(row, 0),
        79 => c.cells.msc[10] = 0,
        80 => c.cells.msc[row + 2] = 9,
        _ => {}
    }
}

/// Changes the bit of weight 1 in a number.
fn change_bit(v: &mut i16, top: i16) {
    *v = top - 2 * (((top - *v) / 2) ^ 1);
}

