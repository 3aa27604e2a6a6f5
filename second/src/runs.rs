//! Subcommand `runs`: runs of Code with refused calls in between, and runs of Read over their cells.

use crate::buffers::{BitBuffers, CellBuffers};
use crate::calls::{at, must, words, Calls, Side, COUNT, POSITION};
use crate::digest::{Digest, Random};
use crate::rates;
use crate::settings::{Settings, PAIRINGS};
use crate::superframe::Answer;
use std::io::{self, Write};

/// Accepted calls of a run.
const CALLS: usize = 5;

pub fn print(calls: &impl Calls, out: &mut impl Write) -> io::Result<()> {
    for (line, s) in (1..).zip(settings()) {
        let run = Coder::run(calls, &s, line).and_then(|coder| Ok((Reader::run(calls, &s, &coder)?, coder)));
        let (reader, coder) = at(run, || format!("runs, line {line}, settings {}", s.hex()))?;
        write!(out, "{} {} {} {}", s.hex(), coder.answers.join(","), coder.cells_digest(), memory_digest(&coder.side))?;
        writeln!(out, " {} {} {}", reader.answers.join(","), reader.bytes_digest(), memory_digest(&reader.side))?;
    }
    Ok(())
}

/// Every pairing, MSC mode and interleaving, with levels and X that vary.
pub fn settings() -> Vec<Settings> {
    let mut all = Vec::new();
    for (p, (mode, occupancy)) in (0..).zip(PAIRINGS) {
        for msc in 0..4 {
            for interleaving in 0..2 {
                let levels = rates::combinations(msc).len() as u8;
                let vspps = if msc == 1 || msc == 2 { 4 } else { 1 };
                let mut s = Settings { mode, occupancy, msc, interleaving, ..Settings::default() };
                s.level_a = (p + interleaving) % levels;
                s.level_b = (p / 2 + msc) % levels;
                s.vspp = (p / 4 + p + interleaving) % vspps;
                s.sdc = (p + msc) % 2;
                s.x = [0, 100, s.largest_x()][((p + msc + interleaving) % 3) as usize];
                all.push(s);
            }
        }
    }
    all
}

/// Memory, position and count.
fn memory_digest(side: &Side) -> u64 {
    let mut d = Digest::default();
    d.take_cells(&side.memory);
    d.take(side.state[POSITION] as u64);
    d.take(side.state[COUNT] as u64);
    d.0
}

struct Coder<'a, C> {
    calls: &'a C,
    settings: Settings,
    side: Side,
    brought: Vec<BitBuffers>,
    sent: Vec<CellBuffers>,
    answers: Vec<String>,
}

impl<'a, C: Calls> Coder<'a, C> {
    fn run(calls: &'a C, s: &Settings, seed: u32) -> io::Result<Coder<'a, C>> {
        let (side, settings) = (Side::fresh(calls, s)?, *s);
        let mut coder = Coder { calls, settings, side, brought: Vec::new(), sent: Vec::new(), answers: Vec::new() };
        let mut random = Random(seed);
        for call in 0..CALLS {
            // The last two calls bring zero bits in the frames.
            coder.accept(BitBuffers::random(s, &mut random, call < 3))?;
            match call {
                0 => coder.short_input()?,
                1 => coder.short_output()?,
                2 => coder.spare_bit()?,
                _ => {}
            }
        }
        Ok(coder)
    }

    /// The answer of the next call, which has to be this number.
    fn answer(&mut self, bits: &BitBuffers, cells: &mut CellBuffers, number: u8) -> io::Result<()> {
        let answer = self.calls.code(&mut self.side, bits, cells);
        self.answers.push(answer.to_string());
        must(answer == number, || format!("call {} of Code answers {answer} instead of {number}", self.answers.len()))
    }

    fn accept(&mut self, bits: BitBuffers) -> io::Result<()> {
        let mut cells = self.room();
        self.answer(&bits, &mut cells, 0)?;
        self.brought.push(bits);
        self.sent.push(cells);
        Ok(())
    }

    /// A call that has to be refused and to leave everything as it was.
    fn refuse(&mut self, bits: &BitBuffers, mut cells: CellBuffers, number: u8) -> io::Result<()> {
        let before = (self.side.clone(), cells.clone());
        self.answer(bits, &mut cells, number)?;
        let same = self.side == before.0 && cells == before.1;
        must(same, || format!("call {} of Code is refused by {number}, but has written", self.answers.len()))
    }

    fn room(&self) -> CellBuffers {
        CellBuffers::filled(&self.settings, 0)
    }

    fn last_bits(&self) -> BitBuffers {
        self.brought.last().unwrap().clone()
    }

    fn short_input(&mut self) -> io::Result<()> {
        let mut bits = self.last_bits();
        bits.fac.pop();
        self.refuse(&bits, self.room(), 9)
    }

    fn short_output(&mut self) -> io::Result<()> {
        let mut cells = self.room();
        cells.sdc.pop();
        self.refuse(&self.last_bits(), cells, 10)
    }

    /// Sets the last spare bit of the SDC, or else of the third frame; if there is none, there is no call.
    fn spare_bit(&mut self) -> io::Result<()> {
        let s = &self.settings;
        let mut bits = self.last_bits();
        if s.sdc_bits() % 8 != 0 {
            *bits.sdc.last_mut().unwrap() |= 1;
        } else if s.lengths().frame_bits() % 8 != 0 {
            *bits.msc.last_mut().unwrap() |= 1;
        } else {
            return Ok(());
        }
        self.refuse(&bits, self.room(), 11)
    }

    fn cells_digest(&self) -> u64 {
        let mut d = Digest::default();
        self.sent.iter().for_each(|cells| cells.take(&mut d));
        d.0
    }
}

struct Reader<'a, C> {
    calls: &'a C,
    settings: Settings,
    side: Side,
    handed_out: Vec<BitBuffers>,
    finished: Vec<usize>,
    answers: Vec<String>,
}

impl<'a, C: Calls> Reader<'a, C> {
    fn run(calls: &'a C, s: &Settings, coder: &Coder<C>) -> io::Result<Reader<'a, C>> {
        let (side, settings) = (Side::fresh(calls, s)?, *s);
        let (handed_out, finished, answers) = (Vec::new(), Vec::new(), Vec::new());
        let mut reader = Reader { calls, settings, side, handed_out, finished, answers };
        for (call, cells) in coder.sent.iter().enumerate() {
            match call {
                1 => reader.short_input(cells)?,
                2 => reader.short_output(cells)?,
                3 => reader.no_point(cells)?,
                4 => reader.no_block(cells)?,
                _ => {}
            }
            reader.accept(cells)?;
        }
        reader.compare(&coder.brought)?;
        Ok(reader)
    }

    /// The answer of the next call.
    fn answer(&mut self, cells: &CellBuffers, bits: &mut BitBuffers) -> Answer {
        let answer = self.calls.read(&mut self.side, cells, bits);
        self.answers.push(words(answer));
        answer
    }

    fn accept(&mut self, cells: &CellBuffers) -> io::Result<()> {
        let mut bits = self.room();
        match self.answer(cells, &mut bits) {
            Answer::Finished(n) => {
                self.finished.push(n as usize);
                self.handed_out.push(bits);
                Ok(())
            }
            refused => must(false, || format!("call {} of Read is refused by {}", self.answers.len(), words(refused))),
        }
    }

    /// A call that has to be refused and to leave everything as it was.
    fn refuse(&mut self, cells: &CellBuffers, mut bits: BitBuffers, number: u8, block: u8) -> io::Result<()> {
        let before = (self.side.clone(), bits.clone());
        let (answer, expected) = (self.answer(cells, &mut bits), Answer::Refused { number, block });
        let call = format!("call {} of Read", self.answers.len());
        must(answer == expected, || format!("{call} answers {} instead of {}", words(answer), words(expected)))?;
        let same = self.side == before.0 && bits == before.1;
        must(same, || format!("{call} is refused by {}, but has written", words(answer)))
    }

    fn room(&self) -> BitBuffers {
        BitBuffers::filled(&self.settings, 0xFF)
    }

    fn short_input(&mut self, cells: &CellBuffers) -> io::Result<()> {
        let mut cells = cells.clone();
        cells.fac.pop();
        self.refuse(&cells, self.room(), 9, 0)
    }

    fn short_output(&mut self, cells: &CellBuffers) -> io::Result<()> {
        let mut bits = self.room();
        bits.sdc.pop();
        self.refuse(cells, bits, 10, 0)
    }

    /// The first number of FAC block 1 is 0.
    fn no_point(&mut self, cells: &CellBuffers) -> io::Result<()> {
        let mut cells = cells.clone();
        cells.fac[130] = 0;
        self.refuse(&cells, self.room(), 13, 1)
    }

    /// The first number of FAC block 2 is negated.
    fn no_block(&mut self, cells: &CellBuffers) -> io::Result<()> {
        let mut cells = cells.clone();
        cells.fac[260] = -cells.fac[260];
        self.refuse(&cells, self.room(), 14, 2)
    }

    fn bytes_digest(&self) -> u64 {
        let mut d = Digest::default();
        self.handed_out.iter().for_each(|bits| bits.take(&mut d));
        d.0
    }

    /// The reader has handed out what was brought: 3j − 4 frames after j calls, or 3j in short interleaving.
    fn compare(&self, brought: &[BitBuffers]) -> io::Result<()> {
        let s = &self.settings;
        let frame_bytes = s.lengths().frame_bits().div_ceil(8);
        let mut frames = brought.iter().flat_map(|b| b.msc.chunks(frame_bytes));
        let delay = if s.long() { 4 } else { 0 };
        let mut handed = 0;
        for (j, (bits, &n)) in self.handed_out.iter().zip(&self.finished).enumerate() {
            let call = format!("accepted call {j} of Read");
            let expected = (3 * (j + 1)).saturating_sub(delay) - handed;
            must(n == expected, || format!("{call} finishes {n} frames instead of {expected}"))?;
            handed += n;
            let (full, rest) = bits.msc.split_at(n * frame_bytes);
            let blocks = bits.fac == brought[j].fac && bits.sdc == brought[j].sdc;
            let same = blocks && full.chunks(frame_bytes).all(|f| Some(f) == frames.next());
            must(same, || format!("{call} doesn't give the bits that were coded"))?;
            must(rest.iter().all(|&b| b == 0), || format!("{call} leaves bytes beyond the finished frames"))?;
        }
        Ok(())
    }
}
