//! Without words: calls the archive with good and changed input and compares everything with the second program's own
//! results. With one word: prints the second program's lines of that name, computed by the archive.

use harness::calls::Archive;
use harness::compare;
use harness::damage::{ignored, spoil};
use harness::draw::Draw;
use harness::grids;
use harness::lent::{Kind, Lent};
use harness::measured;
use harness::nearest;
use harness::tally::Tally;
use harness::{disperse, halves, holds, how_long, own, plans, previews, read_ons, requests, streams, tables};
use second::settings::{Settings, PAIRINGS};
use second::superframe::STATE_BYTES;
use second::{counts, refusals, runs};
use std::io::{self, BufWriter, Write};
use std::process::ExitCode;

const SEED: u64 = 1;
/// Super frames of a run, and changed calls beside each good one.
const SUPER_FRAMES: usize = 5;
const CHANGED_LENGTHS: usize = 12;
const CHANGED_RESETS: usize = 8;
const CHANGED_CODES: usize = 4;
const CHANGED_READS: usize = 8;
/// What Read answers to (0, 0) in memory.
const EMPTY_CELL: u16 = 12 * 256;
/// FAC blocks built and read, and changed calls beside each.
const FAC_BLOCKS: usize = 5;
const CHANGED_FACS: usize = 9;

fn main() -> ExitCode {
    let args: Vec<String> = std::env::args().skip(1).collect();
    let args: Vec<&str> = args.iter().map(String::as_str).collect();
    let mut out = BufWriter::new(io::stdout().lock());
    let done = match args[..] {
        [] => return random_calls(),
        ["grid"] => return report(counted(grids::random_calls())),
        ["decide"] => return report(counted(measured::random_calls())),
        ["disperse"] => return report(dispersal_calls()),
        ["tables"] => return report(tables::calls(SEED, &tables::own(), &requests::CODER)),
        ["hold"] => return report(holds::calls(SEED, &holds::OWN, &requests::HOLD)),
        ["preview"] => return report(previews::calls(SEED, own::preview, requests::preview)),
        ["read-on"] => return report(read_ons::calls(SEED, own::read_on, requests::read_on)),
        ["streams"] => return report(streams::calls(SEED, &streams::OWN, &requests::MUX)),
        ["how-long"] => return report(how_long::calls(SEED, own::how_long, requests::how_long)),
        ["plan"] => return report(plans::calls(SEED, second::plan::plan, requests::plan)),
        ["runs"] => runs::print(&Archive, &mut out),
        ["counts"] => counts::print(&Archive, &mut out),
        ["refusals"] => refusals::print(&Archive, &mut out),
        _ => {
            eprintln!("harness [grid | decide | disperse | tables | hold | preview | read-on | streams | how-long | plan | runs | counts | refusals]");
            return ExitCode::from(2);
        }
    };
    match done.and_then(|()| out.flush()) {
        Ok(()) => ExitCode::SUCCESS,
        Err(e) => {
            eprintln!("the archive's {e}");
            ExitCode::FAILURE
        }
    }
}

/// How many calls there were, or the first difference.
fn counted(done: Result<u32, String>) -> Result<String, String> {
    done.map(|calls| format!("{calls} calls"))
}

/// Prints what random calls have seen, or where the programs differ.
fn report(seen: Result<String, String>) -> ExitCode {
    match seen {
        Ok(lines) => {
            println!("{lines}");
            ExitCode::SUCCESS
        }
        Err(difference) => {
            eprintln!("{difference}");
            ExitCode::FAILURE
        }
    }
}

/// The dispersal step on random bits, and on frames in two halves.
fn dispersal_calls() -> Result<String, String> {
    let calls = disperse::calls(SEED, second::dispersal::disperse_packed, requests::disperse)?;
    Ok(format!("{calls}\n{}", halves::frames(SEED, requests::disperse)?))
}

fn random_calls() -> ExitCode {
    let mut run = Run { draw: Draw(SEED), tally: Tally::default() };
    for pairing in PAIRINGS {
        for msc in 0..4 {
            for interleaving in 0..2 {
                let s = run.draw.settings(pairing, msc, interleaving);
                if let Err(difference) = run.all(&s) {
                    eprintln!("{difference}");
                    return ExitCode::FAILURE;
                }
            }
        }
    }
    match nearest::calls(SEED) {
        Ok(line) => println!("{line}"),
        Err(difference) => {
            eprintln!("{difference}");
            return ExitCode::FAILURE;
        }
    }
    run.tally.print();
    let missing = run.tally.missing();
    if !missing.is_empty() {
        eprintln!("never occurred: {}", missing.join("; "));
        return ExitCode::FAILURE;
    }
    println!("no difference");
    ExitCode::SUCCESS
}

/// A coder or a reader: its state and its memory.
struct Side {
    state: Vec<u8>,
    memory: Vec<i16>,
}

struct Run {
    draw: Draw,
    tally: Tally,
}

impl Run {
    /// All calls with one setting.
    fn all(&mut self, s: &Settings) -> Result<(), String> {
        self.lengths(s)?;
        (0..FAC_BLOCKS).try_for_each(|_| self.fac(s))?;
        let (mut coder, mut reader) = (self.reset(s)?, self.reset(s)?);
        for m in 0..SUPER_FRAMES {
            let bytes = self.draw.super_frame(s);
            let cells = self.code(s, &mut coder, bytes)?;
            let finished = self.read(s, &mut reader, cells)?;
            let expected = if s.long() { [0, 2, 3, 3, 3][m] } else { 3 };
            if finished != expected {
                return Err(format!("super frame {m} of {} finishes {finished} frames, not {expected}", s.hex()));
            }
        }
        Ok(())
    }

    /// One call with both programs; the answer.
    fn call(&mut self, kind: Kind, lent: &mut Lent, s: &Settings, changes: &[&str]) -> Result<u16, String> {
        let answer = compare::call(kind, lent).map_err(|difference| {
            let changes = if changes.is_empty() { "nothing".to_string() } else { changes.join(", ") };
            let call = self.tally.calls;
            format!("call {call}, {}, settings {}, changed: {changes}\n  {difference}", kind.name(), s.hex())
        })?;
        self.tally.take(kind, answer);
        Ok(answer)
    }

    /// Changed calls on copies, then the good one itself; its answer.
    fn calls(&mut self, kind: Kind, changed: usize, lent: &mut Lent, s: &Settings) -> Result<u16, String> {
        for _ in 0..changed {
            let mut copy = lent.clone();
            let changes = spoil(kind, &mut copy, s, &mut self.draw);
            self.call(kind, &mut copy, s, &changes)?;
        }
        let answer = self.call(kind, lent, s, &[])?;
        match kind.refusal(answer) {
            0 => Ok(answer),
            n => Err(format!("a good call, {}, settings {}, is refused by {n}", kind.name(), s.hex())),
        }
    }

    fn lengths(&mut self, s: &Settings) -> Result<(), String> {
        let (settings, draw) = (s.bytes().to_vec(), &mut self.draw);
        let mut lengths = Lent { settings: settings.clone(), ..Lent::default() };
        lengths.lengths = (0..5).map(|_| draw.word() as u16).collect();
        let mut sizes = Lent { settings, ..Lent::default() };
        sizes.sizes = (0..6).map(|_| draw.word() as u32).collect();
        self.calls(Kind::Lengths, CHANGED_LENGTHS, &mut lengths, s)?;
        self.calls(Kind::Sizes, CHANGED_LENGTHS, &mut sizes, s)?;
        Ok(())
    }

    /// An FAC block built from fields and read back.
    fn fac(&mut self, s: &Settings) -> Result<(), String> {
        let (settings, fields) = (s.bytes().to_vec(), self.draw.fields(s));
        let mut build =
            Lent { settings: settings.clone(), fields: fields.clone(), fac: self.draw.old_bytes(9), ..Lent::default() };
        self.calls(Kind::FacBuild, CHANGED_FACS, &mut build, s)?;
        let old = (0..14).map(|_| self.draw.word() as u32).collect();
        let mut read = Lent { settings, fac: build.fac, fields: old, ..Lent::default() };
        self.calls(Kind::FacRead, CHANGED_FACS, &mut read, s)?;
        match read.fields == fields {
            true => Ok(()),
            false => Err(format!("fields built with {} are not read back", s.hex())),
        }
    }

    fn reset(&mut self, s: &Settings) -> Result<Side, String> {
        let state = self.draw.old_bytes(STATE_BYTES);
        let memory = self.draw.old_numbers(s.sizes().memory_numbers);
        let mut lent = Lent { settings: s.bytes().to_vec(), state, memory, ..Lent::default() };
        self.calls(Kind::Reset, CHANGED_RESETS, &mut lent, s)?;
        Ok(Side { state: lent.state, memory: lent.memory })
    }

    /// Codes a super frame; the numbers of its cells.
    fn code(&mut self, s: &Settings, coder: &mut Side, bytes: [Vec<u8>; 3]) -> Result<[Vec<i16>; 3], String> {
        let z = s.sizes();
        let numbers = [z.fac_numbers, z.sdc_numbers, z.msc_numbers];
        let [fac_cells, sdc_cells, msc_cells] = numbers.map(|n| self.draw.old_numbers(n));
        let [fac, sdc, msc] = bytes;
        let (state, memory) = (coder.state.clone(), coder.memory.clone());
        let mut lent = Lent { state, memory, fac, sdc, msc, fac_cells, sdc_cells, msc_cells, ..Lent::default() };
        self.calls(Kind::Code, CHANGED_CODES, &mut lent, s)?;
        (coder.state, coder.memory) = (lent.state, lent.memory);
        Ok([lent.fac_cells, lent.sdc_cells, lent.msc_cells])
    }

    /// Reads a super frame; the number of finished frames.
    fn read(&mut self, s: &Settings, reader: &mut Side, cells: [Vec<i16>; 3]) -> Result<u16, String> {
        let z = s.sizes();
        let [fac, sdc, msc] = [27, z.sdc_bytes, z.msc_bytes].map(|n| self.draw.old_bytes(n));
        let [fac_cells, sdc_cells, msc_cells] = cells;
        let (state, memory) = (reader.state.clone(), reader.memory.clone());
        let mut lent = Lent { state, memory, fac, sdc, msc, fac_cells, sdc_cells, msc_cells, ..Lent::default() };
        if s.long() && lent.state[11] == 4 {
            self.every_count(&lent, s)?;
        }
        self.empty_cell(&lent, s)?;
        let finished = self.calls(Kind::Read, CHANGED_READS, &mut lent, s)?;
        (reader.state, reader.memory) = (lent.state, lent.memory);
        Ok(finished)
    }

    /// Copies of a good call of Read begun at every count, with anything in the cells that are then ignored.
    fn every_count(&mut self, lent: &Lent, s: &Settings) -> Result<(), String> {
        for (count, expected) in (0..).zip([0, 0, 1, 2, 3]) {
            let mut copy = lent.clone();
            copy.state[11] = count;
            ignored(&mut copy, s, &mut self.draw);
            let finished = self.call(Kind::Read, &mut copy, s, &["count", "ignored cells"])?;
            if finished != expected {
                return Err(format!("Read of {} at count {count} answers {finished}, not {expected}", s.hex()));
            }
        }
        Ok(())
    }

    /// A copy of a good call of Read with a cell of memory (0, 0): 12 refuses it (02, S-5).
    fn empty_cell(&mut self, lent: &Lent, s: &Settings) -> Result<(), String> {
        let at = 2 * self.draw.below(lent.memory.len() / 2);
        let mut copy = lent.clone();
        copy.memory[at..at + 2].fill(0);
        match self.call(Kind::Read, &mut copy, s, &["a cell of memory"])? {
            EMPTY_CELL => Ok(()),
            answer => Err(format!("Read of {} with (0, 0) in memory answers {answer}, not {EMPTY_CELL}", s.hex())),
        }
    }
}
