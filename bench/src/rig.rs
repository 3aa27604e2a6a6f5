//! A run that repeats one super frame, for timing: every call of Code and of Read then does the same work.
//!
//! With the same three frames brought again and again, frame n depends on n mod 3 only, and so does row n of the sent
//! cells once five frames are sent. Thus a reader can be lent the same cells again and again.

use harness::{archive, own};
use second::buffers::BitBuffers;
use second::digest::Random;
use second::forms::MemoryElement;
use second::memory::Element;
use second::settings::Settings;
use second::superframe::STATE_BYTES;
use tuned::Tuned;

#[derive(Clone, Copy, PartialEq, Eq, Debug)]
pub enum Program {
    Library,
    Second,
    /// The tuned version, frame by frame, its tables made in each call: like the library it keeps nothing.
    Tuned,
    /// The tuned version with three frames at once and its tables kept from call to call.
    Kept,
}

pub const PROGRAMS: [Program; 4] = [Program::Library, Program::Second, Program::Tuned, Program::Kept];

impl Program {
    pub fn name(self) -> &'static str {
        ["library", "second", "tuned", "kept"][self as usize]
    }

    pub fn named(name: &str) -> Option<Program> {
        PROGRAMS.into_iter().find(|program| program.name() == name)
    }
}

/// A program with what it keeps.
enum Runner {
    Library,
    Second,
    Tuned(Tuned<1>),
    Kept(Tuned<3>),
}

/// A state with its memory, as numbers for the second program and as lent for the others.
#[derive(Clone)]
struct Side {
    state: [u8; STATE_BYTES],
    memory: Vec<i16>,
    lent: Vec<MemoryElement>,
}

/// Coded bits of the MSC in a call.
pub fn coded_bits(s: &Settings) -> usize {
    let bits_a_cell = if s.msc_top() == 7 { 6 } else { 4 };
    3 * s.n_mux() * bits_a_cell
}

pub struct Rig {
    settings: Settings,
    runner: Runner,
    coder: Side,
    reader: Side,
    bytes: [Vec<u8>; 3],
    cells: [Vec<i16>; 3],
    /// Where Read writes.
    read_bytes: [Vec<u8>; 3],
}

impl Rig {
    /// A coder and a reader after three super frames; all of this is the second program's own work.
    pub fn new(settings: Settings, program: Program) -> Rig {
        let s = &settings;
        let z = s.sizes();
        let bits = BitBuffers::random(s, &mut Random(1), true);
        let side = Side { state: [0; STATE_BYTES], memory: vec![0; z.memory_numbers], lent: Vec::new() };
        let mut rig = Rig {
            settings,
            runner: Runner::Second,
            coder: side.clone(),
            reader: side,
            bytes: [bits.fac, bits.sdc, bits.msc],
            cells: [z.fac_numbers, z.sdc_numbers, z.msc_numbers].map(|n| vec![0; n]),
            read_bytes: [27, z.sdc_bytes, z.msc_bytes].map(|n| vec![0; n]),
        };
        for side in [&mut rig.coder, &mut rig.reader] {
            assert_eq!(own::reset(&mut side.state, &s.bytes(), &mut side.memory), 0);
        }
        for _ in 0..3 {
            rig.code();
            // While the first frames come in, fewer than three finish.
            assert!(rig.read_answer() <= 3);
        }
        for side in [&mut rig.coder, &mut rig.reader] {
            side.lent = MemoryElement::memory(&side.memory);
        }
        rig.runner = match program {
            Program::Library => Runner::Library,
            Program::Second => Runner::Second,
            Program::Tuned => Runner::Tuned(Tuned::new(false)),
            Program::Kept => Runner::Kept(Tuned::new(true)),
        };
        rig
    }

    /// One call of Code, which must be accepted.
    pub fn code(&mut self) {
        let Side { state, memory, lent } = &mut self.coder;
        let bytes = self.bytes.each_ref().map(|b| b.as_slice());
        let cells = self.cells.each_mut().map(|c| c.as_mut_slice());
        let answer = match &mut self.runner {
            Runner::Library => archive::code(state, lent, bytes, cells),
            Runner::Second => own::code(state, memory, bytes, cells),
            Runner::Tuned(tuned) => tuned.code(state, lent, bytes, cells),
            Runner::Kept(tuned) => tuned.code(state, lent, bytes, cells),
        };
        assert_eq!(answer, 0);
    }

    /// One call of Read, which must finish three frames.
    pub fn read(&mut self) {
        assert_eq!(self.read_answer(), 3);
    }

    fn read_answer(&mut self) -> u16 {
        let Side { state, memory, lent } = &mut self.reader;
        let cells = self.cells.each_ref().map(|c| c.as_slice());
        let bytes = self.read_bytes.each_mut().map(|b| b.as_mut_slice());
        match &mut self.runner {
            Runner::Library => archive::read(state, lent, cells, bytes),
            Runner::Second => own::read(state, memory, cells, bytes),
            Runner::Tuned(tuned) => tuned.read(state, lent, cells, bytes),
            Runner::Kept(tuned) => tuned.read(state, lent, cells, bytes),
        }
    }

    /// Cells and bytes written over, so that the next calls must write them.
    pub fn forget(&mut self) {
        self.cells.iter_mut().for_each(|cells| cells.fill(77));
        self.read_bytes.iter_mut().for_each(|bytes| bytes.fill(0xA5));
    }

    /// Panics unless both runs sent the same cells, read the bits brought, and have equal states and memories.
    pub fn assert_same(&self, other: &Rig) {
        let same = |holds: bool, what: &str| assert!(holds, "{}: different {what}", self.settings.hex());
        same(self.cells == other.cells, "cells");
        let brought = self.brought();
        same(self.read_bytes == brought && other.read_bytes == brought, "bits");
        same(self.sides() == other.sides(), "states or memories");
    }

    /// The bytes that a call of Read finds: in long interleaving its frames are those from four before the call's own.
    fn brought(&self) -> [Vec<u8>; 3] {
        let mut bytes = self.bytes.clone();
        if self.settings.long() {
            let frame = bytes[2].len() / 3;
            bytes[2].rotate_right(frame);
        }
        bytes
    }

    /// States, and memories as numbers whatever the program has.
    fn sides(&self) -> [([u8; STATE_BYTES], Vec<i16>); 2] {
        let numbers = |side: &Side| match self.runner {
            Runner::Second => side.memory.clone(),
            _ => MemoryElement::numbers(&side.lent),
        };
        [&self.coder, &self.reader].map(|side| (side.state, numbers(side)))
    }
}
