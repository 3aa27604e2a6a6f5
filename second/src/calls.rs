//! The calls made by the drivers of `runs`, `counts` and `refusals`, and this program's own answers to them.
//!
//! The drivers go over the trait alone, so that another program can be run through the same calls.

use crate::buffers::{code_buffers, old_memory, read_buffers, BitBuffers, CellBuffers};
use crate::settings::Settings;
use crate::superframe::{reset, Answer, State, STATE_BYTES};
use std::io;

/// Where position and count stand in a state, after the ten bytes of the settings.
pub const POSITION: usize = 10;
pub const COUNT: usize = 11;

/// A coder or a reader: its state and its memory.
#[derive(Clone, PartialEq)]
pub struct Side {
    pub state: [u8; STATE_BYTES],
    /// As numbers, whatever the calls are lent.
    pub memory: Vec<i16>,
}

/// What a program has to answer: 0 or the number of the refusal. A refused call leaves all that it is lent as it was.
pub trait Calls {
    /// Writes N1, N2, L1, L2, L_VSPP.
    fn lengths(&self, settings: &[u8; 10], lengths: &mut [u16; 5]) -> u8;
    /// Writes SDC bytes, MSC bytes, FAC numbers, SDC numbers, MSC numbers, elements of memory.
    fn sizes(&self, settings: &[u8; 10], sizes: &mut [u32; 6]) -> u8;
    fn reset(&self, side: &mut Side, settings: &[u8; 10]) -> u8;
    fn code(&self, side: &mut Side, bits: &BitBuffers, cells: &mut CellBuffers) -> u8;
    fn read(&self, side: &mut Side, cells: &CellBuffers, bits: &mut BitBuffers) -> Answer;
}

impl Side {
    /// A coder or reader just after an accepted Reset, which had something to clear.
    pub fn fresh(calls: &impl Calls, s: &Settings) -> io::Result<Side> {
        let mut side = Side { state: [0; STATE_BYTES], memory: old_memory(s) };
        let answer = calls.reset(&mut side, &s.bytes());
        must(answer == 0, || format!("Reset answers {answer} instead of 0"))?;
        Ok(side)
    }
}

/// An error in words unless the condition holds.
pub fn must(holds: bool, words: impl FnOnce() -> String) -> io::Result<()> {
    if holds { Ok(()) } else { Err(io::Error::other(words())) }
}

/// Puts the place of an error before its words.
pub fn at<T>(result: io::Result<T>, place: impl FnOnce() -> String) -> io::Result<T> {
    result.map_err(|e| io::Error::other(format!("{}: {e}", place())))
}

/// An answer of Read: the number of finished frames, or `number.block`.
pub fn words(answer: Answer) -> String {
    match answer {
        Answer::Finished(n) => n.to_string(),
        Answer::Refused { number, block } => format!("{number}.{block}"),
    }
}

/// This program's own answers.
pub struct Own;

impl Own {
    /// Makes a call with the state in this program's form.
    fn with_state<T>(side: &mut Side, call: impl FnOnce(&mut State, &mut [i16]) -> T) -> T {
        let mut state = State::from_bytes(side.state);
        let answer = call(&mut state, &mut side.memory);
        side.state = state.bytes();
        answer
    }
}

impl Calls for Own {
    fn lengths(&self, settings: &[u8; 10], lengths: &mut [u16; 5]) -> u8 {
        let s = Settings::from_bytes(*settings);
        if s.refusal() == 0 {
            let l = s.lengths();
            *lengths = [l.n1, l.n2, l.l1, l.l2, l.vspp].map(|v| v as u16);
        }
        s.refusal()
    }

    fn sizes(&self, settings: &[u8; 10], sizes: &mut [u32; 6]) -> u8 {
        let s = Settings::from_bytes(*settings);
        if s.refusal() == 0 {
            let z = s.sizes();
            let all = [z.sdc_bytes, z.msc_bytes, z.fac_numbers, z.sdc_numbers, z.msc_numbers, z.memory_lent()];
            *sizes = all.map(|v| v as u32);
        }
        s.refusal()
    }

    fn reset(&self, side: &mut Side, settings: &[u8; 10]) -> u8 {
        Own::with_state(side, |state, memory| {
            let (next, answer) = reset(*state, Settings::from_bytes(*settings), memory);
            *state = next;
            answer
        })
    }

    fn code(&self, side: &mut Side, bits: &BitBuffers, cells: &mut CellBuffers) -> u8 {
        Own::with_state(side, |state, memory| code_buffers(state, memory, bits, cells))
    }

    fn read(&self, side: &mut Side, cells: &CellBuffers, bits: &mut BitBuffers) -> Answer {
        Own::with_state(side, |state, memory| read_buffers(state, memory, cells, bits))
    }
}
