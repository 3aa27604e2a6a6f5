//! The archive's answers to the drivers of `runs`, `counts` and `refusals`; nothing here comes from the second program.

use crate::archive;
use second::buffers::{BitBuffers, CellBuffers};
use second::calls::{Calls, Side};
use second::forms::MemoryElement;
use second::memory::Element;
use second::superframe::Answer;

pub struct Archive;

/// Makes a call with memory in the form that is lent.
fn with_memory<T>(side: &mut Side, call: impl FnOnce(&mut [u8], &mut [MemoryElement]) -> T) -> T {
    let mut memory = MemoryElement::memory(&side.memory);
    let answer = call(&mut side.state, &mut memory);
    side.memory = MemoryElement::numbers(&memory);
    answer
}

impl Calls for Archive {
    fn lengths(&self, settings: &[u8; 10], lengths: &mut [u16; 5]) -> u8 {
        archive::lengths(settings, lengths)
    }

    fn sizes(&self, settings: &[u8; 10], sizes: &mut [u32; 6]) -> u8 {
        archive::sizes(settings, sizes)
    }

    fn reset(&self, side: &mut Side, settings: &[u8; 10]) -> u8 {
        with_memory(side, |state, memory| archive::reset(state, settings, memory))
    }

    fn code(&self, side: &mut Side, bits: &BitBuffers, cells: &mut CellBuffers) -> u8 {
        let cells = [&mut cells.fac[..], &mut cells.sdc, &mut cells.msc];
        with_memory(side, |state, memory| archive::code(state, memory, [&bits.fac, &bits.sdc, &bits.msc], cells))
    }

    fn read(&self, side: &mut Side, cells: &CellBuffers, bits: &mut BitBuffers) -> Answer {
        let bytes = [&mut bits.fac[..], &mut bits.sdc, &mut bits.msc];
        let cells = [&cells.fac[..], &cells.sdc, &cells.msc];
        let answer = with_memory(side, |state, memory| archive::read(state, memory, cells, bytes));
        match answer.to_be_bytes() {
            [0, finished] => Answer::Finished(finished),
            [number, block] => Answer::Refused { number, block },
        }
    }
}
