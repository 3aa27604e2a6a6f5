//! Random calls of drm_preview beside the second program's own (02, S-3). Memory is lent as bytes.

use crate::archive::Guarded;
use crate::beside::{self, both, Seen};
use crate::damage::{length, spoil};
use crate::draw::Draw;
use crate::lent::{first, Kind, Lent};
use crate::own;
use second::memory::Element;
use second::settings::{Settings, PAIRINGS};
use second::superframe::STATE_BYTES;

/// State, memory; bytes and cells in the order FAC, SDC, MSC; the next state.
pub type Preview = fn(&[u8], &[u8], [&[u8]; 3], [&mut [i16]; 3], &mut [u8]) -> u8;

/// Changed calls beside each good one.
const CHANGED: usize = 14;

const POSSIBLE: [u8; 15] = [0, 1, 2, 3, 4, 5, 6, 7, 23, 8, 9, 10, 11, 12, 255];

/// A call; memory is numbers that bytes can hold.
#[derive(Clone)]
struct Call {
    lent: Lent,
    next: Vec<u8>,
}

impl beside::Lent<Preview> for Call {
    fn make(&mut self, program: &Preview) -> Result<u16, String> {
        let lent = &mut self.lent;
        let mut elements = u8::memory(&lent.memory);
        let bytes = [&lent.state, &elements, &lent.fac, &lent.sdc, &lent.msc, &self.next];
        let [mut state, mut memory, mut fac, mut sdc, mut msc, mut next] = bytes.map(|b| Guarded::new(b, 0xA5));
        let cells = [&lent.fac_cells, &lent.sdc_cells, &lent.msc_cells];
        let [mut fac_cells, mut sdc_cells, mut msc_cells] = cells.map(|b| Guarded::new(b, 0x5A5A));
        let bits: [&[u8]; 3] = [fac.lent(), sdc.lent(), msc.lent()];
        let cells = [fac_cells.lent(), sdc_cells.lent(), msc_cells.lent()];
        let answer = program(state.lent(), memory.lent(), bits, cells, next.lent());
        state.back("state", &mut lent.state)?;
        memory.back("memory", &mut elements)?;
        lent.memory = u8::numbers(&elements);
        fac.back("FAC bytes", &mut lent.fac)?;
        sdc.back("SDC bytes", &mut lent.sdc)?;
        msc.back("MSC bytes", &mut lent.msc)?;
        fac_cells.back("FAC cells", &mut lent.fac_cells)?;
        sdc_cells.back("SDC cells", &mut lent.sdc_cells)?;
        msc_cells.back("MSC cells", &mut lent.msc_cells)?;
        next.back("next", &mut self.next)?;
        Ok(answer as u16)
    }

    fn difference(&self, other: &Call) -> Option<String> {
        self.lent.difference(&other.lent).or_else(|| first("next", &self.next, &other.next))
    }
}

/// Makes all calls with both programs; a line about them, or where they differ.
pub fn calls(seed: u64, own: Preview, archive: Preview) -> Result<String, String> {
    let mut draw = Draw(seed);
    let mut seen = Seen::default();
    for pairing in PAIRINGS {
        for msc in 0..4 {
            for interleaving in 0..2 {
                let s = draw.settings(pairing, msc, interleaving);
                let good = drawn(&s, &mut draw);
                for k in 0..=CHANGED {
                    let mut call = good.clone();
                    let changes = if k < CHANGED { change(&mut call, &s, &mut draw) } else { Vec::new() };
                    call.lent.memory = u8::numbers(&u8::memory(&call.lent.memory));
                    let answer = both(&mut call, &own, &archive)
                        .map_err(|e| format!("preview, settings {}, changed: {}: {e}", s.hex(), changes.join(", ")))?;
                    if k == CHANGED && answer != 0 {
                        return Err(format!("preview, settings {}: a good call is refused by {answer}", s.hex()));
                    }
                    seen.take(answer as u8);
                }
            }
        }
    }
    seen.line("preview", &POSSIBLE)
}

/// A coder after some super frames, and the bits of the next.
fn drawn(s: &Settings, draw: &mut Draw) -> Call {
    let z = s.sizes();
    let (mut state, mut memory) = (vec![0; STATE_BYTES], vec![0; z.memory_numbers / 2]);
    assert_eq!(own::reset_table::<u8>(&mut state, &s.bytes(), &draw.table(), &mut memory), 0);
    let numbers = [z.fac_numbers, z.sdc_numbers, z.msc_numbers];
    let mut cells = numbers.map(|n| draw.old_numbers(n));
    for _ in 0..draw.below(4) {
        let (bytes, cells) = (draw.super_frame(s), cells.each_mut().map(|c| c.as_mut_slice()));
        let bytes = bytes.each_ref().map(|b| b.as_slice());
        assert_eq!(own::code_of::<u8>(&mut state, &mut memory, bytes, cells), 0);
    }
    let [fac, sdc, msc] = draw.super_frame(s);
    let [fac_cells, sdc_cells, msc_cells] = numbers.map(|n| draw.old_numbers(n));
    let memory = u8::numbers(&memory);
    let lent = Lent { state, memory, fac, sdc, msc, fac_cells, sdc_cells, msc_cells, ..Lent::default() };
    Call { lent, next: draw.old_bytes(STATE_BYTES) }
}

/// One to three changes of Code's, now and then with a wrong length of the next state.
fn change(call: &mut Call, s: &Settings, draw: &mut Draw) -> Vec<&'static str> {
    let mut changes = spoil(Kind::Code, &mut call.lent, s, draw);
    if draw.below(8) == 0 {
        length(&mut call.next, draw);
        changes.push("length of next");
    }
    changes
}

#[cfg(test)]
mod tests {
    use super::*;

    #[test]
    fn every_answer_occurs() {
        println!("{}", calls(1, own::preview, own::preview).unwrap());
    }

    #[test]
    fn another_answer_is_found() {
        /// The old state in place of the next one.
        fn wrong(state: &[u8], memory: &[u8], bytes: [&[u8]; 3], cells: [&mut [i16]; 3], next: &mut [u8]) -> u8 {
            let answer = own::preview(state, memory, bytes, cells, next);
            if answer == 0 {
                next.copy_from_slice(state);
            }
            answer
        }
        assert!(calls(1, own::preview, wrong).is_err());
    }
}
