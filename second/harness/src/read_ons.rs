//! Random runs of drm_read_on beside the second program's own (02, S-13), over spoiled cells. Memory is lent as bytes.

use crate::archive::Guarded;
use crate::beside::{self, both, Seen};
use crate::damage::{length, spoil, spoil_cells};
use crate::draw::Draw;
use crate::lent::{first, Kind, Lent};
use crate::own;
use second::memory::Element;
use second::read_on::LOST_BYTES;
use second::settings::{Settings, PAIRINGS};
use second::superframe::STATE_BYTES;

/// State, memory; cells and bytes in the order FAC, SDC, MSC; the lost ones.
pub type ReadOn = fn(&mut [u8], &mut [u8], [&[i16]; 3], [&mut [u8]; 3], &mut [u8]) -> u16;

/// Super frames of a run, and changed calls beside each good one.
const SUPER_FRAMES: usize = 5;
const CHANGED: usize = 6;

const POSSIBLE: [u8; 14] = [0, 1, 2, 3, 4, 5, 6, 7, 23, 8, 9, 10, 12, 255];

/// A call; memory is numbers that bytes can hold.
#[derive(Clone)]
struct Call {
    lent: Lent,
    lost: Vec<u8>,
}

impl beside::Lent<ReadOn> for Call {
    fn make(&mut self, program: &ReadOn) -> Result<u16, String> {
        let lent = &mut self.lent;
        let mut elements = u8::memory(&lent.memory);
        let bytes = [&lent.state, &elements, &lent.fac, &lent.sdc, &lent.msc, &self.lost];
        let [mut state, mut memory, mut fac, mut sdc, mut msc, mut lost] = bytes.map(|b| Guarded::new(b, 0xA5));
        let cells = [&lent.fac_cells, &lent.sdc_cells, &lent.msc_cells];
        let [mut fac_cells, mut sdc_cells, mut msc_cells] = cells.map(|b| Guarded::new(b, 0x5A5A));
        let cells: [&[i16]; 3] = [fac_cells.lent(), sdc_cells.lent(), msc_cells.lent()];
        let bits = [fac.lent(), sdc.lent(), msc.lent()];
        let answer = program(state.lent(), memory.lent(), cells, bits, lost.lent());
        state.back("state", &mut lent.state)?;
        memory.back("memory", &mut elements)?;
        lent.memory = u8::numbers(&elements);
        fac.back("FAC bytes", &mut lent.fac)?;
        sdc.back("SDC bytes", &mut lent.sdc)?;
        msc.back("MSC bytes", &mut lent.msc)?;
        fac_cells.back("FAC cells", &mut lent.fac_cells)?;
        sdc_cells.back("SDC cells", &mut lent.sdc_cells)?;
        msc_cells.back("MSC cells", &mut lent.msc_cells)?;
        lost.back("lost", &mut self.lost)?;
        Ok(answer)
    }

    fn difference(&self, other: &Call) -> Option<String> {
        self.lent.difference(&other.lent).or_else(|| first("lost", &self.lost, &other.lost))
    }

    fn refusal(&self, answer: u16) -> u8 {
        Kind::Read.refusal(answer)
    }
}

/// Makes all calls with both programs; a line about them, or where they differ.
pub fn calls(seed: u64, own: ReadOn, archive: ReadOn) -> Result<String, String> {
    let mut run = Run { draw: Draw(seed), own, archive, seen: Seen::default(), lost: [0; LOST_BYTES], finished: [0; 4] };
    for pairing in PAIRINGS {
        for msc in 0..4 {
            for interleaving in 0..2 {
                let s = run.draw.settings(pairing, msc, interleaving);
                run.run(&s).map_err(|e| format!("read on, settings {}, {e}", s.hex()))?;
            }
        }
    }
    if run.lost.contains(&0) || run.finished.contains(&0) {
        return Err(format!("read on: lost {:?}, finished frames 0 to 3 {:?}", run.lost, run.finished));
    }
    let line = run.seen.line("read_on", &POSSIBLE)?;
    Ok(format!("{line}; lost {:?}, finished frames 0 to 3 {:?}", run.lost, run.finished))
}

struct Run {
    draw: Draw,
    own: ReadOn,
    archive: ReadOn,
    seen: Seen,
    /// How often each of the seven was lost, and each number of frames finished.
    lost: [u32; LOST_BYTES],
    finished: [u32; 4],
}

impl Run {
    /// A coder's run, its cells spoiled now and then, and this reading of them.
    fn run(&mut self, s: &Settings) -> Result<(), String> {
        let z = s.sizes();
        let table = self.draw.table();
        let (mut state, mut memory) = (vec![0; STATE_BYTES], vec![0; z.memory_numbers / 2]);
        assert_eq!(own::reset_table::<u8>(&mut state, &s.bytes(), &table, &mut memory), 0);
        let mut call = Call { lent: Lent::default(), lost: Vec::new() };
        (call.lent.state, call.lent.memory) = (state.clone(), u8::numbers(&memory));
        for _ in 0..SUPER_FRAMES {
            let mut cells = [z.fac_numbers, z.sdc_numbers, z.msc_numbers].map(|n| vec![0; n]);
            let bytes = self.draw.super_frame(s);
            let sent = cells.each_mut().map(|c| c.as_mut_slice());
            let brought = bytes.each_ref().map(|b| b.as_slice());
            assert_eq!(own::code_of::<u8>(&mut state, &mut memory, brought, sent), 0);
            [call.lent.fac_cells, call.lent.sdc_cells, call.lent.msc_cells] = cells;
            spoil_cells(&mut call.lent, s, &mut self.draw);
            let old = [27, z.sdc_bytes, z.msc_bytes].map(|n| self.draw.old_bytes(n));
            [call.lent.fac, call.lent.sdc, call.lent.msc] = old;
            call.lost = self.draw.old_bytes(LOST_BYTES);
            self.good(&mut call, s)?;
        }
        Ok(())
    }

    /// Changed calls on copies, then the one itself, which is always accepted.
    fn good(&mut self, call: &mut Call, s: &Settings) -> Result<(), String> {
        for _ in 0..CHANGED {
            let mut copy = call.clone();
            let mut changes = spoil(Kind::Read, &mut copy.lent, s, &mut self.draw);
            if self.draw.below(8) == 0 {
                length(&mut copy.lost, &mut self.draw);
                changes.push("length of lost");
            }
            copy.lent.memory = u8::numbers(&u8::memory(&copy.lent.memory));
            self.call(&mut copy, &changes.join(", "))?;
        }
        match self.call(call, "cells at most")? {
            0 => Ok(()),
            n => Err(format!("a good call is refused by {n}")),
        }
    }

    fn call(&mut self, call: &mut Call, changes: &str) -> Result<u8, String> {
        let answer = both(call, &self.own, &self.archive).map_err(|e| format!("changed: {changes}: {e}"))?;
        let refusal = Kind::Read.refusal(answer);
        self.seen.take(refusal);
        if refusal == 0 {
            self.finished[answer as usize] += 1;
            self.lost.iter_mut().zip(&call.lost).for_each(|(n, lost)| *n += *lost as u32);
        }
        Ok(refusal)
    }
}

#[cfg(test)]
mod tests {
    use super::*;

    #[test]
    fn every_answer_occurs() {
        println!("{}", calls(1, own::read_on, own::read_on).unwrap());
    }

    #[test]
    fn another_answer_is_found() {
        /// Leaves lost frames out of the count.
        fn wrong(state: &mut [u8], memory: &mut [u8], cells: [&[i16]; 3], bytes: [&mut [u8]; 3], lost: &mut [u8]) -> u16 {
            match own::read_on(state, memory, cells, bytes, lost) {
                n @ 1..=3 => n - lost[4..].iter().map(|l| *l as u16).sum::<u16>(),
                n => n,
            }
        }
        assert!(calls(1, own::read_on, wrong).is_err());
    }
}
