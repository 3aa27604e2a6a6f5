//! Random runs with puncturing tables of one's own beside the second program's (02, S-11): drm_reset_table, and Code and
//! Read with the table in a state of 208 bytes. Memory may be lent in either form.

use crate::archive::Guarded;
use crate::beside::{self, both, Seen};
use crate::damage::spoil;
use crate::draw::Draw;
use crate::lent::{Kind, Lent};
use crate::own;
use second::memory::Element;
use second::settings::{Settings, PAIRINGS};
use second::superframe::STATE_BYTES;

/// The functions of a program over an element of memory.
pub struct Coder<U: 'static> {
    /// State, settings, table, memory.
    pub reset_table: fn(&mut [u8], &[u8], &[u8], &mut [U]) -> u8,
    /// State, memory; bytes and cells in the order FAC, SDC, MSC.
    pub code: fn(&mut [u8], &mut [U], [&[u8]; 3], [&mut [i16]; 3]) -> u8,
    pub read: fn(&mut [u8], &mut [U], [&[i16]; 3], [&mut [u8]; 3]) -> u16,
}

pub fn own<U: Element>() -> Coder<U> {
    Coder {
        reset_table: own::reset_table::<U>,
        code: own::code_of::<U>,
        read: own::read_of::<U>,
    }
}

/// Super frames of a run, and changed calls beside each good one.
const SUPER_FRAMES: usize = 3;
const CHANGED_RESETS: usize = 8;
const CHANGED: usize = 4;

const KINDS: [Kind; 3] = [Kind::Reset, Kind::Code, Kind::Read];

fn possible(kind: Kind) -> Vec<u8> {
    let after: &[u8] = match kind {
        Kind::Reset => &[8],
        Kind::Code => &[8, 9, 10, 11, 12],
        _ => &[8, 9, 10, 12, 13, 14],
    };
    (0..=7).chain([23, 255]).chain(after.iter().copied()).collect()
}

/// A call; `Kind::Reset` is with a table. Memory is numbers that the form can hold.
#[derive(Clone)]
struct Call {
    kind: Kind,
    lent: Lent,
}

impl<U: Element> beside::Lent<Coder<U>> for Call {
    fn make(&mut self, program: &Coder<U>) -> Result<u16, String> {
        let lent = &mut self.lent;
        let bytes = [&lent.settings, &lent.state, &lent.table, &lent.fac, &lent.sdc, &lent.msc];
        let [mut settings, mut state, mut table, mut fac, mut sdc, mut msc] = bytes.map(|b| Guarded::new(b, 0xA5));
        let cells = [&lent.fac_cells, &lent.sdc_cells, &lent.msc_cells];
        let [mut fac_cells, mut sdc_cells, mut msc_cells] = cells.map(|b| Guarded::new(b, 0x5A5A));
        let mut elements = U::memory(&lent.memory);
        let mut memory = Guarded::new(&elements, U::GUARD);
        let answer = match self.kind {
            Kind::Code => {
                let cells = [fac_cells.lent(), sdc_cells.lent(), msc_cells.lent()];
                (program.code)(state.lent(), memory.lent(), [fac.lent(), sdc.lent(), msc.lent()], cells) as u16
            }
            Kind::Read => {
                let cells: [&[i16]; 3] = [fac_cells.lent(), sdc_cells.lent(), msc_cells.lent()];
                (program.read)(state.lent(), memory.lent(), cells, [fac.lent(), sdc.lent(), msc.lent()])
            }
            _ => (program.reset_table)(state.lent(), settings.lent(), table.lent(), memory.lent()) as u16,
        };
        settings.back("settings", &mut lent.settings)?;
        state.back("state", &mut lent.state)?;
        table.back("table", &mut lent.table)?;
        memory.back("memory", &mut elements)?;
        lent.memory = U::numbers(&elements);
        fac.back("FAC bytes", &mut lent.fac)?;
        sdc.back("SDC bytes", &mut lent.sdc)?;
        msc.back("MSC bytes", &mut lent.msc)?;
        fac_cells.back("FAC cells", &mut lent.fac_cells)?;
        sdc_cells.back("SDC cells", &mut lent.sdc_cells)?;
        msc_cells.back("MSC cells", &mut lent.msc_cells)?;
        Ok(answer)
    }

    fn difference(&self, other: &Call) -> Option<String> {
        self.lent.difference(&other.lent)
    }

    fn refusal(&self, answer: u16) -> u8 {
        self.kind.refusal(answer)
    }
}

/// Makes all calls with both programs; a line about each kind, or where they differ.
pub fn calls<U: Element>(seed: u64, own: &Coder<U>, archive: &Coder<U>) -> Result<String, String> {
    let mut run = Run { draw: Draw(seed), own, archive, seen: KINDS.map(|_| Seen::default()) };
    for pairing in PAIRINGS {
        for msc in 0..4 {
            for interleaving in 0..2 {
                let s = run.draw.settings(pairing, msc, interleaving);
                run.run(&s).map_err(|e| format!("tables, settings {}, {e}", s.hex()))?;
            }
        }
    }
    let lines: Result<Vec<String>, String> =
        KINDS.iter().zip(&run.seen).map(|(kind, seen)| seen.line(&format!("tables, {}", kind.name()), &possible(*kind))).collect();
    Ok(lines?.join("\n"))
}

struct Run<'a, U: 'static> {
    draw: Draw,
    own: &'a Coder<U>,
    archive: &'a Coder<U>,
    seen: [Seen; 3],
}

impl<U: Element> Run<'_, U> {
    /// A coder's run with one table, its reader beside it.
    fn run(&mut self, s: &Settings) -> Result<(), String> {
        let table = self.draw.table().to_vec();
        let mut coder = self.reset(s, &table)?;
        let mut reader = self.reset(s, &table)?;
        for _ in 0..SUPER_FRAMES {
            let [fac, sdc, msc] = self.draw.super_frame(s);
            let z = s.sizes();
            let numbers = [z.fac_numbers, z.sdc_numbers, z.msc_numbers];
            [coder.fac_cells, coder.sdc_cells, coder.msc_cells] = numbers.map(|n| self.draw.old_numbers(n));
            (coder.fac, coder.sdc, coder.msc) = (fac, sdc, msc);
            self.calls(Kind::Code, CHANGED, &mut coder, s)?;
            reader.fac_cells.clone_from(&coder.fac_cells);
            reader.sdc_cells.clone_from(&coder.sdc_cells);
            reader.msc_cells.clone_from(&coder.msc_cells);
            [reader.fac, reader.sdc, reader.msc] = [27, z.sdc_bytes, z.msc_bytes].map(|n| self.draw.old_bytes(n));
            self.calls(Kind::Read, CHANGED, &mut reader, s)?;
            if (&reader.fac, &reader.sdc) != (&coder.fac, &coder.sdc) {
                return Err("FAC or SDC blocks are not read back".to_string());
            }
        }
        Ok(())
    }

    fn reset(&mut self, s: &Settings, table: &[u8]) -> Result<Lent, String> {
        let (state, memory) = (self.draw.old_bytes(STATE_BYTES), self.draw.old_numbers(s.sizes().memory_numbers));
        let (settings, table) = (s.bytes().to_vec(), table.to_vec());
        let mut lent = Lent { settings, state, memory, table, ..Lent::default() };
        self.calls(Kind::Reset, CHANGED_RESETS, &mut lent, s)?;
        Ok(lent)
    }

    /// Changed calls on copies, then the good one itself.
    fn calls(&mut self, kind: Kind, changed: usize, lent: &mut Lent, s: &Settings) -> Result<(), String> {
        for _ in 0..changed {
            let mut copy = Call { kind, lent: lent.clone() };
            let changes = spoil(kind, &mut copy.lent, s, &mut self.draw);
            self.call(&mut copy, &changes.join(", "))?;
        }
        let mut call = Call { kind, lent: lent.clone() };
        let refusal = self.call(&mut call, "nothing")?;
        *lent = call.lent;
        match refusal {
            0 => Ok(()),
            n => Err(format!("a good call, {}, is refused by {n}", kind.name())),
        }
    }

    /// The refusal of one call with both programs.
    fn call(&mut self, call: &mut Call, changes: &str) -> Result<u8, String> {
        call.lent.memory = U::numbers(&U::memory(&call.lent.memory));
        let answer = both(call, self.own, self.archive)
            .map_err(|e| format!("{}, changed: {changes}: {e}", call.kind.name()))?;
        let refusal = call.kind.refusal(answer);
        let kind = KINDS.iter().position(|k| *k == call.kind).expect("one of three kinds");
        self.seen[kind].take(refusal);
        Ok(refusal)
    }
}

#[cfg(test)]
mod tests {
    use super::*;

    #[test]
    fn every_answer_occurs_in_both_forms() {
        println!("{}", calls(1, &own::<i16>(), &own::<i16>()).unwrap());
        println!("{}", calls(2, &own::<u8>(), &own::<u8>()).unwrap());
    }

    #[test]
    fn another_table_is_found() {
        /// Codes with the standard's table whatever the state has.
        fn code(state: &mut [u8], memory: &mut [u8], bytes: [&[u8]; 3], cells: [&mut [i16]; 3]) -> u8 {
            let mut other = state.to_vec();
            if let Some(table) = other.get_mut(12..).filter(|t| second::table::passes(t)) {
                table.copy_from_slice(&second::table::STANDARD);
            }
            let answer = own::code_of::<u8>(&mut other, memory, bytes, cells);
            if answer == 0 {
                state[10..12].copy_from_slice(&other[10..12]);
            }
            answer
        }
        assert!(calls(1, &own::<u8>(), &Coder { code, ..own::<u8>() }).is_err());
    }
}
