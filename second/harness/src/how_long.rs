//! Random calls of drm_how_long beside the second program's own (02, S-14).

use crate::archive::Guarded;
use crate::beside::{both, Lent, Seen};
use crate::damage::{last_settings, length, put_x, setting};
use crate::draw::Draw;
use crate::lent::first;
use second::settings::{Settings, PAIRINGS, SM16, SM64};

/// Settings, bytes, the three numbers.
pub type HowLong = fn(&[u8], u32, &mut [u32]) -> u8;

/// Good calls with each pairing and interleaving, and changed calls beside them.
const GOOD: usize = 60;
const CHANGED: usize = 40;

const POSSIBLE: [u8; 11] = [0, 1, 2, 3, 4, 5, 6, 7, 10, 27, 255];

#[derive(Clone)]
struct Call {
    settings: Vec<u8>,
    bytes: u32,
    numbers: Vec<u32>,
}

impl Lent<HowLong> for Call {
    fn make(&mut self, program: &HowLong) -> Result<u16, String> {
        let mut settings = Guarded::new(&self.settings, 0xA5);
        let mut numbers = Guarded::new(&self.numbers, 0xA5A5A5A5);
        let answer = program(settings.lent(), self.bytes, numbers.lent());
        settings.back("settings", &mut self.settings)?;
        numbers.back("numbers", &mut self.numbers)?;
        Ok(answer as u16)
    }

    fn difference(&self, other: &Call) -> Option<String> {
        first("settings", &self.settings, &other.settings).or_else(|| first("numbers", &self.numbers, &other.numbers))
    }
}

/// Makes all calls with both programs; a line about them, or where they differ.
pub fn calls(seed: u64, own: HowLong, archive: HowLong) -> Result<String, String> {
    let mut draw = Draw(seed);
    let mut seen = Seen::default();
    for (pairing, interleaving) in PAIRINGS.into_iter().flat_map(|p| [(p, 0), (p, 1)]) {
        for k in 0..GOOD + CHANGED {
            let msc = draw.pick(&[SM64, SM16]);
            let s = Settings { x: 0, ..draw.settings(pairing, msc, interleaving) };
            let numbers = (0..3).map(|_| draw.word() as u32).collect();
            let mut call = Call { settings: s.bytes().to_vec(), bytes: bytes(&s, &mut draw), numbers };
            if k >= GOOD {
                spoil(&mut call, &mut draw);
            }
            let answer = both(&mut call, &own, &archive)
                .map_err(|e| format!("how long, settings {:02X?}, {} bytes: {e}", call.settings, call.bytes))?;
            if k < GOOD && answer != 0 {
                return Err(format!("how long, settings {}: a good call is refused by {answer}", s.hex()));
            }
            seen.take(answer as u8);
        }
    }
    seen.line("how_long", &POSSIBLE)
}

/// None, few, about a multiple of a frame's whole bytes, about the greatest number, or any.
fn bytes(s: &Settings, draw: &mut Draw) -> u32 {
    let whole = s.lengths().l2 as u32 / 8;
    let frames = draw.below((u32::MAX / whole) as usize + 1) as u32;
    let beside = draw.below(3) as u32;
    let multiple = draw.pick(&[frames, frames % 100, frames % 7]) * whole;
    let any = draw.word() as u32;
    draw.pick(&[0, 1, multiple.wrapping_add(beside).wrapping_sub(1), multiple, any, any % 70_000, u32::MAX - beside])
}

/// One to three changes.
fn spoil(call: &mut Call, draw: &mut Draw) {
    for _ in 0..draw.pick(&[1, 1, 1, 2, 2, 3]) {
        match draw.below(7) {
            0 => length(&mut call.settings, draw),
            1 => setting(&mut call.settings, draw),
            2 => put_x(&mut call.settings, draw),
            3 => last_settings(&mut call.settings, draw),
            4 => length(&mut call.numbers, draw),
            5 => {
                if let Some(msc) = call.settings.get_mut(2) {
                    *msc = draw.pick(&[1, 2]);
                }
            }
            _ => {
                if let Some(x) = call.settings.get_mut(6..8) {
                    x.copy_from_slice(&[0, draw.byte()]);
                }
            }
        }
    }
}

#[cfg(test)]
mod tests {
    use super::*;
    use crate::own;

    #[test]
    fn every_answer_occurs() {
        println!("{}", calls(1, own::how_long, own::how_long).unwrap());
    }

    #[test]
    fn another_answer_is_found() {
        /// One frame more at exact multiples.
        fn wrong(settings: &[u8], bytes: u32, numbers: &mut [u32]) -> u8 {
            own::how_long(settings, bytes.saturating_add(1), numbers)
        }
        assert!(calls(1, own::how_long, wrong).is_err());
    }
}
