//! Random calls of drm_disperse beside the second program's own (02, S-6).

use crate::archive::Guarded;
use crate::beside::{both, Lent, Seen};
use crate::damage::{bit, length};
use crate::draw::Draw;
use crate::lent::first;

/// Treated, bits, bytes, output.
pub type Disperse = fn(u16, u16, &[u8], &mut [u8]) -> u8;

const GOOD: usize = 2000;
const CHANGED: usize = 2000;

const POSSIBLE: [u8; 4] = [0, 9, 10, 11];

#[derive(Clone)]
struct Call {
    treated: u16,
    bits: u16,
    bytes: Vec<u8>,
    out: Vec<u8>,
}

impl Lent<Disperse> for Call {
    fn make(&mut self, program: &Disperse) -> Result<u16, String> {
        let mut bytes = Guarded::new(&self.bytes, 0xA5);
        let mut out = Guarded::new(&self.out, 0xA5);
        let answer = program(self.treated, self.bits, bytes.lent(), out.lent());
        bytes.back("bytes", &mut self.bytes)?;
        out.back("output", &mut self.out)?;
        Ok(answer as u16)
    }

    fn difference(&self, other: &Call) -> Option<String> {
        first("bytes", &self.bytes, &other.bytes).or_else(|| first("output", &self.out, &other.out))
    }
}

/// Makes all calls with both programs; a line about them, or where they differ.
pub fn calls(seed: u64, own: Disperse, archive: Disperse) -> Result<String, String> {
    let mut draw = Draw(seed);
    let mut seen = Seen::default();
    for k in 0..GOOD + CHANGED {
        let mut call = good(&mut draw);
        if k >= GOOD {
            spoil(&mut call, &mut draw);
        }
        let answer = both(&mut call, &own, &archive)
            .map_err(|e| format!("disperse, {} treated, {} bits: {e}", call.treated, call.bits))?;
        if k < GOOD && answer != 0 {
            return Err(format!("disperse, {} bits: a good call is refused by {answer}", call.bits));
        }
        seen.take(answer as u8);
    }
    seen.line("disperse", &POSSIBLE)
}

/// Any number of treated bits; few bits, as many as a frame has, or any number; about the ends of both ranges too.
fn good(draw: &mut Draw) -> Call {
    let any = draw.word() as u16;
    let treated = draw.pick(&[0, 1, 510, 511, 512, 65_535, any, any, any, any % 1100]);
    let any = draw.word() as u16;
    let bits = draw.pick(&[0, 1, 7, 8, 9, 65_535, any, any % 100, any % 100, any % 28_789]);
    let bytes = if bits == 0 { Vec::new() } else { draw.blocks(bits as usize, 1) };
    Call { treated, bits, out: draw.old_bytes(bytes.len()), bytes }
}

/// One to three changes.
fn spoil(call: &mut Call, draw: &mut Draw) {
    for _ in 0..draw.pick(&[1, 1, 1, 2, 2, 3]) {
        match draw.below(6) {
            0 => length(&mut call.bytes, draw),
            1 => length(&mut call.out, draw),
            2 => call.bits = call.bits.wrapping_add(draw.pick(&[1, 65_535, 8, 7])),
            3 | 4 => {
                if let Some(last) = call.bytes.last_mut() {
                    *last |= 1 << draw.below(8);
                }
            }
            _ => bit(&mut call.bytes, draw),
        }
    }
}

#[cfg(test)]
mod tests {
    use super::*;
    use second::dispersal::disperse_packed;

    #[test]
    fn every_answer_occurs() {
        println!("{}", calls(1, disperse_packed, disperse_packed).unwrap());
    }

    #[test]
    fn another_answer_is_found() {
        /// Loses the seventeenth bit of the index.
        fn wraps(treated: u16, bits: u16, bytes: &[u8], out: &mut [u8]) -> u8 {
            let answer = disperse_packed(treated, bits, bytes, out);
            let left = 8 * (65_536 - treated as usize).div_ceil(8);
            if answer == 0 && left < bits as usize && treated % 8 == 0 {
                return disperse_packed(0, bits - left as u16, &bytes[left / 8..], &mut out[left / 8..]);
            }
            answer
        }
        assert!(calls(1, disperse_packed, wraps).is_err());
    }
}
