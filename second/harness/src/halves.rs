//! Frames in two halves, treated by drm_disperse piece by piece, beside the second program's whole frames (02, S-6).

use crate::disperse::Disperse;
use crate::draw::Draw;
use second::dispersal::disperse;
use second::packing::{pack, unpack};
use second::settings::{Settings, PAIRINGS};

/// Cuts of a frame for each pairing and MSC mode.
const CUTS: usize = 12;

/// Cuts frames of all pairings and MSC modes; a line about them, or where the halves differ from the whole.
pub fn frames(seed: u64, step: Disperse) -> Result<String, String> {
    let mut draw = Draw(seed);
    let mut frames = 0;
    for pairing in PAIRINGS {
        for msc in 0..4 {
            let s = draw.settings(pairing, msc, 0);
            for _ in 0..CUTS {
                cut(&s, step, &mut draw)?;
                frames += 1;
            }
        }
    }
    Ok(format!("halves: {frames} frames"))
}

/// A frame cut at its ends, at or beside the end of its VSPP, or anywhere.
fn cut(s: &Settings, step: Disperse, draw: &mut Draw) -> Result<(), String> {
    let (n, vspp) = (s.lengths().frame_bits(), s.lengths().vspp);
    let mut frame = vec![0; n];
    unpack(&draw.blocks(n, 1), &mut frame);
    let any = draw.below(n + 1);
    let cut = draw.pick(&[0, n, vspp, vspp.saturating_sub(1), vspp + 1, any, any, any, any]);
    let mut joined = half(step, vspp, 0, &frame[..cut])?;
    joined.extend(half(step, vspp, cut, &frame[cut..])?);
    let (front, rest) = frame.split_at_mut(vspp);
    disperse(front);
    disperse(rest);
    match joined == frame {
        true => Ok(()),
        false => Err(format!("a frame of {} cut at bit {cut} is treated otherwise than the whole", s.hex())),
    }
}

/// A half that begins at bit c of its frame: VSPP bits go on from c, the others from 0, or from where they are past the VSPP.
fn half(step: Disperse, vspp: usize, c: usize, bits: &[u8]) -> Result<Vec<u8>, String> {
    let (front, rest) = bits.split_at(vspp.saturating_sub(c).min(bits.len()));
    let mut treated = piece(step, c, front)?;
    treated.extend(piece(step, c.saturating_sub(vspp), rest)?);
    Ok(treated)
}

/// Bits packed from the start of a byte, treated, and unpacked again.
fn piece(step: Disperse, treated: usize, bits: &[u8]) -> Result<Vec<u8>, String> {
    let mut bytes = vec![0; bits.len().div_ceil(8)];
    pack(bits, &mut bytes);
    let mut out = vec![0xA5; bytes.len()];
    match step(treated as u16, bits.len() as u16, &bytes, &mut out) {
        0 => {
            let mut after = vec![0; bits.len()];
            unpack(&out, &mut after);
            Ok(after)
        }
        n => Err(format!("{} bits of a frame, {treated} treated, are refused by {n}", bits.len())),
    }
}

#[cfg(test)]
mod tests {
    use super::*;
    use second::dispersal::disperse_packed;

    #[test]
    fn halves_are_whole() {
        println!("{}", frames(1, disperse_packed).unwrap());
    }

    #[test]
    fn a_step_that_starts_anew_is_found() {
        fn anew(_: u16, bits: u16, bytes: &[u8], out: &mut [u8]) -> u8 {
            disperse_packed(0, bits, bytes, out)
        }
        assert!(frames(1, anew).is_err());
    }
}
