//! How long a number of bytes takes (02, S-14): by formula in wide integers, and by counting frame after frame.

use crate::settings::Settings;

/// Super frames of zero MSC bits that close a run.
pub const CLOSING: u64 = 2;
/// Multiplex frames of a super frame.
const FRAMES: u64 = 3;

/// Super frames needed with the closing, bytes of memory, zero bits after the last byte in its frame.
pub fn by_formula(s: &Settings, bytes: u32) -> [u64; 3] {
    let (n, l2) = (bytes as u64, s.lengths().l2 as u64);
    let whole = l2 / 8;
    let frames = n.div_ceil(whole);
    let zero_bits = if n == 0 { 0 } else { l2 - 8 * (n - (frames - 1) * whole) };
    [frames.div_ceil(FRAMES) + CLOSING, memory_bytes(s), zero_bits]
}

/// The same by putting bytes into frames until none are left.
pub fn by_counting(s: &Settings, bytes: u32) -> [u64; 3] {
    let l2 = s.lengths().l2 as u64;
    let (mut left, mut super_frames, mut frames, mut zero_bits) = (bytes as u64, 0, 0, 0);
    while left > 0 {
        let put = left.min(l2 / 8);
        left -= put;
        zero_bits = l2 - 8 * put;
        if frames % FRAMES == 0 {
            super_frames += 1;
        }
        frames += 1;
    }
    [super_frames + CLOSING, memory_bytes(s), zero_bits]
}

/// One byte for each cell of each slot.
fn memory_bytes(s: &Settings) -> u64 {
    (s.slots() * s.n_mux()) as u64
}

/// Writes the three numbers; 0, or the refusal, with nothing written.
pub fn how_long(s: &Settings, bytes: u32, numbers: &mut [u32]) -> u8 {
    if s.refusal() != 0 {
        return s.refusal();
    }
    if numbers.len() != 3 {
        return 10;
    }
    if s.x > 0 || s.hierarchical() {
        return 27;
    }
    numbers.copy_from_slice(&by_formula(s, bytes).map(|n| n as u32));
    0
}

#[cfg(test)]
mod tests {
    use super::*;
    use crate::buffers::{code_buffers, old_memory, read_buffers, BitBuffers, CellBuffers};
    use crate::digest::Random;
    use crate::settings::{HMMIX, HMSYM, PAIRINGS, SM16, SM64};
    use crate::streams;
    use crate::superframe::{reset, Answer, State};

    /// All settings that 27 lets pass, but for the level of part A and the SDC mode, which play no part.
    fn all() -> Vec<Settings> {
        let mut all = Vec::new();
        for (mode, occupancy) in PAIRINGS {
            for (msc, levels) in [(SM64, 4), (SM16, 2)] {
                for level_b in 0..levels {
                    for interleaving in 0..2 {
                        all.push(Settings { mode, occupancy, msc, level_b, interleaving, ..Settings::default() });
                    }
                }
            }
        }
        all
    }

    #[test]
    fn formula_and_counting_agree() {
        for s in all() {
            let whole = (s.lengths().l2 / 8) as u32;
            let near = [1, 2, 3, 4, 6, 7, 100, 1000].map(|k| [k * whole - 1, k * whole, k * whole + 1]);
            for n in (0..3000).step_by(7).chain(near.concat()).chain([1, 65_535, 65_536, 1_000_000]) {
                assert_eq!(by_formula(&s, n), by_counting(&s, n), "{s:?} {n}");
            }
        }
        for s in all().into_iter().step_by(41) {
            for n in [u32::MAX, u32::MAX - 1, 1 << 31] {
                assert_eq!(by_formula(&s, n), by_counting(&s, n));
            }
        }
    }

    /// B/3, 64-QAM SM, B level 1 has L2 = 8390 (01, Cases): 1048 bytes a frame and 6 bits; 2337 cells a frame.
    #[test]
    fn numbers_by_hand() {
        let s = Settings { mode: 1, occupancy: 3, level_b: 1, ..Settings::default() };
        let mut numbers = [7; 3];
        let cases = [
            (0, [2, 11_685, 0]),
            (1, [3, 11_685, 8382]),
            (1048, [3, 11_685, 6]),
            (1049, [3, 11_685, 8382]),
            (3144, [3, 11_685, 6]),
            (3145, [4, 11_685, 8382]),
        ];
        for (n, right) in cases {
            assert_eq!((how_long(&s, n, &mut numbers), numbers), (0, right));
        }
        let short = Settings { interleaving: 1, ..s };
        assert_eq!((how_long(&short, 0, &mut numbers), numbers), (0, [2, 2337, 0]));
    }

    /// The greatest of each number over all settings and counts, from the least and greatest L2 and N_MUX.
    #[test]
    fn greatest_numbers() {
        let greatest = |k: usize, n: u32| all().iter().map(|s| by_formula(s, n)[k]).max();
        assert_eq!(greatest(0, u32::MAX), Some(5_965_235));
        assert_eq!((greatest(1, 1), greatest(2, 1)), (Some(30_590), Some(28_780)));
    }

    #[test]
    fn refusals_in_order() {
        let s = Settings { x: 65_535, msc: HMSYM, ..Settings::default() };
        assert_eq!(how_long(&s, 5, &mut [0; 2]), 7);
        let s = Settings { x: 1, ..Settings::default() };
        assert_eq!(how_long(&s, 5, &mut [0; 4]), 10);
        assert_eq!(how_long(&s, 5, &mut [0; 3]), 27);
        for msc in [HMMIX, HMSYM] {
            assert_eq!(how_long(&Settings { msc, ..Settings::default() }, 5, &mut [0; 3]), 27);
        }
    }

    /// Bytes cut into pieces and built into frames, frames of zero bits up to a multiple of three, and the closing's six;
    /// with the zero bits after the last byte.
    fn frames(s: &Settings, bytes: &[u8]) -> (Vec<Vec<u8>>, usize) {
        let l2 = s.lengths().l2;
        let (mut frames, mut zero_bits) = (Vec::new(), 0);
        for piece in bytes.chunks(l2 / 8) {
            let mut frame = vec![0xFF; l2.div_ceil(8)];
            assert_eq!(streams::build(s, &[0, piece.len() as u16], piece, &mut frame), 0);
            zero_bits = l2 - 8 * piece.len();
            frames.push(frame);
        }
        while frames.len() % 3 != 0 {
            frames.push(vec![0; l2.div_ceil(8)]);
        }
        frames.extend(vec![vec![0; l2.div_ceil(8)]; 6]);
        (frames, zero_bits)
    }

    /// Codes and reads; the number of calls and all frames that were handed out.
    fn on_air(s: &Settings, frames: &[Vec<u8>], memory: &mut [i16]) -> (u64, Vec<u8>) {
        let (mut coder, mut reader) = (State::default(), State::default());
        let mut reader_memory = memory.to_vec();
        (coder, _) = reset(coder, *s, memory);
        (reader, _) = reset(reader, *s, &mut reader_memory);
        let (mut calls, mut out) = (0, Vec::new());
        for three in frames.chunks(3) {
            let mut bits = BitBuffers::random(s, &mut Random(calls as u32), false);
            bits.msc = three.concat();
            let mut cells = CellBuffers::filled(s, 0);
            assert_eq!(code_buffers(&mut coder, memory, &bits, &mut cells), 0);
            calls += 1;
            let Answer::Finished(n) = read_buffers(&mut reader, &mut reader_memory, &cells, &mut bits) else { panic!() };
            out.extend(&bits.msc[..n as usize * three[0].len()]);
        }
        (calls, out)
    }

    #[test]
    fn as_many_as_coding_takes() {
        let mut random = Random(14);
        for (k, s) in all().into_iter().step_by(13).enumerate() {
            let whole = s.lengths().l2 / 8;
            for n in [0, 1, whole * (k % 5), whole * 3 + 1, whole * (k % 4 + 1) - 1] {
                let bytes: Vec<u8> = (0..n).map(|_| random.byte()).collect();
                let (frames, zero_bits) = frames(&s, &bytes);
                let mut memory = old_memory(&s);
                let (calls, out) = on_air(&s, &frames, &mut memory);
                let cells = memory.len() as u64 / 2;
                assert_eq!(by_formula(&s, n as u32), [calls, cells, zero_bits as u64]);
                let frame_bytes = s.lengths().l2.div_ceil(8);
                let got: Vec<u8> = out.chunks(frame_bytes).flat_map(|f| &f[..whole]).copied().take(n).collect();
                assert_eq!(got, bytes);
            }
        }
    }
}
