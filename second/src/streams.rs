//! Logical frames into multiplex frames and back (02, S-8): clauses 6.2.3 and 6.4.3.1 of the standard.

use crate::packing::{pack, spare_bit_set, unpack};
use crate::settings::Settings;

/// Most streams of a multiplex.
pub const MOST_STREAMS: usize = 4;

/// Bytes that one stream has in a frame.
#[derive(Clone, Copy, PartialEq, Eq, Debug)]
struct Stream {
    a: usize,
    b: usize,
}

/// A multiplex description under given settings.
#[derive(Clone, PartialEq, Eq, Debug)]
struct Description {
    /// Bytes of the hierarchical frame, which stream 0 gives in MSC modes 1 and 2.
    hierarchical: usize,
    /// The streams that go into the multiplex frame, in the order of their numbers.
    streams: Vec<Stream>,
}

impl Description {
    /// Two numbers a stream, for one to four streams.
    fn new(s: &Settings, numbers: &[u16]) -> Option<Description> {
        if numbers.len() % 2 != 0 || !(1..=MOST_STREAMS).contains(&(numbers.len() / 2)) {
            return None;
        }
        let pairs = numbers.chunks(2).map(|n| Stream { a: n[0] as usize, b: n[1] as usize });
        let mut streams: Vec<Stream> = pairs.collect();
        let hierarchical = if s.hierarchical() { streams.remove(0).b } else { 0 };
        Some(Description { hierarchical, streams })
    }

    fn bytes_a(&self) -> usize {
        self.streams.iter().map(|s| s.a).sum()
    }

    fn bytes_b(&self) -> usize {
        self.streams.iter().map(|s| s.b).sum()
    }

    /// Bytes of all logical frames.
    fn bytes(&self) -> usize {
        self.hierarchical + self.bytes_a() + self.bytes_b()
    }

    /// Whether the parts fit the settings; otherwise it is refused by 19.
    fn fits(&self, s: &Settings) -> bool {
        let l = s.lengths();
        self.bytes_a() == s.x as usize
            && 8 * (self.bytes_a() + self.bytes_b()) <= l.l1 + l.l2
            && 8 * self.hierarchical <= l.vspp
    }

    /// For each byte of the logical frames in turn, the frame's bit at which it begins.
    fn places(&self, s: &Settings) -> Vec<usize> {
        let remainder = s.lengths().vspp;
        let mut places: Vec<usize> = (0..self.hierarchical).map(|i| 8 * i).collect();
        for (k, stream) in self.streams.iter().enumerate() {
            let a_before: usize = self.streams[..k].iter().map(|s| s.a).sum();
            let b_before: usize = self.streams[..k].iter().map(|s| s.b).sum();
            let part_a = a_before..a_before + stream.a;
            let part_b = self.bytes_a() + b_before..self.bytes_a() + b_before + stream.b;
            places.extend(part_a.chain(part_b).map(|byte| remainder + 8 * byte));
        }
        places
    }
}

fn frame_bytes(s: &Settings) -> usize {
    s.lengths().frame_bits().div_ceil(8)
}

/// Builds a frame; 0, or the refusal, with nothing written.
pub fn build(s: &Settings, description: &[u16], streams: &[u8], frame: &mut [u8]) -> u8 {
    if s.refusal() != 0 {
        return s.refusal();
    }
    let Some(d) = Description::new(s, description) else { return 9 };
    if streams.len() != d.bytes() {
        return 9;
    }
    if frame.len() != frame_bytes(s) {
        return 10;
    }
    if !d.fits(s) {
        return 19;
    }
    let mut bits = vec![0; s.lengths().frame_bits()];
    for (byte, at) in streams.iter().zip(d.places(s)) {
        unpack(&[*byte], &mut bits[at..at + 8]);
    }
    pack(&bits, frame);
    0
}

/// Splits a frame into its streams; 0, or the refusal, with nothing written.
pub fn read(s: &Settings, description: &[u16], frame: &[u8], streams: &mut [u8]) -> u8 {
    if s.refusal() != 0 {
        return s.refusal();
    }
    let Some(d) = Description::new(s, description) else { return 9 };
    if frame.len() != frame_bytes(s) {
        return 9;
    }
    if streams.len() != d.bytes() {
        return 10;
    }
    let frame_bits = s.lengths().frame_bits();
    if spare_bit_set(frame, frame_bits) {
        return 11;
    }
    if !d.fits(s) {
        return 19;
    }
    let mut bits = vec![0; frame_bits];
    unpack(frame, &mut bits);
    let mut read = vec![0; streams.len()];
    for (byte, at) in read.iter_mut().zip(d.places(s)) {
        pack(&bits[at..at + 8], std::slice::from_mut(byte));
        // What is left in the end is the filling.
        bits[at..at + 8].fill(0);
    }
    if bits.contains(&1) {
        return 20;
    }
    streams.copy_from_slice(&read);
    0
}

#[cfg(test)]
mod tests {
    use super::*;
    use crate::settings::HMSYM;

    /// Annex C's example: A/3, 266 + 19 bytes in part A and 798 + 59 in part B; L1 + L2 is 2280 + 7894 bits.
    const EXAMPLE: Settings = Settings {
        mode: 0, occupancy: 3, msc: 0, level_a: 0, level_b: 1, vspp: 0, x: 285, sdc: 0, interleaving: 0,
    };
    const TWO: [u16; 4] = [266, 798, 19, 59];
    const FRAME: usize = (2280 + 7894_usize).div_ceil(8);

    /// A/3, HMsym, all levels 0, X = 0: L_VSPP = 2953 and L2 = 5313 (01, Cases).
    const HIERARCHICAL: Settings = Settings { occupancy: 3, msc: HMSYM, ..ZERO };
    const ZERO: Settings = Settings {
        mode: 0, occupancy: 0, msc: 0, level_a: 0, level_b: 0, vspp: 0, x: 0, sdc: 0, interleaving: 0,
    };

    fn counted(n: usize) -> Vec<u8> {
        (0..n).map(|i| (i % 251) as u8 + 1).collect()
    }

    #[test]
    fn part_a_of_each_stream_goes_before_part_b() {
        let streams = counted(266 + 798 + 19 + 59);
        let mut frame = [0xFF; FRAME];
        assert_eq!(build(&EXAMPLE, &TWO, &streams, &mut frame), 0);
        assert_eq!(frame[..266], streams[..266]);
        assert_eq!(frame[266..285], streams[1064..1083]);
        assert_eq!(frame[285..1083], streams[266..1064]);
        assert_eq!(frame[1083..1142], streams[1083..]);
        assert!(frame[1142..].iter().all(|&b| b == 0));
        let mut read_back = vec![9; streams.len()];
        assert_eq!(read(&EXAMPLE, &TWO, &frame, &mut read_back), 0);
        assert_eq!(read_back, streams);
    }

    #[test]
    fn the_remainder_begins_at_a_bit_of_its_own() {
        // 2953 is 369 bytes and one bit; stream 0's first number is not looked at.
        let description = [65_535, 2, 0, 3];
        let mut frame = [0xFF; (2953 + 5313_usize).div_ceil(8)];
        assert_eq!(build(&HIERARCHICAL, &description, &[0xC1, 0x83, 0xFF, 0, 0x81], &mut frame), 0);
        assert_eq!(frame[..3], [0xC1, 0x83, 0]);
        assert!(frame[3..369].iter().all(|&b| b == 0));
        assert_eq!(frame[369..373], [0x7F, 0x80, 0x40, 0x80]);
        assert!(frame[373..].iter().all(|&b| b == 0));
        let mut streams = [9; 5];
        assert_eq!(read(&HIERARCHICAL, &description, &frame, &mut streams), 0);
        assert_eq!(streams, [0xC1, 0x83, 0xFF, 0, 0x81]);
    }

    #[test]
    fn any_one_in_the_filling_is_20() {
        let description = [0, 2, 0, 3];
        let mut frame = [0; (2953 + 5313_usize).div_ceil(8)];
        for bit in (16..2953).step_by(89).chain([2952]).chain((2953 + 24..2953 + 5313).step_by(97)).chain([8265]) {
            frame[bit / 8] |= 0x80 >> (bit % 8);
            assert_eq!(read(&HIERARCHICAL, &description, &frame, &mut [9; 5]), 20, "{bit}");
            frame[bit / 8] = 0;
        }
        assert_eq!(read(&HIERARCHICAL, &description, &frame, &mut [9; 5]), 0);
    }

    #[test]
    fn lengths_that_do_not_fit_are_19() {
        let mut frame = [7; FRAME];
        let most = (2280 + 7894) / 8 - 285;
        for (b, number) in [(most, 0), (most + 1, 19)] {
            assert_eq!(build(&EXAMPLE, &[285, b as u16], &counted(285 + b), &mut frame), number);
        }
        for a in [284, 286] {
            assert_eq!(build(&EXAMPLE, &[a, 5], &counted(a as usize + 5), &mut frame), 19);
        }
        // 65,535 + 286 is 285 modulo 65,536.
        assert_eq!(build(&EXAMPLE, &[65_535, 0, 286, 0], &counted(65_535 + 286), &mut frame), 19);
        let mut frame = [7; (2953 + 5313_usize).div_ceil(8)];
        for (h, number) in [(369, 0), (370, 19)] {
            assert_eq!(build(&HIERARCHICAL, &[0, h], &counted(h as usize), &mut frame), number);
        }
        // A stream's part A counts in X, the hierarchical frame doesn't.
        assert_eq!(build(&HIERARCHICAL, &[0, 0, 1, 0], &[1], &mut frame), 19);
    }

    #[test]
    fn refusals_in_order() {
        let streams = counted(1142);
        let bad = Settings { x: 65_535, ..EXAMPLE };
        assert_eq!(build(&bad, &[], &streams, &mut []), 7);
        assert_eq!(build(&EXAMPLE, &[], &[], &mut []), 9);
        assert_eq!(build(&EXAMPLE, &TWO[..3], &streams, &mut []), 9);
        assert_eq!(build(&EXAMPLE, &[0; 10], &[], &mut []), 9);
        assert_eq!(build(&EXAMPLE, &TWO, &streams[1..], &mut []), 9);
        assert_eq!(build(&EXAMPLE, &TWO, &streams, &mut [0; FRAME + 1]), 10);
        assert_eq!(build(&EXAMPLE, &[0, 0], &[], &mut [0; FRAME + 1]), 10);
        // 10,174 bits have two spare ones.
        let mut frame = [0xFF; FRAME];
        assert_eq!(read(&bad, &TWO, &frame, &mut []), 7);
        assert_eq!(read(&EXAMPLE, &TWO[..1], &frame, &mut []), 9);
        assert_eq!(read(&EXAMPLE, &TWO, &frame[1..], &mut []), 9);
        assert_eq!(read(&EXAMPLE, &TWO, &frame, &mut []), 10);
        assert_eq!(read(&EXAMPLE, &[1, 1], &frame, &mut [0; 2]), 11);
        frame[FRAME - 1] = 0xFC;
        assert_eq!(read(&EXAMPLE, &[1, 1], &frame, &mut [0; 2]), 19);
        assert_eq!(read(&EXAMPLE, &[285, 1], &frame, &mut [0; 286]), 20);
    }
}
