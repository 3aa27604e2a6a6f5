//! Random calls of drm_mux_build and drm_mux_read beside the second program's own (02, S-8).

use crate::archive::Guarded;
use crate::beside::{both, Lent, Seen};
use crate::damage::{bit, last_settings, length, put_x, setting};
use crate::draw::Draw;
use crate::lent::first;
use crate::own;
use second::settings::{Settings, PAIRINGS};

/// Settings, description, what is taken, what is written.
pub type Call = fn(&[u8], &[u16], &[u8], &mut [u8]) -> u8;

/// The two functions of a program.
pub struct Mux {
    pub build: Call,
    pub read: Call,
}

pub const OWN: Mux = Mux { build: own::mux_build, read: own::mux_read };

/// Good frames with each pairing, MSC mode and interleaving, and changed calls of each kind beside them.
const GOOD: usize = 4;
const CHANGED: usize = 10;

const OF_BUILD: [u8; 12] = [0, 1, 2, 3, 4, 5, 6, 7, 9, 10, 19, 255];
const OF_READ: [u8; 14] = [0, 1, 2, 3, 4, 5, 6, 7, 9, 10, 11, 19, 20, 255];

#[derive(Clone)]
struct Frame {
    reads: bool,
    settings: Vec<u8>,
    description: Vec<u16>,
    streams: Vec<u8>,
    frame: Vec<u8>,
}

impl Lent<Mux> for Frame {
    fn make(&mut self, program: &Mux) -> Result<u16, String> {
        let mut settings = Guarded::new(&self.settings, 0xA5);
        let mut description = Guarded::new(&self.description, 0xA5A5);
        let mut streams = Guarded::new(&self.streams, 0xA5);
        let mut frame = Guarded::new(&self.frame, 0xA5);
        let answer = match self.reads {
            false => (program.build)(settings.lent(), description.lent(), streams.lent(), frame.lent()),
            true => (program.read)(settings.lent(), description.lent(), frame.lent(), streams.lent()),
        };
        settings.back("settings", &mut self.settings)?;
        description.back("description", &mut self.description)?;
        streams.back("streams", &mut self.streams)?;
        frame.back("frame", &mut self.frame)?;
        Ok(answer as u16)
    }

    fn difference(&self, other: &Frame) -> Option<String> {
        first("settings", &self.settings, &other.settings)
            .or_else(|| first("description", &self.description, &other.description))
            .or_else(|| first("streams", &self.streams, &other.streams))
            .or_else(|| first("frame", &self.frame, &other.frame))
    }
}

/// Makes all calls with both programs; a line about them, or where they differ.
pub fn calls(seed: u64, own: &Mux, archive: &Mux) -> Result<String, String> {
    let mut run = Run { draw: Draw(seed), own, archive, seen: [Seen::default(), Seen::default()] };
    for (pairing, msc, interleaving) in settings() {
        for _ in 0..GOOD {
            let s = run.draw.settings(pairing, msc, interleaving);
            run.frame(&s).map_err(|e| format!("streams, settings {}: {e}", s.hex()))?;
        }
    }
    let lines = [run.seen[0].line("mux_build", &OF_BUILD)?, run.seen[1].line("mux_read", &OF_READ)?];
    Ok(lines.join("\n"))
}

/// Every pairing, MSC mode and interleaving.
fn settings() -> impl Iterator<Item = ((u8, u8), u8, u8)> {
    PAIRINGS.into_iter().flat_map(|p| (0..4).flat_map(move |msc| (0..2).map(move |l| (p, msc, l))))
}

struct Run<'a> {
    draw: Draw,
    own: &'a Mux,
    archive: &'a Mux,
    seen: [Seen; 2],
}

impl Run<'_> {
    fn call(&mut self, call: &mut Frame) -> Result<u16, String> {
        let answer = both(call, self.own, self.archive)
            .map_err(|e| format!("{} with {:?}: {e}", if call.reads { "read" } else { "build" }, call.description))?;
        self.seen[call.reads as usize].take(answer as u8);
        Ok(answer)
    }

    /// Builds a frame and reads it back, with changed calls before each.
    fn frame(&mut self, s: &Settings) -> Result<(), String> {
        let description = description(s, &mut self.draw);
        let total = total(s, &description);
        let streams: Vec<u8> = (0..total).map(|_| self.draw.byte()).collect();
        let frame = self.draw.old_bytes(s.lengths().frame_bits().div_ceil(8));
        let settings = s.bytes().to_vec();
        let mut build = Frame { reads: false, settings, description, streams: streams.clone(), frame };
        self.good(s, &mut build)?;
        let mut read = Frame { reads: true, streams: self.draw.old_bytes(total), ..build };
        self.good(s, &mut read)?;
        match read.streams == streams {
            true => Ok(()),
            false => Err("the streams built are not read back".to_string()),
        }
    }

    fn good(&mut self, s: &Settings, call: &mut Frame) -> Result<(), String> {
        for _ in 0..CHANGED {
            let mut copy = call.clone();
            spoil(s, &mut copy, &mut self.draw);
            self.call(&mut copy)?;
        }
        match self.call(call)? {
            0 => Ok(()),
            n => Err(format!("a good call is refused by {n}")),
        }
    }
}

/// Bytes of all logical frames.
fn total(s: &Settings, description: &[u16]) -> usize {
    let skipped = s.hierarchical() && !description.is_empty();
    description.iter().skip(skipped as usize).map(|&n| n as usize).sum()
}

/// A description that fits: X split over the streams, part B often as full as it can be.
fn description(s: &Settings, draw: &mut Draw) -> Vec<u16> {
    let l = s.lengths();
    let mut description = Vec::new();
    if s.hierarchical() {
        let (most, any) = ((l.vspp / 8) as u16, draw.below(l.vspp / 8 + 1) as u16);
        let rfu = draw.word() as u16;
        description.extend([draw.pick(&[0, rfu, 65_535]), draw.pick(&[0, 1, any, any, most])]);
    }
    let least = (!s.hierarchical() || s.x > 0) as usize;
    let streams = least + draw.below(5 - least - s.hierarchical() as usize);
    let room = (l.l1 + l.l2) / 8 - s.x as usize;
    let any = draw.below(room + 1);
    let part_b = if streams > 0 { draw.pick(&[0, 1, any, any, room]) } else { 0 };
    let (a, b) = (split(s.x as usize, streams, draw), split(part_b, streams, draw));
    description.extend(a.iter().zip(&b).flat_map(|(a, b)| [*a as u16, *b as u16]));
    description
}

/// A number as the sum of so many.
fn split(n: usize, parts: usize, draw: &mut Draw) -> Vec<usize> {
    let mut cuts: Vec<usize> = (1..parts).map(|_| draw.below(n + 1)).chain([0, n]).collect();
    cuts.sort();
    cuts.windows(2).take(parts).map(|w| w[1] - w[0]).collect()
}

/// One to three changes.
fn spoil(s: &Settings, call: &mut Frame, draw: &mut Draw) {
    for _ in 0..draw.pick(&[1, 1, 1, 2, 2, 3]) {
        match draw.below(15) {
            0 => length(&mut call.settings, draw),
            1 => setting(&mut call.settings, draw),
            2 => put_x(&mut call.settings, draw),
            3 => last_settings(&mut call.settings, draw),
            4 => length(&mut call.streams, draw),
            5 => length(&mut call.frame, draw),
            6 => description_length(s, call, draw),
            7 => call.description = description(s, draw),
            8 | 9 => number(s, call, draw),
            10 => moved(call, draw),
            11 => bit(&mut call.frame, draw),
            12 => last_bits(s, call, draw),
            13 => filling(s, call, draw),
            _ => bit(&mut call.streams, draw),
        }
    }
}

/// Another number of streams, most often with the streams that belong to it.
fn description_length(s: &Settings, call: &mut Frame, draw: &mut Draw) {
    call.description.resize(draw.pick(&[0, 1, 2, 3, 4, 5, 6, 7, 8, 9, 10, 16]), 0);
    right_streams(s, call, draw);
}

fn right_streams(s: &Settings, call: &mut Frame, draw: &mut Draw) {
    if draw.below(5) > 0 {
        call.streams.resize(total(s, &call.description), 0x3C);
    }
}

/// One length greater or smaller, or beyond what any frame has.
fn number(s: &Settings, call: &mut Frame, draw: &mut Draw) {
    if let Some(at) = draw.place(&call.description) {
        let (old, any) = (call.description[at], draw.word() as u16);
        let one_more = old.wrapping_add(1);
        call.description[at] = draw.pick(&[one_more, one_more, old.wrapping_sub(1), any, 4096, 65_535]);
    }
    right_streams(s, call, draw);
}

/// A byte more in one stream and a byte less in another: the sum of a part stays.
fn moved(call: &mut Frame, draw: &mut Draw) {
    let (Some(from), Some(to)) = (draw.place(&call.description), draw.place(&call.description)) else { return };
    if from != to && call.description[from] > 0 && call.description[to] < 65_535 {
        call.description[from] -= 1;
        call.description[to] += 1;
    }
}

/// A bit set among the last of the frame's bytes: filling, spare bit or data.
fn last_bits(s: &Settings, call: &mut Frame, draw: &mut Draw) {
    let bits = s.lengths().frame_bits();
    let at = draw.pick(&[bits - 1, bits - 2, bits, 8 * bits.div_ceil(8) - 1]);
    if let Some(b) = call.frame.get_mut(at / 8) {
        *b |= 0x80 >> (at % 8);
    }
}

/// The first or last bit of a filling, or of what stands before it, set: after the hierarchical frame or after part B.
fn filling(s: &Settings, call: &mut Frame, draw: &mut Draw) {
    let (l, total) = (s.lengths(), total(s, &call.description));
    let h = if s.hierarchical() { call.description.get(1).map_or(0, |&n| n as usize) } else { 0 };
    let ends = [8 * h, l.vspp, l.vspp + 8 * total.saturating_sub(h), l.frame_bits()];
    let at = (draw.pick(&ends) + draw.below(2)).saturating_sub(1);
    if let Some(b) = call.frame.get_mut(at / 8) {
        *b |= 0x80 >> (at % 8);
    }
}

#[cfg(test)]
mod tests {
    use super::*;

    #[test]
    fn every_answer_occurs() {
        println!("{}", calls(1, &OWN, &OWN).unwrap());
    }

    #[test]
    fn another_answer_is_found() {
        /// 20 only looks at whole bytes.
        fn read(settings: &[u8], description: &[u16], frame: &[u8], streams: &mut [u8]) -> u8 {
            match own::mux_read(settings, description, frame, streams) {
                20 if frame.last() != Some(&0) => 0,
                n => n,
            }
        }
        assert!(calls(1, &OWN, &Mux { read, ..OWN }).is_err());
    }
}
