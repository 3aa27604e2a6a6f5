//! Random calls of drm_decide_fac, drm_decide_sdc and drm_decide_msc beside the second program's own.

use crate::archive::Guarded;
use crate::damage::{last_settings, length, put_x, setting};
use crate::draw::Draw;
use crate::lent::first;
use second::measured::{self, Channel};
use second::settings::{Settings, FAC_CELLS, PAIRINGS};
use std::collections::BTreeMap;

mod c {
    macro_rules! decide {
        ($($name:ident),*) => {
            extern "C" {
                $(pub fn $name(
                    settings: *const u8, settings_len: usize, kinds: *const u8, kinds_len: usize,
                    values: *const f32, values_len: usize, points: *mut i16, points_len: usize,
                    bits: *mut u8, bits_len: usize,
                ) -> u8;)*
            }
        };
    }
    decide!(drm_decide_fac, drm_decide_sdc, drm_decide_msc);
}

const SEED: u64 = 10;
/// Changed calls beside each good one.
const CHANGED: usize = 11;
const CHANNELS: [Channel; 3] = [Channel::Fac, Channel::Sdc, Channel::Msc];
/// The answers that a call can give.
const POSSIBLE: [u8; 12] = [0, 1, 2, 3, 4, 5, 6, 7, 9, 10, 22, 255];
/// Values that are infinite or not a number: both infinities, quiet and signalling ones that are no number.
const NOT_FINITE: [u32; 6] = [0x7F80_0000, 0xFF80_0000, 0x7FC0_0000, 0xFFC0_0001, 0x7F80_0001, 0xFFFF_FFFF];
const MINUS_ZERO: u32 = 0x8000_0000;

/// All that a call is lent; values by their bits, so that those that are no number can be compared.
#[derive(Clone)]
struct Lent {
    settings: Vec<u8>,
    kinds: Vec<u8>,
    values: Vec<u32>,
    points: Vec<i16>,
    bits: Vec<u8>,
}

impl Lent {
    fn difference(&self, other: &Lent) -> Option<String> {
        first("settings", &self.settings, &other.settings)
            .or_else(|| first("kinds", &self.kinds, &other.kinds))
            .or_else(|| first("values", &self.values, &other.values))
            .or_else(|| first("points", &self.points, &other.points))
            .or_else(|| first("bits", &self.bits, &other.bits))
    }
}

/// The archive's answer; every buffer lies between guards while the call lasts.
fn archive(channel: Channel, lent: &mut Lent) -> Result<u8, String> {
    let mut settings = Guarded::new(&lent.settings, 0xA5);
    let mut kinds = Guarded::new(&lent.kinds, 0xA5);
    let mut values = Guarded::new(&lent.values, 0xA5A5A5A5);
    let mut points = Guarded::new(&lent.points, 0x5A5A);
    let mut bits = Guarded::new(&lent.bits, 0xA5);
    let function = match channel {
        Channel::Fac => c::drm_decide_fac,
        Channel::Sdc => c::drm_decide_sdc,
        Channel::Msc => c::drm_decide_msc,
    };
    let (s, k, v, p, b) = (settings.lent(), kinds.lent(), values.lent(), points.lent(), bits.lent());
    // Whole slices that Rust keeps apart, which is all that the header asks; a float has the bits of a u32.
    let answer = unsafe {
        function(
            s.as_ptr(), s.len(), k.as_ptr(), k.len(), v.as_ptr().cast(), v.len(), p.as_mut_ptr(), p.len(),
            b.as_mut_ptr(), b.len(),
        )
    };
    settings.back("settings", &mut lent.settings)?;
    kinds.back("kinds", &mut lent.kinds)?;
    values.back("values", &mut lent.values)?;
    points.back("points", &mut lent.points)?;
    bits.back("bits", &mut lent.bits)?;
    Ok(answer)
}

/// The second program's answer.
fn own(channel: Channel, lent: &mut Lent) -> u8 {
    let Ok(bytes) = <[u8; 10]>::try_from(&lent.settings[..]) else { return 255 };
    let values: Vec<f32> = lent.values.iter().map(|&b| f32::from_bits(b)).collect();
    let s = Settings::from_bytes(bytes);
    measured::decide(channel, &s, &lent.kinds, &values, &mut lent.points, &mut lent.bits)
}

/// One call with both programs: the answer, or where they differ, or what a refused call wrote.
fn both(channel: Channel, lent: &mut Lent) -> Result<u8, String> {
    let before = lent.clone();
    let mut expected = lent.clone();
    let right = own(channel, &mut expected);
    let answer = archive(channel, lent)?;
    if answer != right {
        return Err(format!("answer {answer} instead of {right}"));
    }
    let wanted = if answer == 0 { &expected } else { &before };
    match lent.difference(wanted) {
        Some(place) => Err(format!("answer {answer}, but {place}")),
        None => Ok(answer),
    }
}

/// A finite value: a middle between coordinates or a coordinate, one float beside it or the same; near one; a zero; the
/// smallest, a subnormal, the largest; or any.
fn value(draw: &mut Draw) -> u32 {
    let whole = (draw.below(19) as f32 - 9.0).to_bits();
    let sign = draw.pick(&[0, MINUS_ZERO]);
    let bits = match draw.below(8) {
        0 | 1 => whole,
        2 if whole & !MINUS_ZERO == 0 => sign | 1,
        2 => draw.pick(&[whole - 1, whole + 1]),
        3 | 4 => (f32::from_bits(whole) + draw.below(2001) as f32 / 1000.0 - 1.0).to_bits(),
        5 => sign,
        6 => sign | draw.pick(&[1, 2, 0x7F_FFFF, 0x80_0000, 0x7F7F_FFFF, 0x7F00_0000, draw.0 as u32 & 0x7F_FFFF]),
        _ => draw.word() as u32,
    };
    if f32::from_bits(bits).is_finite() { bits } else { whole }
}

/// The gain of a fade: not below zero, minus zero among them.
fn gain(draw: &mut Draw) -> u32 {
    let bits = value(draw);
    if draw.below(8) == 0 { MINUS_ZERO } else { bits & !MINUS_ZERO }
}

/// A cell of this kind, as its two values; of a fade the second may be anything.
fn cell(kind: u8, draw: &mut Draw) -> [u32; 2] {
    match kind {
        0 => [value(draw), value(draw)],
        _ => {
            let other = draw.word() as u32;
            [gain(draw), draw.pick(&[other, NOT_FINITE[0], NOT_FINITE[2], 0xBF80_0000])]
        }
    }
}

/// A good call: any finite values, some fades, noise in what is written.
fn good(channel: Channel, s: &Settings, draw: &mut Draw) -> Lent {
    let any = draw.below(200);
    let n = draw.pick(&[0, 1, 2, FAC_CELLS, FAC_CELLS, any, any, any]);
    let fades = draw.pick(&[0, 1, 4, 8]);
    let kinds: Vec<u8> = (0..n).map(|_| if draw.below(8) < fades { draw.pick(&[1, 2, 128, 255]) } else { 0 }).collect();
    let values = kinds.iter().flat_map(|&kind| cell(kind, draw)).collect();
    let each: usize = measured::rules(channel, s).iter().map(|r| r.bits()).sum();
    Lent { settings: s.bytes().to_vec(), kinds, values, points: draw.old_numbers(2 * n), bits: draw.old_bytes(each * n) }
}

/// One to three changes: slices of a wrong length, settings, kinds, and values that are refused or not.
fn spoil(lent: &mut Lent, draw: &mut Draw) {
    for _ in 0..draw.pick(&[1, 1, 1, 2, 2, 3]) {
        match draw.below(14) {
            0 => length(&mut lent.settings, draw),
            1 | 2 => setting(&mut lent.settings, draw),
            3 => put_x(&mut lent.settings, draw),
            4 => last_settings(&mut lent.settings, draw),
            5 => length(&mut lent.kinds, draw),
            6 => length(&mut lent.values, draw),
            7 => length(&mut lent.points, draw),
            8 => length(&mut lent.bits, draw),
            9 => {
                if let Some(at) = draw.place(&lent.kinds) {
                    lent.kinds[at] = draw.pick(&[0, 0, 1, 255]);
                }
            }
            10 | 11 => {
                if let Some(at) = draw.place(&lent.values) {
                    lent.values[at] = draw.pick(&NOT_FINITE);
                }
            }
            _ => {
                if let Some(at) = draw.place(&lent.values) {
                    lent.values[at] = MINUS_ZERO | value(draw);
                }
            }
        }
    }
}

/// What accepted calls must have had, and how often they did.
#[derive(Default)]
struct Seen {
    middles: u32,
    beside: u32,
    minus_zeros: u32,
    subnormals: u32,
    silent_gains: u32,
    unread: u32,
    empty: u32,
}

impl Seen {
    fn take(&mut self, lent: &Lent) {
        self.empty += lent.kinds.is_empty() as u32;
        for (&kind, pair) in lent.kinds.iter().zip(lent.values.chunks(2)) {
            let floats = [f32::from_bits(pair[0]), f32::from_bits(pair[1])];
            if kind != 0 {
                self.silent_gains += (pair[0] == MINUS_ZERO) as u32;
                self.unread += (floats[1].is_nan() || floats[1] < 0.0) as u32;
                continue;
            }
            for (x, bits) in floats.into_iter().zip(pair) {
                let middle = |x: f32| x.abs() <= 6.0 && x % 2.0 == 0.0;
                self.middles += middle(x) as u32;
                self.beside += (!middle(x) && (middle(x.next_up()) || middle(x.next_down()))) as u32;
                self.minus_zeros += (*bits == MINUS_ZERO) as u32;
                self.subnormals += x.is_subnormal() as u32;
            }
        }
    }

    fn all(&self) -> [(&'static str, u32); 7] {
        [
            ("values on a middle", self.middles),
            ("values beside a middle", self.beside),
            ("minus zeros", self.minus_zeros),
            ("subnormals", self.subnormals),
            ("gains of minus zero", self.silent_gains),
            ("fades with a second value that is no number or negative", self.unread),
            ("calls without cells", self.empty),
        ]
    }
}

/// All random calls; how many there were, or the first difference.
pub fn random_calls() -> Result<u32, String> {
    let mut draw = Draw(SEED);
    let mut answers: BTreeMap<(Channel, u8), u32> = BTreeMap::new();
    let mut seen = Seen::default();
    for (pairing, msc, interleaving) in settings() {
        let s = draw.settings(pairing, msc, interleaving);
        for channel in CHANNELS {
            for changed in 0..=CHANGED {
                let mut lent = good(channel, &s, &mut draw);
                if changed < CHANGED {
                    spoil(&mut lent, &mut draw);
                }
                let answer = both(channel, &mut lent).map_err(|e| format!("{channel:?}, settings {}: {e}", s.hex()))?;
                if changed == CHANGED && answer != 0 {
                    return Err(format!("a good call, {channel:?}, settings {}, is refused by {answer}", s.hex()));
                }
                if answer == 0 {
                    seen.take(&lent);
                }
                *answers.entry((channel, answer)).or_default() += 1;
            }
        }
    }
    for channel in CHANNELS {
        if let Some(n) = POSSIBLE.into_iter().find(|&n| !answers.contains_key(&(channel, n))) {
            return Err(format!("{channel:?} never answered {n}"));
        }
        let shown = answers.iter().filter(|((c, _), _)| *c == channel).map(|((_, n), times)| format!("{n}: {times}"));
        println!("{channel:?}: {}", shown.collect::<Vec<_>>().join(", "));
    }
    for (what, times) in seen.all() {
        if times == 0 {
            return Err(format!("no {what}"));
        }
        println!("{what}: {times}");
    }
    Ok(answers.values().sum())
}

/// Every pairing, MSC mode and interleaving.
fn settings() -> impl Iterator<Item = ((u8, u8), u8, u8)> {
    PAIRINGS.into_iter().flat_map(|p| (0..4).flat_map(move |msc| (0..2).map(move |l| (p, msc, l))))
}
