//! Measured cells (02, S-10): on each axis the nearest point of the constellation, by exact distances, the larger where
//! two are equally near; its bits by 01 "Mapping".

use crate::settings::{Settings, HMMIX, HMSYM, SM16, SM64};

#[derive(Clone, Copy, PartialEq, Eq, PartialOrd, Ord, Debug)]
pub enum Channel {
    Fac,
    Sdc,
    Msc,
}

/// The rule of one axis: level bits i0, i1, i2 to a coordinate. 4-QAM has i0 alone, 16-QAM i0 and i1.
#[derive(Clone, Copy, PartialEq, Eq, Debug)]
pub enum Rule {
    Qam4,
    Qam16,
    Sm64,
    HmSym,
}

impl Rule {
    pub fn bits(self) -> usize {
        match self {
            Rule::Qam4 => 1,
            Rule::Qam16 => 2,
            Rule::Sm64 | Rule::HmSym => 3,
        }
    }

    pub fn coordinate(self, i: &[u8]) -> i16 {
        let i = |level: usize| i[level] as i16;
        match self {
            Rule::Qam4 => 1 - 2 * i(0),
            Rule::Qam16 => 3 - 2 * (i(0) + 2 * i(1)),
            Rule::Sm64 => 7 - 2 * (i(0) + 2 * i(1) + 4 * i(2)),
            Rule::HmSym => 7 - 2 * (4 * i(0) + i(1) + 2 * i(2)),
        }
    }
}

/// The rules of the real and of the imaginary axis.
pub fn rules(channel: Channel, s: &Settings) -> [Rule; 2] {
    match (channel, s.msc, s.sdc) {
        (Channel::Fac, _, _) | (Channel::Sdc, _, 1) => [Rule::Qam4; 2],
        (Channel::Sdc, _, _) | (Channel::Msc, SM16, _) => [Rule::Qam16; 2],
        (Channel::Msc, SM64, _) => [Rule::Sm64; 2],
        (Channel::Msc, HMMIX, _) => [Rule::HmSym, Rule::Sm64],
        (Channel::Msc, HMSYM, _) => [Rule::HmSym; 2],
        (Channel::Msc, mode, _) => unreachable!("MSC mode {mode} is refused before"),
    }
}

/// A magnitude in units of 2^-149, the smallest float: every finite float and every coordinate is a whole number of them,
/// below 2^277. The lowest word comes first.
type Units = [u64; 5];

/// n × 2^shift units.
fn units(n: u32, shift: usize) -> Units {
    let mut all = [0; 5];
    let wide = (n as u128) << (shift % 64);
    all[shift / 64] = wide as u64;
    if wide >> 64 != 0 {
        all[shift / 64 + 1] = (wide >> 64) as u64;
    }
    all
}

fn less(a: &Units, b: &Units) -> bool {
    a.iter().rev().lt(b.iter().rev())
}

fn sum(a: &Units, b: &Units) -> Units {
    let mut carry = 0u128;
    std::array::from_fn(|i| {
        carry += a[i] as u128 + b[i] as u128;
        let word = carry as u64;
        carry >>= 64;
        word
    })
}

/// a - b, b being no larger.
fn less_by(a: &Units, b: &Units) -> Units {
    let mut borrow = 0i128;
    std::array::from_fn(|i| {
        let word = a[i] as i128 - b[i] as i128 - borrow;
        borrow = (word < 0) as i128;
        word as u64
    })
}

/// |x - v|, exactly; x is finite.
fn distance(x: f32, v: i16) -> Units {
    let (bits, exponent) = (x.to_bits(), (x.to_bits() >> 23 & 0xFF) as usize);
    let fraction = bits & 0x7F_FFFF;
    let measured = if exponent == 0 { units(fraction, 0) } else { units(fraction | 0x80_0000, exponent - 1) };
    let wanted = units(v.unsigned_abs() as u32, 149);
    match (x.is_sign_negative() == (v < 0), less(&measured, &wanted)) {
        (false, _) => sum(&measured, &wanted),
        (true, true) => less_by(&wanted, &measured),
        (true, false) => less_by(&measured, &wanted),
    }
}

/// The nearest point of an axis, the larger of two that are equally near, and its bits.
pub fn decide_axis(rule: Rule, x: f32) -> (i16, Vec<u8>) {
    let labels = (0..1u8 << rule.bits()).map(|n| (0..rule.bits()).map(|l| n >> l & 1).collect::<Vec<u8>>());
    let mut points: Vec<(i16, Vec<u8>)> = labels.map(|i| (rule.coordinate(&i), i)).collect();
    points.sort_by_key(|(v, _)| -v);
    let mut best = points[0].clone();
    for (v, i) in points {
        if less(&distance(x, v), &distance(x, best.0)) {
            best = (v, i);
        }
    }
    best
}

/// 22: a float of a pair, or a gain, that is infinite or not a number; a gain below zero. The second value of a fade is not
/// looked at, and minus zero is not below zero.
fn refused(kind: u8, values: &[f32]) -> bool {
    match kind {
        0 => !values[0].is_finite() || !values[1].is_finite(),
        _ => !values[0].is_finite() || values[0] < 0.0,
    }
}

/// Answers 0, 1 to 7, 9, 10 or 22; a refusal writes nothing.
pub fn decide(
    channel: Channel, s: &Settings, kinds: &[u8], values: &[f32], points: &mut [i16], bits: &mut [u8],
) -> u8 {
    if s.refusal() != 0 {
        return s.refusal();
    }
    let rules = rules(channel, s);
    let each = rules[0].bits() + rules[1].bits();
    if values.len() != 2 * kinds.len() {
        return 9;
    }
    if points.len() != 2 * kinds.len() || bits.len() != each * kinds.len() {
        return 10;
    }
    if kinds.iter().zip(values.chunks(2)).any(|(&kind, pair)| refused(kind, pair)) {
        return 22;
    }
    for (k, &kind) in kinds.iter().enumerate() {
        let mut cell_bits = Vec::new();
        for axis in 0..2 {
            let (point, level_bits) = match kind {
                0 => decide_axis(rules[axis], values[2 * k + axis]),
                _ => (0, vec![2; rules[axis].bits()]),
            };
            points[2 * k + axis] = point;
            cell_bits.extend(level_bits);
        }
        bits[each * k..each * (k + 1)].copy_from_slice(&cell_bits);
    }
    0
}

#[cfg(test)]
mod tests {
    use super::*;

    const ALL: [Rule; 4] = [Rule::Qam4, Rule::Qam16, Rule::Sm64, Rule::HmSym];

    fn point(rule: Rule, x: f32) -> i16 {
        decide_axis(rule, x).0
    }

    #[test]
    fn named_values() {
        for rule in ALL {
            let top = (1 << rule.bits()) - 1;
            assert_eq!((point(rule, f32::MAX), point(rule, f32::MIN)), (top, -top));
            assert_eq!((point(rule, 0.0), point(rule, -0.0), point(rule, -1e-45), point(rule, 1e-45)), (1, 1, -1, 1));
        }
        for rule in [Rule::Qam16, Rule::Sm64, Rule::HmSym] {
            assert_eq!((point(rule, 2.0), point(rule, -2.0)), (3, -1));
        }
        assert_eq!((point(Rule::Qam4, 2.0), point(Rule::Qam4, -2.0)), (1, -1));
    }

    #[test]
    fn bits_of_the_cases() {
        assert_eq!((Rule::Sm64.coordinate(&[1, 0, 0]), Rule::Sm64.coordinate(&[0, 0, 1])), (5, -1));
        assert_eq!((Rule::HmSym.coordinate(&[1, 0, 0]), Rule::HmSym.coordinate(&[0, 1, 0])), (-1, 5));
        for rule in ALL {
            for n in 0..1u8 << rule.bits() {
                let i: Vec<u8> = (0..rule.bits()).map(|l| n >> l & 1).collect();
                assert_eq!(decide_axis(rule, rule.coordinate(&i) as f32), (rule.coordinate(&i), i));
            }
        }
    }

    #[test]
    fn distances() {
        assert_eq!(distance(3.5, 7), units(7, 148));
        assert_eq!(distance(-0.5, 1), units(3, 148));
        assert_eq!(distance(-9.0, -7), units(1, 150));
        assert_eq!(distance(f32::from_bits(1), 0), units(1, 0));
    }
}
