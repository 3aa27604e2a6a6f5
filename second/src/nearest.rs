//! The bits nearest to received values (02, S-9): a search from the first bit to the last over the registers, and a
//! trial of all bits for short lengths.

use crate::dispersal;
use crate::digest::{Digest, Random};
use crate::interleaver::Places;
use crate::packing;
use crate::rates::{Rate, R3_5, RATES, TAIL};
use crate::settings::{FAC_BITS, FAC_BYTES, FAC_CELLS};
use std::io::{self, Write};

/// A received value that is not known.
pub const UNKNOWN: u8 = 2;
/// Values of an FAC block, in the order of the mapped cells.
pub const RECEIVED: usize = 2 * FAC_CELLS;

/// The parities b0 to b3 of a register whose highest bit is the newest.
fn parities(register: u8) -> [u8; 4] {
    [0o133, 0o171, 0o145, 0o133].map(|mask: u8| ((register & mask).count_ones() % 2) as u8)
}

/// A code of n bits: columns of its pattern, columns of its six tail bits, and what is added to each bit before coding.
pub struct Code<'a> {
    pub columns: &'a [u8],
    pub tail: &'a [u8],
    pub flips: &'a [u8],
}

impl Code<'_> {
    /// The column of bit i, the tail's six after the n bits.
    fn column(&self, i: usize) -> u8 {
        match i.checked_sub(self.flips.len()) {
            None => self.columns[i % self.columns.len()],
            Some(j) => self.tail[j % self.tail.len()],
        }
    }

    /// The coded bits of n bits.
    pub fn coded(&self, bits: &[u8]) -> Vec<u8> {
        let sent = bits.iter().zip(self.flips).map(|(b, f)| b ^ f).chain([0; 6]);
        let mut register = 0;
        let mut coded = Vec::new();
        for (i, bit) in sent.enumerate() {
            register = register >> 1 | bit << 6;
            coded.extend((0..4).filter(|j| self.column(i) >> j & 1 == 1).map(|j| parities(register)[j]));
        }
        coded
    }

    /// The nearest bits and their disagreement, the smallest of equals: for each register the best way to it.
    pub fn nearest(&self, received: &[u8]) -> (Vec<u8>, usize) {
        let n = self.flips.len();
        let mut ways: Vec<Option<(usize, Vec<u8>)>> = vec![None; 128];
        ways[0] = Some((0, Vec::new()));
        let mut at = 0;
        for i in 0..n + 6 {
            let kept: Vec<usize> = (0..4).filter(|j| self.column(i) >> j & 1 == 1).collect();
            let mut next: Vec<Option<(usize, Vec<u8>)>> = vec![None; 128];
            for (register, way) in ways.iter().enumerate() {
                let Some((cost, bits)) = way else { continue };
                for bit in 0..if i < n { 2 } else { 1 } {
                    let sent = if i < n { bit ^ self.flips[i] } else { 0 };
                    let to = (register as u8) >> 1 | sent << 6;
                    let wrong = kept.iter().enumerate().filter(|&(k, &j)| {
                        let value = received.get(at + k).copied().unwrap_or(UNKNOWN);
                        value != UNKNOWN && value != parities(to)[j]
                    });
                    let mut bits = bits.clone();
                    if i < n {
                        bits.push(bit);
                    }
                    let found = (cost + wrong.count(), bits);
                    let best = &mut next[to as usize];
                    if best.as_ref().is_none_or(|old| found < *old) {
                        *best = Some(found);
                    }
                }
            }
            at += kept.len();
            ways = next;
        }
        let (count, bits) = ways.into_iter().flatten().min().expect("some way");
        (bits, count)
    }

    /// The same by trying all bits in the order of their number.
    pub fn tried(&self, received: &[u8]) -> (Vec<u8>, usize) {
        let n = self.flips.len();
        let all = (0..1u32 << n).map(|number| (0..n).map(|i| (number >> (n - 1 - i) & 1) as u8).collect::<Vec<u8>>());
        let best = all.map(|bits| (disagreement(received, &self.coded(&bits)), bits)).min().expect("some bits");
        (best.1, best.0)
    }
}

/// How many known values are not the coded bit at their place.
pub fn disagreement(received: &[u8], coded: &[u8]) -> usize {
    received.iter().zip(coded).filter(|(v, b)| **v != UNKNOWN && v != b).count()
}

fn fac_flips() -> [u8; FAC_BITS] {
    let mut flips = [0; FAC_BITS];
    dispersal::disperse(&mut flips);
    flips
}

/// The coded bits of a packed FAC block in the order of the mapped cells.
pub fn fac_sent(block: &[u8]) -> Vec<u8> {
    let mut bits = [0; FAC_BITS];
    packing::unpack(block, &mut bits);
    let coded = Code { columns: R3_5.columns, tail: R3_5.columns, flips: &fac_flips() }.coded(&bits);
    Places::new(RECEIVED, 21).take(RECEIVED).map(|place| coded[place]).collect()
}

/// The nearest FAC block: 9 a wrong number of values, 10 of bytes or numbers, 21 a value above 2.
pub fn fac_nearest(received: &[u8], block: &mut [u8], count: &mut [u16]) -> u8 {
    if received.len() != RECEIVED {
        return 9;
    }
    if block.len() != FAC_BYTES || count.len() != 1 {
        return 10;
    }
    if received.iter().any(|&v| v > UNKNOWN) {
        return 21;
    }
    let mut values = [UNKNOWN; RECEIVED];
    Places::new(RECEIVED, 21).zip(received).for_each(|(place, &v)| values[place] = v);
    let code = Code { columns: R3_5.columns, tail: R3_5.columns, flips: &fac_flips() };
    let (bits, wrong) = code.nearest(&values);
    packing::pack(&bits, block);
    count[0] = wrong as u16;
    0
}

/// Greatest length of `print`, and received lists for each rate, tail row and length.
const LONGEST: usize = 8;
const LISTS: usize = 3;

/// A line for each rate and length, by trying all bits: rate, length, and the digest of the bits found and their
/// disagreement over all tail rows.
pub fn print(out: &mut impl Write) -> io::Result<()> {
    for (k, rate) in RATES.iter().enumerate() {
        for n in 0..=LONGEST {
            let mut random = Random((1 + 9 * k + n) as u32);
            let mut digest = Digest::default();
            for tail in &TAIL {
                for _ in 0..LISTS {
                    one(rate, tail, n, &mut random, &mut digest);
                }
            }
            writeln!(out, "{k} {n} {}", digest.0)?;
        }
    }
    Ok(())
}

/// Draws n bits that are added and four values for each bit and tail bit; their nearest bits go into the digest.
fn one(rate: &Rate, tail: &[u8], n: usize, random: &mut Random, digest: &mut Digest) {
    let flips: Vec<u8> = (0..n).map(|_| random.byte() % 2).collect();
    let received: Vec<u8> = (0..4 * (LONGEST + 6)).map(|_| random.byte() % 3).collect();
    let (bits, count) = Code { columns: rate.columns, tail, flips: &flips }.tried(&received);
    digest.take_bytes(&bits);
    digest.take(count as u64);
}

#[cfg(test)]
mod tests {
    use super::*;

    #[test]
    fn both_searches_agree_at_short_lengths() {
        let mut random = Random(5);
        for rate in RATES {
            for tail in &TAIL {
                for n in 0..=7 {
                    let flips: Vec<u8> = (0..n).map(|_| random.byte() % 2).collect();
                    let received: Vec<u8> = (0..4 * (n + 6)).map(|_| random.byte() % 3).collect();
                    let code = Code { columns: rate.columns, tail, flips: &flips };
                    assert_eq!(code.nearest(&received), code.tried(&received));
                }
            }
        }
    }

    #[test]
    fn nothing_known_is_block_zero() {
        let (mut block, mut count) = ([7; FAC_BYTES], [7]);
        assert_eq!(fac_nearest(&[UNKNOWN; RECEIVED], &mut block, &mut count), 0);
        assert_eq!((block, count), ([0; FAC_BYTES], [0]));
    }

    #[test]
    fn what_was_sent_is_found_again() {
        let sent = [0x4A, 0x61, 0x63, 0x61, 0x6E, 0x61, 0x63, 0x68, 0x65];
        let mut received = fac_sent(&sent);
        let (mut block, mut count) = ([0; FAC_BYTES], [0]);
        assert_eq!(fac_nearest(&received, &mut block, &mut count), 0);
        assert_eq!((block, count), (sent, [0]));
        received[3] ^= 1;
        received[70] = UNKNOWN;
        assert_eq!(fac_nearest(&received, &mut block, &mut count), 0);
        assert_eq!((block, count), (sent, [1]));
    }
}
