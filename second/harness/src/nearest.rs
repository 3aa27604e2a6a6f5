//! Calls of drm_fac_nearest beside the second program's own search (02, S-9).

use crate::archive::{self, Guarded};
use crate::draw::Draw;
use second::nearest::{self, fac_sent, RECEIVED, UNKNOWN};
use second::settings::FAC_BYTES;
use std::collections::BTreeMap;

/// Received lists, and changed calls beside each.
const LISTS: usize = 1500;
const CHANGED: usize = 2;
/// Most values that are not known, and most wrong ones.
const MOST_UNKNOWN: usize = 60;
const MOST_WRONG: usize = 20;

/// All that a call is lent.
#[derive(Clone, PartialEq, Eq, Debug)]
struct Lent {
    received: Vec<u8>,
    block: Vec<u8>,
    count: Vec<u16>,
}

/// What was seen: how often each answer, and how many accepted calls had another block as near.
#[derive(Default)]
struct Seen {
    answers: BTreeMap<u8, u32>,
    ties: u32,
}

/// Makes all calls with both programs; a line about them, or where they differ.
pub fn calls(seed: u64) -> Result<String, String> {
    let mut draw = Draw(seed);
    let mut seen = Seen::default();
    for list in 0..LISTS {
        let lent = drawn(list, &mut draw);
        call(lent.clone(), &mut seen).map_err(|e| format!("nearest, list {list}: {e}"))?;
        for _ in 0..CHANGED {
            let mut copy = lent.clone();
            let changes = spoil(&mut copy, &mut draw);
            call(copy, &mut seen).map_err(|e| format!("nearest, list {list}, changed: {}: {e}", changes.join(", ")))?;
        }
    }
    let missing: Vec<String> = [0, 9, 10, 21].iter().filter(|n| !seen.answers.contains_key(n)).map(|n| n.to_string()).collect();
    if !missing.is_empty() || seen.ties == 0 {
        return Err(format!("nearest: {} ties; answers that never occurred: {}", seen.ties, missing.join(" ")));
    }
    let of = |n: &u8| seen.answers[n];
    let all: u32 = seen.answers.values().sum();
    let (good, nine, ten, above) = (of(&0), of(&9), of(&10), of(&21));
    Ok(format!("nearest: {all} times, accepted {good} ({} with ties), refusal 9 {nine}, 10 {ten}, 21 {above}", seen.ties))
}

/// A sent block with unknown and wrong values, or anything at all; noise in the outputs.
fn drawn(list: usize, draw: &mut Draw) -> Lent {
    let sent: Vec<u8> = (0..FAC_BYTES).map(|_| draw.byte()).collect();
    let mut received = match list % 10 {
        8 => vec![UNKNOWN; RECEIVED],
        9 => (0..RECEIVED).map(|_| draw.below(3) as u8).collect(),
        _ => fac_sent(&sent),
    };
    for _ in 0..draw.below(MOST_WRONG + 1) {
        let at = draw.below(RECEIVED);
        received[at] = match received[at] {
            UNKNOWN => draw.below(2) as u8,
            v => 1 - v,
        };
    }
    for _ in 0..draw.below(MOST_UNKNOWN + 1) {
        received[draw.below(RECEIVED)] = UNKNOWN;
    }
    Lent { received, block: draw.old_bytes(FAC_BYTES), count: vec![draw.word() as u16] }
}

/// Makes one, two or three changes; their names.
fn spoil(lent: &mut Lent, draw: &mut Draw) -> Vec<&'static str> {
    let times = draw.pick(&[1, 1, 2, 3]);
    (0..times).map(|_| change(lent, draw)).collect()
}

fn change(lent: &mut Lent, draw: &mut Draw) -> &'static str {
    match draw.below(5) {
        0 => {
            let long = draw.pick(&[0, 1, RECEIVED - 1, RECEIVED + 1, 2 * RECEIVED]);
            lent.received.resize(long, draw.below(4) as u8);
            "length of received"
        }
        1 => {
            let long = draw.pick(&[0, 1, FAC_BYTES - 1, FAC_BYTES + 1, 3 * FAC_BYTES]);
            lent.block.resize(long, draw.byte());
            "length of block"
        }
        2 => {
            lent.count.resize(draw.pick(&[0, 2, 3]), draw.word() as u16);
            "length of disagreement"
        }
        3 => {
            if let Some(at) = draw.place(&lent.received) {
                lent.received[at] = draw.pick(&[3, 3, 4, 128, 254, 255]);
            }
            "a value above 2"
        }
        _ => {
            if let Some(at) = draw.place(&lent.received) {
                lent.received[at] = draw.below(3) as u8;
            }
            "another value"
        }
    }
}

/// One call with both programs: answer and every buffer, between guards, are the same.
fn call(lent: Lent, seen: &mut Seen) -> Result<(), String> {
    let mut expected = lent.clone();
    let own = nearest::fac_nearest(&expected.received, &mut expected.block, &mut expected.count);
    let mut received = Guarded::new(&lent.received, 0xA5);
    let mut block = Guarded::new(&lent.block, 0xA5);
    let mut count = Guarded::new(&lent.count, 0xA5A5);
    let answer = archive::fac_nearest(received.lent(), block.lent(), count.lent());
    let mut after = lent.clone();
    received.back("received", &mut after.received)?;
    block.back("block", &mut after.block)?;
    count.back("disagreement", &mut after.count)?;
    if answer != own || after != expected {
        return Err(format!("answer {answer} instead of {own}, {after:?} instead of {expected:?}"));
    }
    if answer == 0 {
        seen.ties += tied(&after) as u32;
    }
    *seen.answers.entry(answer).or_default() += 1;
    Ok(())
}

/// Whether a block that differs in one bit disagrees as little.
fn tied(found: &Lent) -> bool {
    (0..8 * FAC_BYTES).any(|i| {
        let mut other = found.block.clone();
        other[i / 8] ^= 0x80 >> (i % 8);
        nearest::disagreement(&found.received, &fac_sent(&other)) == found.count[0] as usize
    })
}
