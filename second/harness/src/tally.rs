//! How often each answer occurred.

use crate::lent::{Kind, KINDS};
use std::collections::BTreeMap;

/// Refusals of the calls here.
fn refusals() -> impl Iterator<Item = u8> {
    (1..=16).chain([23, 255])
}

/// The refusals that a kind of call can give.
fn possible(kind: Kind) -> Vec<u8> {
    let after: &[u8] = match kind {
        Kind::Lengths | Kind::Sizes => &[],
        Kind::Reset => &[8],
        Kind::Code => &[23, 8, 9, 10, 11, 12],
        Kind::Read => &[23, 8, 9, 10, 12, 13, 14],
        Kind::FacBuild => &[9, 10, 15],
        Kind::FacRead => &[9, 10, 15, 16],
    };
    (1..=7).chain(after.iter().copied()).chain([255]).collect()
}

#[derive(Default)]
pub struct Tally {
    /// By kind and refusal; 0 is acceptance.
    answers: BTreeMap<(usize, u8), u32>,
    /// By refusal (0 for acceptance) and block or number of finished frames.
    blocks: BTreeMap<(u8, u8), u32>,
    pub calls: u32,
}

impl Tally {
    pub fn take(&mut self, kind: Kind, answer: u16) {
        let refusal = kind.refusal(answer);
        self.calls += 1;
        *self.answers.entry((kind as usize, refusal)).or_default() += 1;
        if kind == Kind::Read {
            *self.blocks.entry((refusal, (answer % 256) as u8)).or_default() += 1;
        }
    }

    fn of(&self, kind: Kind, refusal: u8) -> u32 {
        self.answers.get(&(kind as usize, refusal)).copied().unwrap_or(0)
    }

    fn block(&self, refusal: u8, block: u8) -> u32 {
        self.blocks.get(&(refusal, block)).copied().unwrap_or(0)
    }

    pub fn print(&self) {
        let row = |name: &str, value: &dyn Fn(Kind) -> String| {
            print!("{name:<10}");
            KINDS.iter().for_each(|&kind| print!("{:>9}", value(kind)));
            println!();
        };
        row("", &|kind| kind.name().to_string());
        row("calls", &|kind| (0..=255).map(|n| self.of(kind, n)).sum::<u32>().to_string());
        row("accepted", &|kind| self.of(kind, 0).to_string());
        for n in refusals() {
            let shown = |kind| if possible(kind).contains(&n) { self.of(kind, n).to_string() } else { "-".to_string() };
            row(&format!("refusal {n}"), &shown);
        }
        let blocks = |n, last| (0..=last).map(|b| self.block(n, b).to_string()).collect::<Vec<_>>().join(" ");
        println!("finished frames 0 to 3: {}", blocks(0, 3));
        println!("blocks 0 to 7 of refusal 13: {}", blocks(13, 7));
        println!("blocks 0 to 6 of refusal 14: {}", blocks(14, 6));
        println!("{} calls", self.calls);
    }

    /// Answers that can occur and didn't, in words.
    pub fn missing(&self) -> Vec<String> {
        let mut missing = Vec::new();
        for kind in KINDS {
            let numbers = possible(kind).into_iter().chain([0]).filter(|&n| self.of(kind, n) == 0);
            missing.extend(numbers.map(|n| format!("{} with refusal {n}", kind.name())));
        }
        for (n, last) in [(0, 3), (13, 7), (14, 6)] {
            let blocks = (0..=last).filter(|&b| self.block(n, b) == 0);
            missing.extend(blocks.map(|b| format!("read with refusal {n} and block or frames {b}")));
        }
        missing
    }
}
