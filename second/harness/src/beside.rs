//! One call with two programs, and which answers occurred: what the calls of each request share.

use std::collections::BTreeMap;

/// All that a call is lent. A program is a function, or several, over slices.
pub trait Lent<P>: Clone {
    /// Makes the call, every buffer between guards; the answer, or where something was written outside.
    fn make(&mut self, program: &P) -> Result<u16, String>;

    /// Where the buffers first differ from others, in words.
    fn difference(&self, other: &Self) -> Option<String>;

    /// The refusal's number in an answer, 0 for acceptance.
    fn refusal(&self, answer: u16) -> u8 {
        answer as u8
    }
}

/// Makes the call with both programs: the answer on which they agree, the buffers then being as the archive left them.
pub fn both<P, L: Lent<P>>(lent: &mut L, own: &P, archive: &P) -> Result<u16, String> {
    let before = lent.clone();
    let mut expected = lent.clone();
    let right = expected.make(own)?;
    let answer = lent.make(archive)?;
    if answer != right {
        return Err(format!("answer {answer} instead of {right}"));
    }
    let wanted = if lent.refusal(answer) == 0 { &expected } else { &before };
    match lent.difference(wanted) {
        Some(place) => Err(format!("answer {answer}, but {place}")),
        None => Ok(answer),
    }
}

/// How often each refusal occurred; 0 is acceptance.
#[derive(Default)]
pub struct Seen(BTreeMap<u8, u32>);

impl Seen {
    pub fn take(&mut self, refusal: u8) {
        *self.0.entry(refusal).or_default() += 1;
    }

    /// A line about the calls of one function; an error if an answer that it can give never occurred.
    pub fn line(&self, name: &str, possible: &[u8]) -> Result<String, String> {
        let missing: Vec<String> = possible.iter().filter(|n| !self.0.contains_key(n)).map(u8::to_string).collect();
        if !missing.is_empty() {
            return Err(format!("{name} never answered {}", missing.join(", ")));
        }
        let all: u32 = self.0.values().sum();
        let shown: Vec<String> = self.0.iter().map(|(n, times)| format!("{n}: {times}")).collect();
        Ok(format!("{name}: {all} calls; {}", shown.join(", ")))
    }
}
