//! Random calls of drm_plan beside the second program's own (02, S-12).

use crate::archive::Guarded;
use crate::beside::{both, Lent, Seen};
use crate::damage::{last_settings, length, put_x, setting};
use crate::draw::Draw;
use crate::lent::first;
use second::plan::{Rule, MOST_RULES, RULE_BYTES, WEEK_MINUTES, WEEK_SUPER_FRAMES};
use second::settings::{Settings, PAIRINGS};

/// Rules, super frame, answer.
pub type Plan = fn(&[u8], u32, &mut [u8]) -> u8;

/// Plans, good super frames of each, and changed calls beside them.
const PLANS: usize = 200;
const GOOD: usize = 8;
const CHANGED: usize = 16;

const POSSIBLE: [u8; 12] = [0, 1, 2, 3, 4, 5, 6, 7, 24, 25, 26, 255];

#[derive(Clone)]
struct Call {
    rules: Vec<u8>,
    super_frame: u32,
    answer: Vec<u8>,
}

impl Lent<Plan> for Call {
    fn make(&mut self, plan: &Plan) -> Result<u16, String> {
        let mut rules = Guarded::new(&self.rules, 0xA5);
        let mut answer = Guarded::new(&self.answer, 0xA5);
        let number = plan(rules.lent(), self.super_frame, answer.lent());
        rules.back("rules", &mut self.rules)?;
        answer.back("answer", &mut self.answer)?;
        Ok(number as u16)
    }

    fn difference(&self, other: &Call) -> Option<String> {
        first("rules", &self.rules, &other.rules).or_else(|| first("answer", &self.answer, &other.answer))
    }
}

/// Makes all calls with both programs; a line about them, or where they differ.
pub fn calls(seed: u64, own: Plan, archive: Plan) -> Result<String, String> {
    let mut draw = Draw(seed);
    let (mut seen, mut marks) = (Seen::default(), [0; 3]);
    for number in 0..PLANS {
        let rules = drawn(&mut draw);
        for k in 0..GOOD + CHANGED {
            let mut call = good(&rules, &mut draw);
            if k >= GOOD {
                spoil(&mut call, &mut draw);
            }
            let answer = both(&mut call, &own, &archive).map_err(|e| {
                let hex: String = call.rules.iter().map(|b| format!("{b:02X}")).collect();
                format!("plan {number}, call {k}, super frame {}, rules {hex}: {e}", call.super_frame)
            })?;
            if k < GOOD && answer != 0 {
                return Err(format!("plan {number}: a good call is refused by {answer}"));
            }
            if answer == 0 {
                marks[call.answer[1] as usize % 3] += 1;
            }
            seen.take(answer as u8);
        }
    }
    if marks.contains(&0) {
        return Err(format!("plan: marks 0, 1 and 2 occurred {marks:?} times"));
    }
    Ok(format!("{}; marks 0, 1, 2: {marks:?}", seen.line("plan", &POSSIBLE)?))
}

/// A good plan: the week cut at some minutes, few different settings so that neighbours often have equal ones, any order.
fn drawn(draw: &mut Draw) -> Vec<Rule> {
    let rules = draw.pick(&[1, 2, 2, 3, 4, 7, 24, 63, 64]);
    let mut cuts = vec![0, WEEK_MINUTES as u16];
    while cuts.len() < rules + 1 {
        let near = cuts[draw.below(cuts.len())] + 1;
        let any = draw.below(WEEK_MINUTES) as u16;
        let cut = draw.pick(&[any, any, near]);
        if cut < WEEK_MINUTES as u16 && !cuts.contains(&cut) {
            cuts.push(cut);
        }
    }
    cuts.sort();
    let kinds: Vec<Settings> = (0..draw.pick(&[1, 2, 2, 3])).map(|_| any_settings(draw)).collect();
    let mut plan: Vec<Rule> = cuts.windows(2).map(|w| rule(w[0], w[1], &kinds, draw)).collect();
    for i in (1..plan.len()).rev() {
        plan.swap(i, draw.below(i + 1));
    }
    plan
}

/// One of the settings, or one that differs from it in a single number that plays no part in the lengths.
fn rule(first: u16, after: u16, kinds: &[Settings], draw: &mut Draw) -> Rule {
    let mut settings = draw.pick(kinds);
    if draw.below(6) == 0 {
        settings.interleaving = 1 - settings.interleaving;
    }
    Rule { first, after, settings }
}

fn any_settings(draw: &mut Draw) -> Settings {
    let (pairing, msc, interleaving) = (draw.pick(&PAIRINGS), draw.below(4) as u8, draw.below(2) as u8);
    draw.settings(pairing, msc, interleaving)
}

/// A super frame about a rule's ends, about the week's, or any.
fn good(rules: &[Rule], draw: &mut Draw) -> Call {
    let rule = draw.pick(rules);
    let (minute, beside) = (draw.pick(&[rule.first, rule.after]), draw.below(7));
    let near = (50 * minute as usize + WEEK_SUPER_FRAMES + beside - 3) % WEEK_SUPER_FRAMES;
    let any = draw.below(WEEK_SUPER_FRAMES);
    let super_frame = draw.pick(&[near, near, near, any, 0, WEEK_SUPER_FRAMES - 1]) as u32;
    Call { rules: packed(rules), super_frame, answer: draw.old_bytes(2) }
}

fn packed(rules: &[Rule]) -> Vec<u8> {
    rules.iter().flat_map(|r| r.bytes()).collect()
}

/// One to three changes.
fn spoil(call: &mut Call, draw: &mut Draw) {
    for _ in 0..draw.pick(&[1, 1, 1, 2, 2, 3]) {
        match draw.below(12) {
            0 => length(&mut call.rules, draw),
            1 => length(&mut call.answer, draw),
            2 => call.super_frame = draw.pick(&[504_000, 504_001, 600_000, u32::MAX, 1 << 19]),
            3 | 4 => of_settings(&mut call.rules, draw),
            5 => more_rules(&mut call.rules, draw),
            6 => {
                let rule = draw.below(call.rules.len() / RULE_BYTES + 1) * RULE_BYTES;
                call.rules.truncate(rule);
            }
            _ => minutes(&mut call.rules, draw),
        }
    }
}

/// Settings of one rule or of two.
fn of_settings(rules: &mut [u8], draw: &mut Draw) {
    for _ in 0..draw.pick(&[1, 1, 2]) {
        let at = draw.below(rules.len() / RULE_BYTES + 1) * RULE_BYTES;
        let Some(settings) = rules.get_mut(at + 4..at + RULE_BYTES) else { return };
        match draw.below(3) {
            0 => setting(settings, draw),
            1 => put_x(settings, draw),
            _ => last_settings(settings, draw),
        }
    }
}

/// Copies of the first rule up to 64, 65 or 66, the last of them perhaps with bad settings.
fn more_rules(rules: &mut Vec<u8>, draw: &mut Draw) {
    let Some(rule) = rules.get(..RULE_BYTES).map(<[u8]>::to_vec) else { return };
    let wanted = draw.pick(&[MOST_RULES, MOST_RULES + 1, MOST_RULES + 2]) * RULE_BYTES;
    while rules.len() < wanted {
        rules.extend(&rule);
    }
    if draw.below(2) == 0 {
        let at = rules.len() - draw.pick(&[1, 2]) * RULE_BYTES;
        rules[at + 4] = 4;
    }
}

/// A minute of a rule moved a little or anywhere, or the two exchanged.
fn minutes(rules: &mut [u8], draw: &mut Draw) {
    let at = draw.below(rules.len() / RULE_BYTES + 1) * RULE_BYTES;
    let Some(both) = rules.get_mut(at..at + 4) else { return };
    if draw.below(6) == 0 {
        both.rotate_left(2);
        return;
    }
    let one = &mut both[draw.pick(&[0, 2])..][..2];
    let minute = u16::from_be_bytes([one[0], one[1]]);
    let any = draw.below(WEEK_MINUTES + 1) as u16;
    let moved = draw.pick(&[minute.wrapping_add(1), minute.wrapping_sub(1), any, 10_080, 10_081, 65_535, 0]);
    one.copy_from_slice(&moved.to_be_bytes());
}

#[cfg(test)]
mod tests {
    use super::*;

    #[test]
    fn every_answer_occurs() {
        println!("{}", calls(1, second::plan::plan, second::plan::plan).unwrap());
    }

    #[test]
    fn another_answer_is_found() {
        fn no_wrap(rules: &[u8], super_frame: u32, answer: &mut [u8]) -> u8 {
            let number = second::plan::plan(rules, super_frame, answer);
            if number == 0 && super_frame == 0 {
                answer[1] = 0;
            }
            number
        }
        assert!(calls(1, second::plan::plan, no_wrap).is_err());
    }
}
