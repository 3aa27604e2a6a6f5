//! The week plan (02, S-12), by its plain definition: every minute and every super frame of the week is gone through.

use crate::settings::Settings;

/// First minute and minute after the last, two bytes each, high byte first; then the settings.
pub const RULE_BYTES: usize = 14;
pub const MOST_RULES: usize = 64;
pub const WEEK_MINUTES: usize = 10_080;
pub const MINUTE_SUPER_FRAMES: usize = 50;
pub const WEEK_SUPER_FRAMES: usize = WEEK_MINUTES * MINUTE_SUPER_FRAMES;

/// Marks of a super frame: one of the closing two, the first after a reset, or neither.
pub const NEITHER: u8 = 0;
pub const CLOSING: u8 = 1;
pub const AFTER_RESET: u8 = 2;

#[derive(Clone, Copy, PartialEq, Eq, Debug)]
pub struct Rule {
    /// First minute.
    pub first: u16,
    /// The minute after the last.
    pub after: u16,
    pub settings: Settings,
}

impl Rule {
    pub fn bytes(&self) -> [u8; RULE_BYTES] {
        let mut bytes = [0; RULE_BYTES];
        bytes[..2].copy_from_slice(&self.first.to_be_bytes());
        bytes[2..4].copy_from_slice(&self.after.to_be_bytes());
        bytes[4..].copy_from_slice(&self.settings.bytes());
        bytes
    }

    pub fn from_bytes(b: &[u8; RULE_BYTES]) -> Rule {
        let settings = std::array::from_fn(|i| b[4 + i]);
        Rule {
            first: u16::from_be_bytes([b[0], b[1]]),
            after: u16::from_be_bytes([b[2], b[3]]),
            settings: Settings::from_bytes(settings),
        }
    }

    fn has(&self, minute: usize) -> bool {
        self.first as usize <= minute && minute < self.after as usize
    }
}

/// Place and mark of a super frame, written with answer 0 only: 255 for rules that are not whole or an answer that is
/// not of two bytes, then the refusals of S-12.
pub fn plan(rules: &[u8], super_frame: u32, answer: &mut [u8]) -> u8 {
    if rules.len() % RULE_BYTES != 0 || answer.len() != 2 {
        return 255;
    }
    let rules: Vec<Rule> =
        rules.chunks(RULE_BYTES).map(|b| Rule::from_bytes(b.try_into().expect("a whole rule"))).collect();
    let refusal = refusal(&rules, super_frame);
    if refusal == 0 {
        let (place, mark) = week(&rules)[super_frame as usize];
        answer.copy_from_slice(&[place, mark]);
    }
    refusal
}

/// The number of the refusal, or 0.
pub fn refusal(rules: &[Rule], super_frame: u32) -> u8 {
    for rule in rules.iter().take(MOST_RULES) {
        if rule.settings.refusal() != 0 {
            return rule.settings.refusal();
        }
    }
    if rules.len() > MOST_RULES || super_frame as usize >= WEEK_SUPER_FRAMES || rules.iter().any(out_of_order) {
        return 24;
    }
    let rules_of_minute: Vec<usize> = (0..WEEK_MINUTES).map(|m| rules.iter().filter(|r| r.has(m)).count()).collect();
    if rules_of_minute.contains(&0) {
        return 25;
    }
    if rules_of_minute.iter().any(|&n| n > 1) {
        return 26;
    }
    0
}

/// Empty, reversed, or with a minute above 10,080.
fn out_of_order(rule: &Rule) -> bool {
    let most = WEEK_MINUTES as u16;
    rule.first >= rule.after || rule.first > most || rule.after > most
}

/// Place and mark of each super frame of the week, for a plan that is not refused.
pub fn week(rules: &[Rule]) -> Vec<(u8, u8)> {
    let mut week = Vec::with_capacity(WEEK_SUPER_FRAMES);
    for minute in 0..WEEK_MINUTES {
        let place = rules.iter().position(|r| r.has(minute)).expect("a rule for each minute");
        for _ in 0..MINUTE_SUPER_FRAMES {
            week.push((place as u8, NEITHER));
        }
    }
    for now in 0..WEEK_SUPER_FRAMES {
        let next = (now + 1) % WEEK_SUPER_FRAMES;
        let settings = |t: usize| rules[week[t].0 as usize].settings;
        if settings(now) != settings(next) {
            let before = (now + WEEK_SUPER_FRAMES - 1) % WEEK_SUPER_FRAMES;
            week[before].1 = CLOSING;
            week[now].1 = CLOSING;
            week[next].1 = AFTER_RESET;
        }
    }
    week
}

#[cfg(test)]
mod tests {
    use super::*;

    /// A/3 and the settings of annex C's example.
    const DAY: Settings = Settings {
        mode: 0, occupancy: 3, msc: 0, level_a: 0, level_b: 1, vspp: 0, x: 285, sdc: 0, interleaving: 0,
    };
    const NIGHT: Settings = Settings { interleaving: 1, ..DAY };

    fn rule(first: u16, after: u16, settings: Settings) -> Rule {
        Rule { first, after, settings }
    }

    fn packed(rules: &[Rule]) -> Vec<u8> {
        rules.iter().flat_map(|r| r.bytes()).collect()
    }

    fn answer(rules: &[Rule], super_frame: u32) -> (u8, [u8; 2]) {
        let mut answer = [0xAA; 2];
        let number = plan(&packed(rules), super_frame, &mut answer);
        (number, answer)
    }

    /// A plan's places and marks at some super frames.
    fn answers(rules: &[Rule], at: &[u32]) -> Vec<[u8; 2]> {
        at.iter().map(|&t| answer(rules, t)).map(|(number, a)| (number == 0).then_some(a).unwrap()).collect()
    }

    #[test]
    fn a_rule_has_fourteen_bytes() {
        let r = rule(0x1234, 0x2760, DAY);
        assert_eq!(r.bytes(), [0x12, 0x34, 0x27, 0x60, 0, 3, 0, 0, 1, 0, 0x01, 0x1D, 0, 0]);
        assert_eq!(Rule::from_bytes(&r.bytes()), r);
    }

    #[test]
    fn halves_of_the_week_close_in_the_middle_and_at_the_end() {
        let rules = [rule(5040, 10_080, NIGHT), rule(0, 5040, DAY)];
        let at = [0, 1, 251_997, 251_998, 251_999, 252_000, 252_001, 503_997, 503_998, 503_999];
        let right = [[1, 2], [1, 0], [1, 0], [1, 1], [1, 1], [0, 2], [0, 0], [0, 0], [0, 1], [0, 1]];
        assert_eq!(answers(&rules, &at), right);
    }

    #[test]
    fn one_rule_never_closes() {
        assert!(week(&[rule(0, 10_080, DAY)]).iter().all(|&answer| answer == (0, NEITHER)));
    }

    #[test]
    fn neighbours_with_equal_settings_do_not_close() {
        let rules = [rule(0, 60, DAY), rule(60, 120, DAY), rule(120, 10_080, NIGHT)];
        let at = [2998, 2999, 3000, 5997, 5998, 5999, 6000];
        assert_eq!(answers(&rules, &at), [[0, 0], [0, 0], [1, 0], [1, 0], [1, 1], [1, 1], [2, 2]]);
    }

    #[test]
    fn a_rule_of_one_minute_has_fifty_super_frames() {
        let rules = [rule(0, 1, DAY), rule(1, 10_080, NIGHT)];
        let week = week(&rules);
        let marks: Vec<u8> = week[..51].iter().map(|a| a.1).collect();
        assert_eq!((marks[0], &marks[1..48], &marks[48..]), (2, &[0; 47][..], &[1, 1, 2][..]));
        assert_eq!(week.iter().filter(|a| a.0 == 0).count(), 50);
    }

    #[test]
    fn wrong_slices() {
        let mut rules = packed(&[rule(0, 10_080, DAY)]);
        assert_eq!(plan(&rules, 0, &mut [0; 1]), 255);
        assert_eq!(plan(&rules, 0, &mut [0; 3]), 255);
        rules.pop();
        assert_eq!(plan(&rules, 0, &mut [0; 2]), 255);
    }

    #[test]
    fn first_rule_at_fault_among_the_first_sixty_four() {
        let bad = |s: Settings| rule(20_000, 0, s);
        let (six, two) = (Settings { sdc: 2, ..DAY }, Settings { occupancy: 6, ..DAY });
        let good = rule(0, 10_080, DAY);
        assert_eq!(answer(&[good, bad(six), bad(two)], 600_000), (6, [0xAA; 2]));
        assert_eq!(answer(&[good, bad(two), bad(six)], 600_000), (2, [0xAA; 2]));
        let mut many = vec![good; 63];
        many.extend([bad(six), bad(two)]);
        assert_eq!(answer(&many, 0), (6, [0xAA; 2]));
        many[63] = good;
        assert_eq!(answer(&many, 0), (24, [0xAA; 2]));
    }

    #[test]
    fn refused_by_24() {
        for wrong in [rule(0, 10_081, DAY), rule(5, 5, DAY), rule(6, 5, DAY), rule(10_081, 10_082, DAY)] {
            assert_eq!(answer(&[rule(0, 10_080, DAY), wrong], 0), (24, [0xAA; 2]));
        }
        assert_eq!(answer(&[rule(0, 10_080, DAY)], 504_000), (24, [0xAA; 2]));
        assert_eq!(answer(&[rule(0, 10_080, DAY)], 503_999), (0, [0, 0]));
        let minutes: Vec<Rule> = (0..65).map(|m| rule(m, if m == 64 { 10_080 } else { m + 1 }, DAY)).collect();
        assert_eq!(answer(&minutes, 0), (24, [0xAA; 2]));
        assert_eq!(answer(&[minutes[..63].to_vec(), vec![rule(63, 10_080, DAY)]].concat(), 0), (0, [0, 0]));
    }

    #[test]
    fn refused_by_25_before_26() {
        assert_eq!(answer(&[], 0), (25, [0xAA; 2]));
        assert_eq!(answer(&[rule(1, 10_080, DAY)], 0), (25, [0xAA; 2]));
        assert_eq!(answer(&[rule(0, 10_079, DAY)], 0), (25, [0xAA; 2]));
        assert_eq!(answer(&[rule(0, 60, DAY), rule(61, 10_080, DAY)], 0), (25, [0xAA; 2]));
        assert_eq!(answer(&[rule(0, 61, DAY), rule(60, 10_080, DAY)], 0), (26, [0xAA; 2]));
        assert_eq!(answer(&[rule(0, 61, DAY), rule(60, 10_079, DAY)], 0), (25, [0xAA; 2]));
    }
}
