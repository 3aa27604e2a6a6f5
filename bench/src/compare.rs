//! The tuned version's answers, cells, bits, states and memories beside the archive's, over random settings.

use harness::archive;
use harness::damage::{ignored, spoil};
use harness::draw::Draw;
use harness::lent::{Kind, Lent};
use second::forms::MemoryElement;
use second::memory::Element;
use second::settings::{Settings, PAIRINGS};
use second::superframe::STATE_BYTES;
use second::table::STANDARD;
use std::collections::BTreeMap;
use tuned::Tuned;

const SEED: u64 = 27;
/// Settings of each pairing, MSC mode and interleaving, super frames of a run, and changed calls beside each good one.
const SETTINGS: usize = 4;
const SUPER_FRAMES: usize = 4;
const CHANGED: usize = 6;

/// One coder and reader of each kind for all settings, so that kept tables must follow them.
struct Beside {
    draw: Draw,
    one: Tuned<1>,
    three: Tuned<3>,
    /// How often each refusal was answered, by kind of call; 0 is acceptance.
    seen: BTreeMap<(&'static str, u8), usize>,
}

/// Runs of Code and Read from a reset, with changed calls beside them; panics where programs differ.
pub fn all() {
    let (draw, seen) = (Draw(SEED), BTreeMap::new());
    let mut beside = Beside { draw, one: Tuned::new(false), three: Tuned::new(true), seen };
    for pairing in PAIRINGS {
        for msc in 0..4 {
            for interleaving in 0..2 {
                for _ in 0..SETTINGS {
                    let s = beside.draw.settings(pairing, msc, interleaving);
                    beside.run(&s);
                }
            }
        }
    }
    println!("no difference between the tuned version and the library in {} settings:", SETTINGS * 8 * PAIRINGS.len());
    for ((kind, refusal), times) in &beside.seen {
        match refusal {
            0 => println!("{kind}: {times} calls accepted"),
            _ => println!("{kind}: {times} refused by {refusal}"),
        }
    }
}

impl Beside {
    fn run(&mut self, s: &Settings) {
        let (mut coder, mut reader) = (self.reset(s), self.reset(s));
        for _ in 0..SUPER_FRAMES {
            [coder.fac, coder.sdc, coder.msc] = self.draw.super_frame(s);
            self.calls(Kind::Code, &mut coder, s);
            (reader.fac_cells, reader.sdc_cells) = (coder.fac_cells.clone(), coder.sdc_cells.clone());
            reader.msc_cells = coder.msc_cells.clone();
            ignored(&mut reader, s, &mut self.draw);
            self.calls(Kind::Read, &mut reader, s);
        }
    }

    /// What a call is lent after the library's reset.
    fn reset(&mut self, s: &Settings) -> Lent {
        let z = s.sizes();
        let draw = &mut self.draw;
        let [fac, sdc, msc] = [27, z.sdc_bytes, z.msc_bytes].map(|n| draw.old_bytes(n));
        let [fac_cells, sdc_cells, msc_cells] =
            [z.fac_numbers, z.sdc_numbers, z.msc_numbers].map(|n| draw.old_numbers(n));
        let (settings, state) = (s.bytes().to_vec(), vec![0; STATE_BYTES]);
        let memory = vec![0; z.memory_numbers];
        let mut lent =
            Lent { settings, state, memory, fac, sdc, msc, fac_cells, sdc_cells, msc_cells, ..Lent::default() };
        assert_eq!(archive::answer(Kind::Reset, &mut lent), Ok(0));
        lent
    }

    /// Changed copies of a good call, and the call itself.
    fn calls(&mut self, kind: Kind, lent: &mut Lent, s: &Settings) {
        for _ in 0..CHANGED {
            let mut copy = lent.clone();
            spoil(kind, &mut copy, s, &mut self.draw);
            self.call(kind, &mut copy, s);
        }
        let answer = self.call(kind, lent, s);
        assert_eq!(kind.refusal(answer), 0, "{}: a good call is refused", s.hex());
    }

    /// One call of each program, which must leave the same behind; the tuned version knows no other table.
    fn call(&mut self, kind: Kind, lent: &mut Lent, s: &Settings) -> u16 {
        lent.memory = MemoryElement::numbers(&MemoryElement::memory(&lent.memory));
        let [mut one, mut three] = [lent.clone(), lent.clone()];
        let answer = archive::answer(kind, lent).expect("guards");
        if lent.state.get(12..).is_some_and(|table| table != STANDARD) && lent.state.len() == STATE_BYTES {
            return answer;
        }
        let answers = [answer_of(&mut self.one, kind, &mut one), answer_of(&mut self.three, kind, &mut three)];
        assert_eq!(answers, [answer; 2], "{} {}", kind.name(), s.hex());
        for tuned in [&one, &three] {
            if let Some(place) = tuned.difference(lent) {
                panic!("{} {}, answer {answer}: {place}", kind.name(), s.hex());
            }
        }
        *self.seen.entry((kind.name(), kind.refusal(answer))).or_default() += 1;
        answer
    }
}

/// The tuned version's answer to a call of Code or Read.
fn answer_of<const L: usize>(tuned: &mut Tuned<L>, kind: Kind, lent: &mut Lent) -> u16 {
    let Lent { state, fac, sdc, msc, fac_cells, sdc_cells, msc_cells, .. } = lent;
    let mut memory = MemoryElement::memory(&lent.memory);
    let answer = match kind {
        Kind::Code => tuned.code(state, &mut memory, [fac, sdc, msc], [fac_cells, sdc_cells, msc_cells]) as u16,
        _ => tuned.read(state, &mut memory, [fac_cells, sdc_cells, msc_cells], [fac, sdc, msc]),
    };
    lent.memory = MemoryElement::numbers(&memory);
    answer
}
