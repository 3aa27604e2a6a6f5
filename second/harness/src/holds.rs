//! Random calls of drm_hold_sizes, drm_store_.., drm_to_.. and drm_restore_.. beside the second program's own (02, S-7).

use crate::archive::Guarded;
use crate::beside::{both, Lent, Seen};
use crate::damage::{last_settings, length, put_x, setting, table};
use crate::draw::Draw;
use crate::lent::first;
use crate::own;
use second::hold::{byte_of, Form};
use second::settings::{Settings, PAIRINGS};
use second::superframe::State;
use second::table::Table;

/// The functions of a program; of each pair the first is for the old form: of a file stored, turned to the other form, restored.
pub struct Hold {
    /// Settings, sizes.
    pub sizes: fn(&[u8], &mut [u32]) -> u8,
    /// State, memory, file.
    pub store: [fn(&[u8], &[u8], &mut [u8]) -> u8; 2],
    /// Settings, file, the other file: to new, to old.
    pub convert: [fn(&[u8], &[u8], &mut [u8]) -> u8; 2],
    /// State, settings, file, memory.
    pub restore: [fn(&mut [u8], &[u8], &[u8], &mut [u8]) -> u8; 2],
    /// State, settings, table, file, memory.
    pub restore_table: [fn(&mut [u8], &[u8], &[u8], &[u8], &mut [u8]) -> u8; 2],
}

pub const OWN: Hold = Hold {
    sizes: own::hold_sizes,
    store: [own::store_old, own::store_new],
    convert: [own::to_new, own::to_old],
    restore: [own::restore_old, own::restore_new],
    restore_table: [own::restore_old_table, own::restore_new_table],
};

/// Changed calls of each kind beside a good one.
const CHANGED: usize = 8;

#[derive(Clone, Copy, PartialEq, Eq, Debug)]
enum Kind {
    Sizes,
    Store,
    Convert,
    Restore,
    RestoreTable,
}

const KINDS: [Kind; 5] = [Kind::Sizes, Kind::Store, Kind::Convert, Kind::Restore, Kind::RestoreTable];

impl Kind {
    fn name(self) -> &'static str {
        ["hold_sizes", "store", "to the other form", "restore", "restore with a table"][self as usize]
    }

    /// The answers that it can give.
    fn possible(self) -> Vec<u8> {
        let own: &[u8] = match self {
            Kind::Sizes => &[],
            Kind::Store => &[8, 10, 12, 23],
            Kind::Convert => &[10, 18],
            Kind::Restore => &[8, 18],
            Kind::RestoreTable => &[8, 18, 23],
        };
        (0..=7).chain([255]).chain(own.iter().copied()).collect()
    }
}

#[derive(Clone)]
struct Call {
    kind: Kind,
    form: Form,
    settings: Vec<u8>,
    sizes: Vec<u32>,
    state: Vec<u8>,
    memory: Vec<u8>,
    table: Vec<u8>,
    file: Vec<u8>,
    /// The file in the other form.
    other: Vec<u8>,
}

impl Lent<Hold> for Call {
    fn make(&mut self, program: &Hold) -> Result<u16, String> {
        let mut sizes = Guarded::new(&self.sizes, 0xA5A5A5A5);
        let buffers = [&self.settings, &self.state, &self.memory, &self.table, &self.file, &self.other];
        let [mut settings, mut state, mut memory, mut table, mut file, mut other] = buffers.map(|b| Guarded::new(b, 0xA5));
        let form = (self.form == Form::New) as usize;
        let answer = match self.kind {
            Kind::Sizes => (program.sizes)(settings.lent(), sizes.lent()),
            Kind::Store => (program.store[form])(state.lent(), memory.lent(), file.lent()),
            Kind::Convert => (program.convert[form])(settings.lent(), file.lent(), other.lent()),
            Kind::Restore => (program.restore[form])(state.lent(), settings.lent(), file.lent(), memory.lent()),
            Kind::RestoreTable => (program.restore_table[form])(
                state.lent(), settings.lent(), table.lent(), file.lent(), memory.lent(),
            ),
        };
        sizes.back("sizes", &mut self.sizes)?;
        settings.back("settings", &mut self.settings)?;
        state.back("state", &mut self.state)?;
        memory.back("memory", &mut self.memory)?;
        table.back("table", &mut self.table)?;
        file.back("file", &mut self.file)?;
        other.back("the other file", &mut self.other)?;
        Ok(answer as u16)
    }

    fn difference(&self, right: &Call) -> Option<String> {
        first("settings", &self.settings, &right.settings)
            .or_else(|| first("sizes", &self.sizes, &right.sizes))
            .or_else(|| first("state", &self.state, &right.state))
            .or_else(|| first("memory", &self.memory, &right.memory))
            .or_else(|| first("table", &self.table, &right.table))
            .or_else(|| first("file", &self.file, &right.file))
            .or_else(|| first("the other file", &self.other, &right.other))
    }
}

/// Makes all calls with both programs; a line about each kind, or where they differ.
pub fn calls(seed: u64, own: &Hold, archive: &Hold) -> Result<String, String> {
    let mut run = Run { draw: Draw(seed), own, archive, seen: KINDS.map(|_| Seen::default()) };
    for pairing in PAIRINGS {
        for msc in 0..4 {
            for interleaving in 0..2 {
                let s = run.draw.settings(pairing, msc, interleaving);
                for form in [Form::Old, Form::New] {
                    run.all(&s, form).map_err(|e| format!("hold, settings {}, {form:?}: {e}", s.hex()))?;
                }
            }
        }
    }
    let lines: Result<Vec<String>, String> =
        KINDS.iter().zip(&run.seen).map(|(kind, seen)| seen.line(kind.name(), &kind.possible())).collect();
    Ok(lines?.join("\n"))
}

struct Run<'a> {
    draw: Draw,
    own: &'a Hold,
    archive: &'a Hold,
    seen: [Seen; 5],
}

impl Run<'_> {
    /// Stores a memory, turns the file into the other form and restores it, with changed calls before each.
    fn all(&mut self, s: &Settings, form: Form) -> Result<(), String> {
        let draw = &mut self.draw;
        let table = draw.table();
        let state = state(s, table, draw).bytes().to_vec();
        let memory: Vec<u8> = (0..s.slots() * s.n_mux()).map(|_| point(s, draw)).collect();
        let sizes = (0..2).map(|_| draw.word() as u32).collect();
        let other_form = if form == Form::Old { Form::New } else { Form::Old };
        let (file, other) = (draw.old_bytes(form.bytes(s)), draw.old_bytes(other_form.bytes(s)));
        let settings = s.bytes().to_vec();
        let table = table.to_vec();
        let mut call = Call { kind: Kind::Sizes, form, settings, sizes, state, memory, table, file, other };
        let before = call.clone();
        for kind in KINDS {
            call.kind = kind;
            if matches!(kind, Kind::Restore | Kind::RestoreTable) {
                call.state.iter_mut().chain(&mut call.memory).for_each(|b| *b = self.draw.byte());
            }
            self.good(s, &mut call)?;
        }
        match (&call.state, &call.memory) == (&before.state, &before.memory) {
            true => Ok(()),
            false => Err("what was stored is not restored".to_string()),
        }
    }

    /// Changed calls on copies, then the good one.
    fn good(&mut self, s: &Settings, call: &mut Call) -> Result<(), String> {
        for _ in 0..CHANGED {
            let mut copy = call.clone();
            spoil(s, &mut copy, &mut self.draw);
            self.call(&mut copy)?;
        }
        match self.call(call)? {
            0 => Ok(()),
            n => Err(format!("a good call, {}, is refused by {n}", call.kind.name())),
        }
    }

    fn call(&mut self, call: &mut Call) -> Result<u16, String> {
        let answer = both(call, self.own, self.archive).map_err(|e| format!("{}: {e}", call.kind.name()))?;
        self.seen[call.kind as usize].take(answer as u8);
        Ok(answer)
    }
}

/// A state that 12 lets pass.
fn state(s: &Settings, table: Table, draw: &mut Draw) -> State {
    let mut any = || draw.below(s.slots()) as u8;
    State { settings: *s, position: any(), count: any(), table }
}

/// The byte of any MSC point.
fn point(s: &Settings, draw: &mut Draw) -> u8 {
    byte_of((draw.coordinate(s.msc_top()), draw.coordinate(s.msc_top())))
}

/// One to three changes.
fn spoil(s: &Settings, call: &mut Call, draw: &mut Draw) {
    for _ in 0..draw.pick(&[1, 1, 1, 2, 2, 3]) {
        let settings = if call.kind == Kind::Store { &mut call.state } else { &mut call.settings };
        match draw.below(18) {
            0 => length(settings, draw),
            1 => setting(settings, draw),
            2 => put_x(settings, draw),
            3 => last_settings(settings, draw),
            4 => length(&mut call.sizes, draw),
            5 => length(&mut call.state, draw),
            6 => length(&mut call.memory, draw),
            7 => length(&mut call.file, draw),
            8 => length(&mut call.other, draw),
            9 => put(&mut call.state, draw.pick(&[10, 11]), draw.pick(&[0, 1, 4, 5, 255])),
            10 => {
                let any = draw.byte();
                put(&mut call.memory, draw.below(s.n_mux()), draw.pick(&[0, any, any, 0x55, 0x88, 0x10]))
            }
            11 => put(&mut call.memory, 0, point(s, draw)),
            12 => first_line(&mut call.file, draw),
            13 => cell(s, call, draw),
            14 => digit(&mut call.file, draw),
            15 => table(&mut call.table, draw),
            16 => table(call.state.get_mut(12..).unwrap_or_default(), draw),
            17 if draw.below(2) == 0 => length(&mut call.table, draw),
            _ => lines(&mut call.file, draw),
        }
    }
}

fn put(bytes: &mut [u8], at: usize, value: u8) {
    if let Some(b) = bytes.get_mut(at) {
        *b = value;
    }
}

/// Another position or count.
fn first_line(file: &mut [u8], draw: &mut Draw) {
    put(file, draw.below(2), draw.pick(b"01234455678F\n a"));
}

/// Any byte that may or may not be a digit.
fn digit(file: &mut [u8], draw: &mut Draw) {
    if let Some(at) = draw.place(file) {
        let any = draw.byte();
        file[at] = draw.pick(&[b'0', b'1', b'F', b'G', b'@', b'/', b':', b'a', b'f', b' ', b'\n', b'\r', 0, any]);
    }
}

/// The digits of another cell, a point or not, a number outside four bits among them.
fn cell(s: &Settings, call: &mut Call, draw: &mut Draw) {
    let at = draw.below(s.n_mux());
    let (a, b) = (draw.coordinate(s.msc_top()), draw.coordinate(s.msc_top()));
    let wide = draw.number();
    let (a, b) = draw.pick(&[(a, b), (0, 0), (a, 5), (-7, b), (a, 16 + b), (a - 16, b), (wide, b), (a, wide), (a, 0)]);
    let digits = match call.form {
        Form::Old => format!("{a:04X}{b:04X}"),
        Form::New => format!("{:02X}", byte_of((a, b))),
    };
    let at = 3 + at * digits.len();
    if let Some(place) = call.file.get_mut(at..at + digits.len()) {
        place.copy_from_slice(digits.as_bytes());
    }
}

/// A line feed moved, a line left out or one more, or a carriage return before a line feed.
fn lines(file: &mut Vec<u8>, draw: &mut Draw) {
    let feeds: Vec<usize> = (0..file.len()).filter(|&i| file[i] == b'\n').collect();
    let Some(k) = draw.place(&feeds) else { return };
    let at = feeds[k];
    match draw.below(5) {
        0 => drop(file.remove(at)),
        1 => file.insert(at, b'\n'),
        2 if at > 0 => file.swap(at, at - 1),
        3 => file.insert(at, b'\r'),
        _ => drop(file.drain(..=at)),
    }
}

#[cfg(test)]
mod tests {
    use super::*;

    #[test]
    fn every_answer_occurs() {
        println!("{}", calls(1, &OWN, &OWN).unwrap());
    }

    #[test]
    fn another_answer_is_found() {
        /// Cuts old numbers to four bits.
        fn to_new(settings: &[u8], old_file: &[u8], new_file: &mut [u8]) -> u8 {
            let mut cut = old_file.to_vec();
            for line in cut.split_mut(|b| *b == b'\n').skip(1) {
                for number in line.chunks_exact_mut(4) {
                    let sign = if number[3] < b'8' { b'0' } else { b'F' };
                    number[..3].fill(sign);
                }
            }
            own::to_new(settings, &cut, new_file)
        }
        assert!(calls(1, &OWN, &Hold { convert: [to_new, own::to_old], ..OWN }).is_err());
    }
}
