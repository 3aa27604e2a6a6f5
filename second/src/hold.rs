//! Hold files (02, S-7): the interleaving memory as lines of hexadecimal, in the old and in the new form.
//!
//! Memory here is bytes, one a cell; inside it is a plain list of cells.

use crate::mapping::is_coordinate;
use crate::settings::Settings;
use crate::superframe::State;
use crate::table::{passes, STANDARD};

/// Real and imaginary number.
pub type Cell = (i16, i16);

#[derive(Clone, Copy, PartialEq, Eq, Debug)]
pub enum Form {
    /// Eight digits a cell, two 16-bit two's-complement numbers.
    Old,
    /// Two digits a cell, two 4-bit two's-complement numbers.
    New,
}

impl Form {
    /// Digits of one number.
    fn digits(self) -> usize {
        match self {
            Form::Old => 4,
            Form::New => 1,
        }
    }

    /// Bytes of a file: the first line's two digits, and a line for each slot, each with its line feed.
    pub fn bytes(self, s: &Settings) -> usize {
        3 + s.slots() * (2 * self.digits() * s.n_mux() + 1)
    }
}

/// The memory's byte of a cell with coordinates −8 to 7: the real one in the high half.
pub fn byte_of((real, imaginary): Cell) -> u8 {
    ((real & 15) << 4 | imaginary & 15) as u8
}

pub fn cell_of(byte: u8) -> Cell {
    let signed = |half: u8| if half < 8 { half as i16 } else { half as i16 - 16 };
    (signed(byte >> 4), signed(byte & 15))
}

/// Memory of numbers, real before imaginary, as bytes.
pub fn bytes_of_numbers(numbers: &[i16]) -> Vec<u8> {
    numbers.chunks_exact(2).map(|n| byte_of((n[0], n[1]))).collect()
}

/// Memory of bytes as numbers, real before imaginary.
pub fn numbers_of_bytes(bytes: &[u8]) -> Vec<i16> {
    bytes.iter().flat_map(|&b| [cell_of(b).0, cell_of(b).1]).collect()
}

/// Cells that a memory of this length has.
fn memory_cells(s: &Settings) -> usize {
    s.slots() * s.n_mux()
}

fn are_points(cells: &[Cell], s: &Settings) -> bool {
    let top = s.msc_top();
    cells.iter().all(|&(real, imaginary)| is_coordinate(real, top) && is_coordinate(imaginary, top))
}

/// What a file says.
#[derive(Clone, PartialEq, Eq, Debug)]
struct Held {
    position: u8,
    count: u8,
    /// Slot after slot.
    cells: Vec<Cell>,
}

impl Held {
    /// The file's bytes.
    fn file(&self, form: Form, s: &Settings) -> Vec<u8> {
        let mut text = format!("{:X}{:X}\n", self.position, self.count);
        for slot in self.cells.chunks(s.n_mux()) {
            for (real, imaginary) in slot {
                text += &match form {
                    Form::Old => format!("{real:04X}{imaginary:04X}"),
                    Form::New => format!("{:02X}", byte_of((*real, *imaginary))),
                };
            }
            text += "\n";
        }
        text.into_bytes()
    }

    /// What a file says, if it is one of this form and these settings; otherwise it is refused by 18.
    fn of_file(form: Form, s: &Settings, file: &[u8]) -> Option<Held> {
        let mut lines: Vec<&[u8]> = file.split(|&b| b == b'\n').collect();
        // Nothing stands after the last line feed.
        if lines.pop() != Some(&[]) || lines.len() != 1 + s.slots() || lines[0].len() != 2 {
            return None;
        }
        let (position, count) = (number_of(&lines[0][..1])? as u8, number_of(&lines[0][1..])? as u8);
        let mut cells = Vec::new();
        for line in &lines[1..] {
            if line.len() != 2 * form.digits() * s.n_mux() {
                return None;
            }
            for cell in line.chunks(2 * form.digits()) {
                let (real, imaginary) = cell.split_at(form.digits());
                cells.push((signed_of(form, real)?, signed_of(form, imaginary)?));
            }
        }
        let in_range = State { settings: *s, position, count, ..State::default() }.in_range();
        (in_range && are_points(&cells, s)).then_some(Held { position, count, cells })
    }
}

/// The number of some digits 0 to 9 and A to F.
fn number_of(digits: &[u8]) -> Option<u16> {
    let mut number = 0;
    for digit in digits {
        let value = match digit {
            b'0'..=b'9' => digit - b'0',
            b'A'..=b'F' => digit - b'A' + 10,
            _ => return None,
        };
        number = 16 * number + value as u16;
    }
    Some(number)
}

/// A two's-complement number of 16 or 4 bits.
fn signed_of(form: Form, digits: &[u8]) -> Option<i16> {
    let number = number_of(digits)?;
    Some(match form {
        Form::Old => number as i16,
        Form::New if number < 8 => number as i16,
        Form::New => number as i16 - 16,
    })
}

/// Bytes of an old and of a new file.
pub fn sizes(s: &Settings) -> [usize; 2] {
    [Form::Old.bytes(s), Form::New.bytes(s)]
}

/// Writes the file of a state and memory; 0, or the refusal, with nothing written.
pub fn store(form: Form, state: &State, memory: &[u8], file: &mut [u8]) -> u8 {
    let s = &state.settings;
    if s.refusal() != 0 {
        return s.refusal();
    }
    if !passes(&state.table) {
        return 23;
    }
    if memory.len() != memory_cells(s) {
        return 8;
    }
    if file.len() != form.bytes(s) {
        return 10;
    }
    let cells: Vec<Cell> = memory.iter().map(|&b| cell_of(b)).collect();
    if !state.in_range() || !are_points(&cells, s) {
        return 12;
    }
    file.copy_from_slice(&Held { position: state.position, count: state.count, cells }.file(form, s));
    0
}

/// Writes the other form of a file; 0, or the refusal, with nothing written.
fn convert(from: Form, to: Form, s: &Settings, file: &[u8], out: &mut [u8]) -> u8 {
    if s.refusal() != 0 {
        return s.refusal();
    }
    if out.len() != to.bytes(s) {
        return 10;
    }
    let Some(held) = Held::of_file(from, s, file) else { return 18 };
    out.copy_from_slice(&held.file(to, s));
    0
}

pub fn to_new(s: &Settings, old_file: &[u8], new_file: &mut [u8]) -> u8 {
    convert(Form::Old, Form::New, s, old_file, new_file)
}

pub fn to_old(s: &Settings, new_file: &[u8], old_file: &mut [u8]) -> u8 {
    convert(Form::New, Form::Old, s, new_file, old_file)
}

/// Takes state and memory from a file, with the standard's table; the number of the refusal, or 0, comes with the state.
/// Nothing in the old state is looked at.
pub fn restore(form: Form, old: State, s: &Settings, file: &[u8], memory: &mut [u8]) -> (State, u8) {
    restore_table(form, old, s, &STANDARD, file, memory)
}

/// The same with a table of one's own, which a file doesn't hold.
pub fn restore_table(
    form: Form, old: State, s: &Settings, table: &[u8], file: &[u8], memory: &mut [u8],
) -> (State, u8) {
    if s.refusal() != 0 {
        return (old, s.refusal());
    }
    if !passes(table) {
        return (old, 23);
    }
    if memory.len() != memory_cells(s) {
        return (old, 8);
    }
    let Some(held) = Held::of_file(form, s, file) else { return (old, 18) };
    for (byte, cell) in memory.iter_mut().zip(&held.cells) {
        *byte = byte_of(*cell);
    }
    let table = table.try_into().expect("a table that passes");
    (State { settings: *s, position: held.position, count: held.count, table }, 0)
}

#[cfg(test)]
mod tests {
    use super::*;
    use crate::buffers::{code_buffers, old_memory, BitBuffers, CellBuffers};
    use crate::digest::Random;
    use crate::settings::SM16;
    use crate::superframe::reset;

    /// B/0, 966 cells a frame, short interleaving: one slot.
    const SHORT: Settings = Settings {
        mode: 1, occupancy: 0, msc: 0, level_a: 0, level_b: 0, vspp: 0, x: 0, sdc: 0, interleaving: 1,
    };
    const LONG: Settings = Settings { interleaving: 0, ..SHORT };

    #[test]
    fn a_cell_is_two_halves_of_a_byte() {
        assert_eq!([byte_of((-7, 5)), byte_of((1, -1)), byte_of((7, 3))], [0x95, 0x1F, 0x73]);
        assert_eq!([cell_of(0x95), cell_of(0x1F), cell_of(0x88), cell_of(0)], [(-7, 5), (1, -1), (-8, -8), (0, 0)]);
        assert!((0..=255).all(|b| byte_of(cell_of(b)) == b));
        assert_eq!(bytes_of_numbers(&[-7, 5, 1, -1]), [0x95, 0x1F]);
        assert_eq!(numbers_of_bytes(&[0x95, 0x1F]), [-7, 5, 1, -1]);
    }

    #[test]
    fn sizes_by_hand() {
        assert_eq!(sizes(&SHORT), [3 + 8 * 966 + 1, 3 + 2 * 966 + 1]);
        assert_eq!(sizes(&LONG), [3 + 5 * (8 * 966 + 1), 3 + 5 * (2 * 966 + 1)]);
    }

    /// A file of the short settings, all cells but the first the same.
    fn short_file(first_line: &str, cell: &str, others: &str) -> Vec<u8> {
        format!("{first_line}\n{cell}{}\n", others.repeat(965)).into_bytes()
    }

    #[test]
    fn both_forms_by_hand() {
        let mut memory = vec![0x73; 966];
        memory[0] = 0x9F;
        let state = State { settings: SHORT, ..State::default() };
        let (mut old, mut new) = (vec![0; 7732], vec![0; 1936]);
        assert_eq!(store(Form::Old, &state, &memory, &mut old), 0);
        assert_eq!(old, short_file("00", "FFF9FFFF", "00070003"));
        assert_eq!(store(Form::New, &state, &memory, &mut new), 0);
        assert_eq!(new, short_file("00", "9F", "73"));
        let (mut to_old_file, mut to_new_file) = (vec![1; 7732], vec![1; 1936]);
        assert_eq!((to_old(&SHORT, &new, &mut to_old_file), to_new(&SHORT, &old, &mut to_new_file)), (0, 0));
        assert_eq!((to_old_file, to_new_file), (old.clone(), new.clone()));
        for (form, file) in [(Form::Old, &old), (Form::New, &new)] {
            let mut restored = vec![1; 966];
            assert_eq!(restore(form, State::default(), &SHORT, file, &mut restored), (state, 0));
            assert_eq!(restored, memory);
        }
    }

    /// One frame a line: slot 0 first.
    #[test]
    fn lines_are_slots() {
        let memory: Vec<u8> = [0x11, 0x33, 0x55, 0x77, 0xFF].iter().flat_map(|&b| [b; 966]).collect();
        let state = State { settings: LONG, position: 3, count: 4, table: STANDARD };
        let mut file = vec![0; 3 + 5 * (2 * 966 + 1)];
        assert_eq!(store(Form::New, &state, &memory, &mut file), 0);
        let lines = ["34", &"11".repeat(966), &"33".repeat(966), &"55".repeat(966), &"77".repeat(966), &"FF".repeat(966), ""];
        assert_eq!(String::from_utf8(file).unwrap(), lines.join("\n"));
    }

    #[test]
    fn files_that_are_refused() {
        let good = short_file("00", "9F", "73");
        let mut bad = vec![
            short_file("10", "9F", "73"),
            short_file("01", "9F", "73"),
            short_file("00", "00", "73"),
            short_file("00", "8F", "73"),
            short_file("00", "9f", "73"),
            short_file("00", "9 ", "73"),
            short_file("00", "9F7", "73"),
            short_file("00", "9", "73"),
            short_file("000", "9F", "73"),
            short_file("0", "9F", "73"),
            [&good[..], b"\n"].concat(),
            good[..good.len() - 1].to_vec(),
            [&good[..good.len() - 1], b"\r"].concat(),
            [&good[..3], &good[3..], &good[3..]].concat(),
            Vec::new(),
        ];
        bad.push(good.iter().map(|&b| if b == b'\n' { b'7' } else { b }).collect());
        for file in bad {
            let mut memory = vec![1; 966];
            assert_eq!(restore(Form::New, State::default(), &SHORT, &file, &mut memory), (State::default(), 18));
            assert_eq!((memory, to_old(&SHORT, &file, &mut vec![0; 7732])), (vec![1; 966], 18));
        }
        for cell in ["00190007", "FFF90009", "00000000", "80000001", "0001FFF7", "00010F01"] {
            assert_eq!(to_new(&SHORT, &short_file("00", cell, "00070003"), &mut vec![0; 1936]), 18, "{cell}");
        }
        let sixteen = Settings { msc: SM16, ..SHORT };
        assert_eq!(to_old(&sixteen, &short_file("00", "5F", "33"), &mut vec![0; 7732]), 18);
        assert_eq!(to_old(&sixteen, &short_file("00", "DF", "33"), &mut vec![0; 7732]), 0);
    }

    #[test]
    fn refusals_in_order() {
        let file = short_file("00", "9F", "73");
        let bad = Settings { sdc: 2, ..SHORT };
        let state = State { settings: SHORT, position: 1, count: 0, table: STANDARD };
        assert_eq!(store(Form::New, &State { settings: bad, ..state }, &[], &mut []), 6);
        let no_table = State { table: [1; 196], ..state };
        assert_eq!(store(Form::New, &no_table, &[], &mut []), 23);
        assert_eq!(store(Form::New, &state, &[], &mut []), 8);
        assert_eq!(store(Form::New, &state, &[0; 966], &mut []), 10);
        assert_eq!(store(Form::New, &state, &[0x11; 966], &mut [0; 1936]), 12);
        assert_eq!(store(Form::New, &State { position: 0, ..state }, &[0; 966], &mut [0; 1936]), 12);
        assert_eq!(to_old(&bad, &file, &mut []), 6);
        assert_eq!(to_old(&SHORT, &file[1..], &mut []), 10);
        assert_eq!(to_old(&SHORT, &file[1..], &mut [0; 7732]), 18);
        assert_eq!(restore(Form::New, state, &bad, &file, &mut []), (state, 6));
        assert_eq!(restore_table(Form::New, state, &bad, &[], &file, &mut []), (state, 6));
        assert_eq!(restore_table(Form::New, state, &SHORT, &[1; 196], &file, &mut []), (state, 23));
        assert_eq!(restore_table(Form::New, state, &SHORT, &STANDARD[1..], &file, &mut []), (state, 23));
        // The old state's table is not looked at.
        assert_eq!(restore(Form::New, no_table, &SHORT, &[], &mut []), (no_table, 8));
        assert_eq!(restore(Form::New, state, &SHORT, &[], &mut [0; 966]), (state, 18));
    }

    /// A run restored from either file sends the cells of the uninterrupted one.
    #[test]
    fn a_restored_run_goes_on() {
        let mut random = Random(7);
        let s = LONG;
        let mut memory = old_memory(&s);
        let (mut state, _) = reset(State::default(), s, &mut memory);
        let mut cells = CellBuffers::filled(&s, 0);
        for _ in 0..2 {
            let bits = BitBuffers::random(&s, &mut random, true);
            assert_eq!(code_buffers(&mut state, &mut memory, &bits, &mut cells), 0);
        }
        for form in [Form::Old, Form::New] {
            let mut file = vec![0; form.bytes(&s)];
            assert_eq!(store(form, &state, &bytes_of_numbers(&memory), &mut file), 0);
            let mut bytes = vec![0; memory.len() / 2];
            let (mut restored, answer) = restore(form, State::default(), &s, &file, &mut bytes);
            let mut numbers = numbers_of_bytes(&bytes);
            assert_eq!((restored, answer, &numbers), (state, 0, &memory));
            let (bits, mut other) = (BitBuffers::random(&s, &mut random, true), CellBuffers::filled(&s, 0));
            let (mut state, mut memory) = (state, memory.clone());
            assert_eq!(code_buffers(&mut restored, &mut numbers, &bits, &mut cells), 0);
            assert_eq!(code_buffers(&mut state, &mut memory, &bits, &mut other), 0);
            assert_eq!((restored, numbers, &cells), (state, memory, &other));
        }
    }
}
