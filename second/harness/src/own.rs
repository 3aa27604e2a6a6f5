//! The second program's own results, under the same interface; nothing here comes from the archive.

use crate::lent::{Kind, Lent};
use second::fac;
use second::hold::{self, Form};
use second::how_long;
use second::memory::Element;
use second::{preview, read_on};
use second::settings::Settings;
use second::streams;
use second::superframe::{self, Answer, Bits, BitsMut, Cells, CellsMut, State, STATE_BYTES};
use second::table::STANDARD;

const SETTINGS_BYTES: usize = 10;

/// A settings, state, lengths or sizes slice of the wrong length.
const BAD_SLICE: u8 = 255;

pub fn lengths(settings: &[u8], lengths: &mut [u16]) -> u8 {
    let Ok(bytes) = <[u8; SETTINGS_BYTES]>::try_from(settings) else { return BAD_SLICE };
    if lengths.len() != 5 {
        return BAD_SLICE;
    }
    let s = Settings::from_bytes(bytes);
    if s.refusal() == 0 {
        let l = s.lengths();
        lengths.copy_from_slice(&[l.n1, l.n2, l.l1, l.l2, l.vspp].map(|v| v as u16));
    }
    s.refusal()
}

pub fn sizes(settings: &[u8], sizes: &mut [u32]) -> u8 {
    let Ok(bytes) = <[u8; SETTINGS_BYTES]>::try_from(settings) else { return BAD_SLICE };
    if sizes.len() != 6 {
        return BAD_SLICE;
    }
    let s = Settings::from_bytes(bytes);
    if s.refusal() == 0 {
        let z = s.sizes();
        let all = [z.sdc_bytes, z.msc_bytes, z.fac_numbers, z.sdc_numbers, z.msc_numbers, z.memory_lent()];
        sizes.copy_from_slice(&all.map(|v| v as u32));
    }
    s.refusal()
}

pub fn reset(state: &mut [u8], settings: &[u8], memory: &mut [i16]) -> u8 {
    let Ok(bytes) = <[u8; SETTINGS_BYTES]>::try_from(settings) else { return BAD_SLICE };
    let Some(old) = state_of(state) else { return BAD_SLICE };
    let (next, answer) = superframe::reset(old, Settings::from_bytes(bytes), memory);
    put_state(&next, state);
    answer
}

pub fn reset_table<U: Element>(state: &mut [u8], settings: &[u8], table: &[u8], memory: &mut [U]) -> u8 {
    let Ok(bytes) = <[u8; SETTINGS_BYTES]>::try_from(settings) else { return BAD_SLICE };
    let Some(old) = state_of(state) else { return BAD_SLICE };
    let settings = Settings::from_bytes(bytes);
    let (next, answer) = U::with_numbers(memory, |numbers| superframe::reset_table(old, settings, table, numbers));
    put_state(&next, state);
    answer
}

/// Bytes and cells in the order FAC, SDC, MSC.
pub fn code(state: &mut [u8], memory: &mut [i16], bytes: [&[u8]; 3], cells: [&mut [i16]; 3]) -> u8 {
    code_of(state, memory, bytes, cells)
}

/// Code with memory in any form.
pub fn code_of<U: Element>(
    state: &mut [u8], memory: &mut [U], bytes: [&[u8]; 3], cells: [&mut [i16]; 3],
) -> u8 {
    let Some(old) = state_of(state) else { return BAD_SLICE };
    let [fac, sdc, msc] = bytes;
    let bits = Bits { fac, sdc, msc };
    let [fac, sdc, msc] = cells;
    let cells = CellsMut { fac, sdc, msc };
    let (next, answer) = U::with_numbers(memory, |numbers| superframe::code(old, numbers, bits, cells));
    put_state(&next, state);
    answer
}

/// Cells and bytes in the order FAC, SDC, MSC.
pub fn read(state: &mut [u8], memory: &mut [i16], cells: [&[i16]; 3], bytes: [&mut [u8]; 3]) -> u16 {
    read_of(state, memory, cells, bytes)
}

/// Read with memory in any form.
pub fn read_of<U: Element>(
    state: &mut [u8], memory: &mut [U], cells: [&[i16]; 3], bytes: [&mut [u8]; 3],
) -> u16 {
    let Some(old) = state_of(state) else { return BAD_SLICE as u16 * 256 };
    let [fac, sdc, msc] = cells;
    let cells = Cells { fac, sdc, msc };
    let [fac, sdc, msc] = bytes;
    let bits = BitsMut { fac, sdc, msc };
    let (next, answer) = U::with_numbers(memory, |numbers| superframe::read(old, numbers, cells, bits));
    put_state(&next, state);
    number_of(answer)
}

/// Preview, with memory as bytes; `next` is written with answer 0 only.
pub fn preview(state: &[u8], memory: &[u8], bytes: [&[u8]; 3], cells: [&mut [i16]; 3], next: &mut [u8]) -> u8 {
    let Some(old) = state_of(state) else { return BAD_SLICE };
    if next.len() != STATE_BYTES {
        return BAD_SLICE;
    }
    let [fac, sdc, msc] = bytes;
    let bits = Bits { fac, sdc, msc };
    let [fac, sdc, msc] = cells;
    let cells = CellsMut { fac, sdc, msc };
    let (after, answer) = preview::preview(old, &u8::numbers(memory), bits, cells);
    if answer == 0 {
        put_state(&after, next);
    }
    answer
}

/// The reading that goes on, with memory as bytes.
pub fn read_on(
    state: &mut [u8], memory: &mut [u8], cells: [&[i16]; 3], bytes: [&mut [u8]; 3], lost: &mut [u8],
) -> u16 {
    let Some(old) = state_of(state) else { return BAD_SLICE as u16 * 256 };
    let [fac, sdc, msc] = cells;
    let cells = Cells { fac, sdc, msc };
    let [fac, sdc, msc] = bytes;
    let bits = BitsMut { fac, sdc, msc };
    let (next, answer) = u8::with_numbers(memory, |numbers| read_on::read_on(old, numbers, cells, bits, lost));
    put_state(&next, state);
    number_of(answer)
}

/// Finished frames, or 256 × refusal + block.
fn number_of(answer: Answer) -> u16 {
    match answer {
        Answer::Finished(n) => n as u16,
        Answer::Refused { number, block } => number as u16 * 256 + block as u16,
    }
}

pub fn fac_build(settings: &[u8], fields: &[u32], block: &mut [u8]) -> u8 {
    let Ok(bytes) = <[u8; SETTINGS_BYTES]>::try_from(settings) else { return BAD_SLICE };
    fac::build(&Settings::from_bytes(bytes), fields, block)
}

pub fn fac_read(settings: &[u8], block: &[u8], fields: &mut [u32]) -> u8 {
    let Ok(bytes) = <[u8; SETTINGS_BYTES]>::try_from(settings) else { return BAD_SLICE };
    fac::read(&Settings::from_bytes(bytes), block, fields)
}

pub fn mux_build(settings: &[u8], description: &[u16], logical: &[u8], frame: &mut [u8]) -> u8 {
    let Ok(bytes) = <[u8; SETTINGS_BYTES]>::try_from(settings) else { return BAD_SLICE };
    streams::build(&Settings::from_bytes(bytes), description, logical, frame)
}

pub fn mux_read(settings: &[u8], description: &[u16], frame: &[u8], logical: &mut [u8]) -> u8 {
    let Ok(bytes) = <[u8; SETTINGS_BYTES]>::try_from(settings) else { return BAD_SLICE };
    streams::read(&Settings::from_bytes(bytes), description, frame, logical)
}

pub fn how_long(settings: &[u8], bytes: u32, numbers: &mut [u32]) -> u8 {
    let Ok(settings) = <[u8; SETTINGS_BYTES]>::try_from(settings) else { return BAD_SLICE };
    how_long::how_long(&Settings::from_bytes(settings), bytes, numbers)
}

pub fn hold_sizes(settings: &[u8], sizes: &mut [u32]) -> u8 {
    let Ok(bytes) = <[u8; SETTINGS_BYTES]>::try_from(settings) else { return BAD_SLICE };
    if sizes.len() != 2 {
        return BAD_SLICE;
    }
    let s = Settings::from_bytes(bytes);
    if s.refusal() == 0 {
        sizes.copy_from_slice(&hold::sizes(&s).map(|v| v as u32));
    }
    s.refusal()
}

pub fn store_old(state: &[u8], memory: &[u8], file: &mut [u8]) -> u8 {
    store(Form::Old, state, memory, file)
}

pub fn store_new(state: &[u8], memory: &[u8], file: &mut [u8]) -> u8 {
    store(Form::New, state, memory, file)
}

fn store(form: Form, state: &[u8], memory: &[u8], file: &mut [u8]) -> u8 {
    let Some(state) = state_of(state) else { return BAD_SLICE };
    hold::store(form, &state, memory, file)
}

pub fn to_new(settings: &[u8], old_file: &[u8], new_file: &mut [u8]) -> u8 {
    let Ok(bytes) = <[u8; SETTINGS_BYTES]>::try_from(settings) else { return BAD_SLICE };
    hold::to_new(&Settings::from_bytes(bytes), old_file, new_file)
}

pub fn to_old(settings: &[u8], new_file: &[u8], old_file: &mut [u8]) -> u8 {
    let Ok(bytes) = <[u8; SETTINGS_BYTES]>::try_from(settings) else { return BAD_SLICE };
    hold::to_old(&Settings::from_bytes(bytes), new_file, old_file)
}

pub fn restore_old(state: &mut [u8], settings: &[u8], file: &[u8], memory: &mut [u8]) -> u8 {
    restore(Form::Old, state, settings, &STANDARD, file, memory)
}

pub fn restore_new(state: &mut [u8], settings: &[u8], file: &[u8], memory: &mut [u8]) -> u8 {
    restore(Form::New, state, settings, &STANDARD, file, memory)
}

pub fn restore_old_table(state: &mut [u8], settings: &[u8], table: &[u8], file: &[u8], memory: &mut [u8]) -> u8 {
    restore(Form::Old, state, settings, table, file, memory)
}

pub fn restore_new_table(state: &mut [u8], settings: &[u8], table: &[u8], file: &[u8], memory: &mut [u8]) -> u8 {
    restore(Form::New, state, settings, table, file, memory)
}

fn restore(form: Form, state: &mut [u8], settings: &[u8], table: &[u8], file: &[u8], memory: &mut [u8]) -> u8 {
    let Ok(bytes) = <[u8; SETTINGS_BYTES]>::try_from(settings) else { return BAD_SLICE };
    let Some(old) = state_of(state) else { return BAD_SLICE };
    let (next, answer) = hold::restore_table(form, old, &Settings::from_bytes(bytes), table, file, memory);
    put_state(&next, state);
    answer
}

/// A state from its bytes; none if they have another length.
fn state_of(bytes: &[u8]) -> Option<State> {
    bytes.try_into().ok().map(State::from_bytes)
}

fn put_state(next: &State, state: &mut [u8]) {
    state.copy_from_slice(&next.bytes());
}

/// The answer of the second program.
pub fn answer(kind: Kind, lent: &mut Lent) -> u16 {
    let Lent { settings, state, memory, fac, sdc, msc, .. } = lent;
    let (fac_cells, sdc_cells, msc_cells) = (&mut lent.fac_cells, &mut lent.sdc_cells, &mut lent.msc_cells);
    match kind {
        Kind::Lengths => lengths(settings, &mut lent.lengths) as u16,
        Kind::Sizes => sizes(settings, &mut lent.sizes) as u16,
        Kind::Reset => reset(state, settings, memory) as u16,
        Kind::Code => code(state, memory, [fac, sdc, msc], [fac_cells, sdc_cells, msc_cells]) as u16,
        Kind::Read => read(state, memory, [fac_cells, sdc_cells, msc_cells], [fac, sdc, msc]),
        Kind::FacBuild => fac_build(settings, &lent.fields, fac) as u16,
        Kind::FacRead => fac_read(settings, fac, &mut lent.fields) as u16,
    }
}
