//! What is changed in a good call: faults that must be refused, and changes that must not be.
//!
//! A change takes the buffers as they are, possibly after other changes; where it finds no place it does nothing.

use crate::draw::Draw;
use crate::lent::{Kind, Lent};
use second::fac;
use second::settings::Settings;
use second::table::ENTRIES;

pub struct Change {
    pub name: &'static str,
    /// The settings are those of the good call.
    pub make: fn(&mut Lent, &Settings, &mut Draw),
}

const fn change(name: &'static str, make: fn(&mut Lent, &Settings, &mut Draw)) -> Change {
    Change { name, make }
}

/// For calls that are lent settings.
static OF_SETTINGS: [Change; 4] = [
    change("length of settings", |l, _, d| length(&mut l.settings, d)),
    change("a setting", |l, _, d| setting(&mut l.settings, d)),
    change("X", |l, _, d| put_x(&mut l.settings, d)),
    change("last settings", |l, _, d| last_settings(&mut l.settings, d)),
];

static OF_LENGTHS: [Change; 1] = [change("length of lengths", |l, _, d| length(&mut l.lengths, d))];

static OF_SIZES: [Change; 1] = [change("length of sizes", |l, _, d| length(&mut l.sizes, d))];

static OF_RESET: [Change; 5] = [
    change("length of state", |l, _, d| length(&mut l.state, d)),
    change("length of memory", memory_length),
    change("old state", |l, _, d| l.state.iter_mut().for_each(|b| *b = d.byte())),
    change("table", |l, _, d| table(&mut l.table, d)),
    change("length of table", |l, _, d| length(&mut l.table, d)),
];

/// For calls on a super frame.
static OF_SUPER_FRAME: [Change; 19] = [
    change("length of state", |l, _, d| length(&mut l.state, d)),
    change("a setting", |l, _, d| setting(&mut l.state, d)),
    change("X", |l, _, d| put_x(&mut l.state, d)),
    change("last settings", |l, _, d| last_settings(&mut l.state, d)),
    change("length of memory", memory_length),
    change("length of FAC bytes", |l, _, d| length(&mut l.fac, d)),
    change("length of SDC bytes", |l, _, d| length(&mut l.sdc, d)),
    change("length of MSC bytes", |l, _, d| length(&mut l.msc, d)),
    change("length of FAC cells", |l, _, d| length(&mut l.fac_cells, d)),
    change("length of SDC cells", |l, _, d| length(&mut l.sdc_cells, d)),
    change("length of MSC cells", |l, _, d| length(&mut l.msc_cells, d)),
    change("position", |l, _, d| put(&mut l.state, 10, d)),
    change("count", |l, _, d| put(&mut l.state, 11, d)),
    change("position in range", |l, _, d| in_range(&mut l.state, 10, d)),
    change("count in range", |l, _, d| in_range(&mut l.state, 11, d)),
    change("table in the state", |l, _, d| table(l.state.get_mut(12..).unwrap_or_default(), d)),
    change("slots of memory", slots),
    change("number in memory", |l, _, d| number(&mut l.memory, d)),
    change("cell in memory", |l, s, d| cell(&mut l.memory, s.msc_top(), d)),
];

static OF_CODE: [Change; 3] = [
    change("SDC spare bit", |l, s, d| spare_bit(&mut l.sdc, s.sdc_bits(), 1, d)),
    change("MSC spare bit", |l, s, d| spare_bit(&mut l.msc, s.lengths().frame_bits(), 3, d)),
    change("other bits", |l, s, d| [l.fac, l.sdc, l.msc] = d.super_frame(s)),
];

static OF_READ: [Change; 11] = [
    change("FAC number", |l, _, d| number(&mut l.fac_cells, d)),
    change("SDC number", |l, _, d| number(&mut l.sdc_cells, d)),
    change("MSC number", |l, _, d| number(&mut l.msc_cells, d)),
    change("FAC point", |l, _, d| point(&mut l.fac_cells, 1, d)),
    change("SDC point", |l, s, d| point(&mut l.sdc_cells, s.sdc_top(), d)),
    change("MSC point", |l, s, d| point(&mut l.msc_cells, s.msc_top(), d)),
    change("MSC cell", |l, s, d| cell(&mut l.msc_cells, s.msc_top(), d)),
    change("filler", |l, s, d| filler(&mut l.msc_cells, s, d)),
    change("several numbers", several_numbers),
    change("several points", several_points),
    change("ignored cells", ignored),
];

static OF_FAC_BUILD: [Change; 7] = [
    change("length of fields", |l, _, d| length(&mut l.fields, d)),
    change("length of block", |l, _, d| length(&mut l.fac, d)),
    change("field", |l, _, d| field(&mut l.fields, d)),
    change("field of one bit more", |l, _, d| wider(&mut l.fields, d)),
    change("field of the settings", |l, _, d| named(&mut l.fields, d)),
    change("all fields", |l, _, d| l.fields.iter_mut().for_each(|v| *v = d.word() as u32)),
    change("other fields", |l, s, d| l.fields = d.fields(s)),
];

static OF_FAC_READ: [Change; 6] = [
    change("length of block", |l, _, d| length(&mut l.fac, d)),
    change("length of fields", |l, _, d| length(&mut l.fields, d)),
    change("bit of the block", |l, _, d| bit(&mut l.fac, d)),
    change("reserved bits", |l, _, d| reserved(&mut l.fac, d)),
    change("right CRC", |l, _, _| right_crc(&mut l.fac)),
    change("all of the block", |l, _, d| l.fac.iter_mut().for_each(|b| *b = d.byte())),
];

/// The changes for a kind of call.
fn changes(kind: Kind) -> Vec<&'static Change> {
    let (shared, own): (&'static [Change], &'static [Change]) = match kind {
        Kind::Lengths => (&OF_SETTINGS, &OF_LENGTHS),
        Kind::Sizes => (&OF_SETTINGS, &OF_SIZES),
        Kind::Reset => (&OF_SETTINGS, &OF_RESET),
        Kind::Code => (&OF_SUPER_FRAME, &OF_CODE),
        Kind::Read => (&OF_SUPER_FRAME, &OF_READ),
        Kind::FacBuild => (&OF_SETTINGS, &OF_FAC_BUILD),
        Kind::FacRead => (&OF_SETTINGS, &OF_FAC_READ),
    };
    shared.iter().chain(own).collect()
}

/// A wrong length: shorter or longer by one, nothing, a part, or a few more.
pub(crate) fn length<T: Clone + Default>(buffer: &mut Vec<T>, draw: &mut Draw) {
    let len = buffer.len();
    let len = match draw.below(6) {
        0 | 1 => len.saturating_sub(1),
        2 | 3 => len + 1,
        4 => draw.pick(&[0, 1, len / 2, len / 3, len.saturating_sub(2)]),
        _ => len + draw.pick(&[2, 3, len, 256]),
    };
    buffer.resize(len, T::default());
}

/// A wrong length, or the length of the other interleaving.
fn memory_length(lent: &mut Lent, s: &Settings, draw: &mut Draw) {
    if draw.below(3) > 0 {
        return length(&mut lent.memory, draw);
    }
    let other = Settings { interleaving: 1 - s.interleaving, ..*s };
    lent.memory.resize(other.sizes().memory_numbers, 0);
}

/// Another value in one field of the settings but X; some of these values are permitted.
pub(crate) fn setting(settings: &mut [u8], draw: &mut Draw) {
    let at = draw.pick(&[0, 1, 2, 3, 4, 5, 8, 9]);
    if let Some(b) = settings.get_mut(at) {
        *b = small(draw);
    }
}

/// Anything from one field of the settings on, so that several of them are at fault.
pub(crate) fn last_settings(settings: &mut [u8], draw: &mut Draw) {
    let first = draw.below(10);
    settings.iter_mut().take(10).skip(first).for_each(|b| *b = draw.byte());
}

/// A value near the greatest that a field permits, or any.
fn small(draw: &mut Draw) -> u8 {
    if draw.below(4) > 0 { draw.below(7) as u8 } else { draw.byte() }
}

/// An X about the greatest that is permitted, or any.
pub(crate) fn put_x(settings: &mut [u8], draw: &mut Draw) {
    let Some(Ok(bytes)) = settings.get(..10).map(<[u8; 10]>::try_from) else { return };
    let mut s = Settings { x: 0, ..Settings::from_bytes(bytes) };
    let any = draw.word() as u16;
    s.x = match s.refusal() {
        0 => s.largest_x() + draw.below(3) as u16,
        _ => any,
    };
    let x = draw.pick(&[s.x, s.x, any, 65535, 0, 256]);
    settings[6..8].copy_from_slice(&x.to_be_bytes());
}

/// Position or count: just above the greatest, or any.
fn put(state: &mut [u8], at: usize, draw: &mut Draw) {
    let any = draw.byte();
    if let Some(b) = state.get_mut(at) {
        *b = draw.pick(&[1, 4, 5, 5, 6, 128, 255, any, any]);
    }
}

/// A permitted position or count of long interleaving.
fn in_range(state: &mut [u8], at: usize, draw: &mut Draw) {
    if let Some(b) = state.get_mut(at) {
        *b = draw.below(5) as u8;
    }
}

/// The same memory with its slots moved round, and the position with them: results are the same but for that.
fn slots(lent: &mut Lent, s: &Settings, draw: &mut Draw) {
    let shift = draw.below(5);
    let right = lent.memory.len() == s.sizes().memory_numbers && lent.state.len() >= 12;
    if s.long() && right && lent.state[10] < 5 {
        lent.memory.rotate_right(shift * 2 * s.n_mux());
        lent.state[10] = (lent.state[10] + shift as u8) % 5;
    }
}

/// Sets one of the spare bits of one of the packed blocks.
fn spare_bit(bytes: &mut [u8], bits: usize, blocks: usize, draw: &mut Draw) {
    let block_bytes = bits.div_ceil(8);
    let spare = 8 * block_bytes - bits;
    let last = (1 + draw.below(blocks)) * block_bytes - 1;
    if let (Some(b), 1..) = (bytes.get_mut(last), spare) {
        *b |= 1 << draw.below(spare);
    }
}

/// Any number, a coordinate or not.
fn number(numbers: &mut [i16], draw: &mut Draw) {
    if let Some(at) = draw.place(numbers) {
        numbers[at] = draw.number();
    }
}

/// A coordinate, most often another one.
fn point(numbers: &mut [i16], top: i16, draw: &mut Draw) {
    if let Some(at) = draw.place(numbers) {
        numbers[at] = draw.coordinate(top);
    }
}

/// A cell of zeros, coordinates, or one of each; or one that only 64-QAM has.
fn cell(numbers: &mut [i16], top: i16, draw: &mut Draw) {
    let Some(at) = draw.place(&numbers[..numbers.len() / 2]) else { return };
    let (a, b) = (draw.coordinate(top), draw.coordinate(top));
    let cell = draw.pick(&[[0, 0], [0, 0], [a, b], [a, b], [0, b], [a, 0], [a, 5], [-7, b]]);
    numbers[2 * at..2 * at + 2].copy_from_slice(&cell);
}

/// Another number in a filler, if there is one.
fn filler(numbers: &mut [i16], s: &Settings, draw: &mut Draw) {
    let Some(fillers) = numbers.get_mut(6 * s.n_mux()..) else { return };
    if let Some(at) = draw.place(fillers) {
        fillers[at] = draw.pick(&[fillers[at].wrapping_neg(), 1, 0, 3, 257]);
    }
}

/// Numbers of several blocks, so that the lowest must be found.
fn several_numbers(lent: &mut Lent, s: &Settings, draw: &mut Draw) {
    for _ in 0..3 {
        match draw.below(5) {
            0 => number(&mut lent.fac_cells, draw),
            1 => number(&mut lent.sdc_cells, draw),
            2 | 3 => number(&mut lent.msc_cells, draw),
            _ => filler(&mut lent.msc_cells, s, draw),
        }
    }
}

/// Coordinates of several blocks, likewise.
fn several_points(lent: &mut Lent, s: &Settings, draw: &mut Draw) {
    for _ in 0..3 {
        match draw.below(5) {
            0 => point(&mut lent.fac_cells, 1, draw),
            1 => point(&mut lent.sdc_cells, s.sdc_top(), draw),
            _ => point(&mut lent.msc_cells, s.msc_top(), draw),
        }
    }
}

/// Anything in the cells of frames before the first, as the count stands.
pub fn ignored(lent: &mut Lent, s: &Settings, draw: &mut Draw) {
    let Some(&count) = lent.state.get(11) else { return };
    for (k, row) in lent.msc_cells.chunks_exact_mut(2 * s.n_mux()).take(3).enumerate() {
        for (i, cell) in row.chunks_exact_mut(2).enumerate() {
            if s.long() && i % 5 > (count as usize + k).min(4) {
                cell.fill_with(|| draw.number());
            }
        }
    }
}

/// A number of a table changed, or two so that the ones of a rate may stay as many; or another table that passes.
pub(crate) fn table(table: &mut [u8], draw: &mut Draw) {
    if draw.below(5) == 0 && table.len() == ENTRIES {
        return table.copy_from_slice(&draw.table());
    }
    let Some(at) = draw.place(table) else { return };
    match draw.below(4) {
        0 => table[at] = draw.pick(&[2, 3, 128, 255]),
        1 => table[at] ^= 1,
        _ => {
            let other = (at + draw.pick(&[1, 2, 3, 4, 7, 8])) % table.len();
            table.swap(at, other)
        }
    }
}

/// Any number in a field.
fn field(fields: &mut [u32], draw: &mut Draw) {
    if let Some(at) = draw.place(fields) {
        let bits = draw.below(33);
        fields[at] = (draw.word() % (1 << bits)) as u32;
    }
}

/// A number that has just one bit more than its field, or all 32.
fn wider(fields: &mut [u32], draw: &mut Draw) {
    let at = draw.below(fac::FIELDS);
    if let Some(v) = fields.get_mut(at) {
        let more = 1 << fac::width(at);
        *v = draw.pick(&[*v | more, more, u32::MAX]);
    }
}

/// Another small number in a field that the settings name too.
fn named(fields: &mut [u32], draw: &mut Draw) {
    let at = draw.pick(&[2, 3, 4, 5]);
    if let Some(v) = fields.get_mut(at) {
        *v = draw.below(6) as u32;
    }
}

pub(crate) fn bit(bytes: &mut [u8], draw: &mut Draw) {
    if let Some(at) = draw.place(bytes) {
        bytes[at] ^= 1 << draw.below(8);
    }
}

/// Any reserved bits, with the CRC of what then stands in the block: good, and read as the same fields.
fn reserved(block: &mut [u8], draw: &mut Draw) {
    if let [_, _, rfu, .., rfa, _] = block {
        *rfu ^= draw.byte() & 0x30;
        *rfa ^= draw.byte() & 0x7F;
    }
    right_crc(block);
}

/// The CRC of what stands in the block.
fn right_crc(block: &mut [u8]) {
    if let Some((last, parameters)) = block.split_last_mut() {
        *last = fac::crc_of(parameters);
    }
}

/// Makes some changes of received cells, and of no lengths.
pub fn spoil_cells(lent: &mut Lent, s: &Settings, draw: &mut Draw) {
    for _ in 0..draw.pick(&[0, 0, 1, 2, 3]) {
        match draw.below(3) {
            0 => several_numbers(lent, s, draw),
            1 => several_points(lent, s, draw),
            _ => cell(&mut lent.msc_cells, s.msc_top(), draw),
        }
    }
}

/// Makes one, two or three changes; their names.
pub fn spoil(kind: Kind, lent: &mut Lent, s: &Settings, draw: &mut Draw) -> Vec<&'static str> {
    let all = changes(kind);
    let times = draw.pick(&[1, 1, 1, 1, 2, 2, 3]);
    (0..times)
        .map(|_| {
            let change = &all[draw.below(all.len())];
            (change.make)(lent, s, draw);
            change.name
        })
        .collect()
}
