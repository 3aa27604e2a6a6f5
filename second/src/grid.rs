//! Cells on the grid of symbols and carriers: clause 8, and request S-4 for kinds, order of rules and refusals.

use crate::settings::Settings;
use std::io::{self, Write};

pub const EMPTY: i16 = 0;
pub const FREQUENCY: i16 = 1;
pub const TIME: i16 = 2;
pub const GAIN: i16 = 3;
pub const FAC: i16 = 4;
pub const SDC: i16 = 5;
pub const MSC: i16 = 6;

/// Symbols of a transmission frame (table 80), and SDC symbols of a super frame (8.5.3.1).
static SYMBOLS: [usize; 4] = [15, 15, 20, 24];
static SDC_SYMBOLS: [usize; 4] = [2, 2, 3, 3];

/// K_min and K_max (table 82); (0, 0) is unused.
static CARRIERS: [[(i32, i32); 6]; 4] = [
    [(2, 102), (2, 114), (-102, 102), (-114, 114), (-98, 314), (-110, 350)],
    [(1, 91), (1, 103), (-91, 91), (-103, 103), (-87, 279), (-99, 311)],
    [(0, 0), (0, 0), (0, 0), (-69, 69), (0, 0), (-67, 213)],
    [(0, 0), (0, 0), (0, 0), (-44, 44), (0, 0), (-43, 135)],
];

/// Unused carriers are those up to here on both sides (table 83).
static UNUSED: [i32; 4] = [1, 0, 0, 0];

/// Frequency references (table 84).
static TONES: [[i32; 3]; 4] = [[18, 54, 72], [16, 48, 64], [11, 33, 44], [7, 21, 28]];

/// Time references (tables 86 to 89); a carrier with an asterisk in the table is negative here.
static TIMES: [&[i32]; 4] = [
    &[17, -18, 19, 21, 28, 29, 32, 33, 39, 40, 41, 53, -54, 55, 56, 60, 61, 63, 71, -72, 73],
    &[14, -16, 18, 20, 24, 26, 32, 36, 42, 44, -48, 49, 50, 54, 56, 62, -64, 66, 68],
    &[8, 10, -11, 12, 14, 16, 18, 22, 24, 28, 30, 32, -33, 36, 38, 42, -44, 45, 46],
    &[5, 6, -7, 8, 9, 11, 12, 14, 15, 17, 18, 20, -21, 23, 24, 26, 27, -28, 29, 30, 32],
];

/// x, y and k0 of the gain references (tables 90 and 92).
static PATTERNS: [(i32, i32, i32); 4] = [(4, 5, 2), (2, 3, 1), (2, 2, 1), (1, 3, 1)];

/// FAC cells, a row for each symbol of a frame (tables 93 to 96).
static ROWS: [&[&[i32]]; 4] = [
    &[
        &[],
        &[],
        &[26, 46, 66, 86],
        &[10, 30, 50, 70, 90],
        &[14, 22, 34, 62, 74, 94],
        &[26, 38, 58, 66, 78],
        &[22, 30, 42, 62, 70, 82],
        &[26, 34, 46, 66, 74, 86],
        &[10, 30, 38, 50, 58, 70, 78, 90],
        &[14, 22, 34, 42, 62, 74, 82, 94],
        &[26, 38, 46, 66, 86],
        &[10, 30, 50, 70, 90],
        &[14, 34, 74, 94],
        &[38, 58, 78],
        &[],
    ],
    &[
        &[],
        &[],
        &[13, 25, 43, 55, 67],
        &[15, 27, 45, 57, 69],
        &[17, 29, 47, 59, 71],
        &[19, 31, 49, 61, 73],
        &[9, 21, 33, 51, 63, 75],
        &[11, 23, 35, 53, 65, 77],
        &[13, 25, 37, 55, 67, 79],
        &[15, 27, 39, 57, 69, 81],
        &[17, 29, 41, 59, 71, 83],
        &[19, 31, 43, 61, 73],
        &[21, 33, 45, 63, 75],
        &[23, 35, 47, 65, 77],
        &[],
    ],
    &[
        &[],
        &[],
        &[],
        &[9, 21, 45, 57],
        &[23, 35, 47],
        &[13, 25, 37, 49],
        &[15, 27, 39, 51],
        &[5, 17, 29, 41, 53],
        &[7, 19, 31, 43, 55],
        &[9, 21, 45, 57],
        &[23, 35, 47],
        &[13, 25, 37, 49],
        &[15, 27, 39, 51],
        &[5, 17, 29, 41, 53],
        &[7, 19, 31, 43, 55],
        &[9, 21, 45, 57],
        &[23, 35, 47],
        &[13, 25, 37, 49],
        &[15, 27, 39, 51],
        &[],
    ],
    &[
        &[],
        &[],
        &[],
        &[9, 18, 27],
        &[10, 19],
        &[11, 20, 29],
        &[12, 30],
        &[13, 22, 31],
        &[5, 14, 23, 32],
        &[6, 15, 24, 33],
        &[16, 25, 34],
        &[8, 17, 26, 35],
        &[9, 18, 27, 36],
        &[10, 19, 37],
        &[11, 20, 29],
        &[12, 30],
        &[13, 22, 31],
        &[5, 14, 23, 32],
        &[6, 15, 24, 33],
        &[16, 25, 34],
        &[8, 17, 26, 35],
        &[9, 18, 27, 36],
        &[10, 19, 37],
        &[],
    ],
];

/// The kind of carrier k in a symbol of a frame.
fn kind(mode: usize, frame: usize, symbol: usize, k: i32) -> i16 {
    let (x, y, k0) = PATTERNS[mode];
    let gain = (k - k0 - x * (symbol as i32 % y)).rem_euclid(x * y) == 0;
    if k.abs() <= UNUSED[mode] {
        EMPTY
    } else if TONES[mode].contains(&k) {
        FREQUENCY
    } else if symbol == 0 && TIMES[mode].iter().any(|t| t.abs() == k) {
        TIME
    } else if gain {
        GAIN
    } else if ROWS[mode][symbol].contains(&k) {
        FAC
    } else if frame == 0 && symbol < SDC_SYMBOLS[mode] {
        SDC
    } else {
        MSC
    }
}

/// The kinds of a super frame's places, symbol after symbol; the settings are permitted.
pub fn kinds(s: &Settings) -> Vec<i16> {
    let mode = s.mode as usize;
    let (first, last) = CARRIERS[mode][s.occupancy as usize];
    let symbols = (0..3).flat_map(|frame| (0..SYMBOLS[mode]).map(move |symbol| (frame, symbol)));
    symbols.flat_map(|(frame, symbol)| (first..=last).map(move |k| kind(mode, frame, symbol, k))).collect()
}

/// Symbols of a super frame, carriers of a symbol, numbers of a grid; the settings are permitted.
pub fn sizes(s: &Settings) -> [usize; 3] {
    let (first, last) = CARRIERS[s.mode as usize][s.occupancy as usize];
    let (symbols, carriers) = (3 * SYMBOLS[s.mode as usize], (last - first + 1) as usize);
    [symbols, carriers, 3 * symbols * carriers]
}

/// The kinds of occupancy 3 in each mode: the mode's letter, then a line of digits for each symbol.
pub fn print(out: &mut impl Write) -> io::Result<()> {
    for (mode, letter) in (0..).zip(["A", "B", "C", "D"]) {
        let s = Settings { mode, occupancy: 3, ..Settings::default() };
        writeln!(out, "{letter}")?;
        for symbol in kinds(&s).chunks(sizes(&s)[1]) {
            writeln!(out, "{}", symbol.iter().map(|kind| kind.to_string()).collect::<String>())?;
        }
    }
    Ok(())
}

/// 1 to 7, then a number for cells of a wrong length, then 17.
fn refusal(s: &Settings, cells: [usize; 3], grid: usize, number: u8) -> u8 {
    if s.refusal() != 0 {
        return s.refusal();
    }
    let z = s.sizes();
    if cells != [z.fac_numbers, z.sdc_numbers, z.msc_numbers] {
        return number;
    }
    if grid != sizes(s)[2] { 17 } else { 0 }
}

/// FAC, SDC and MSC cells onto a grid.
pub fn place(s: &Settings, cells: [&[i16]; 3], grid: &mut [i16]) -> u8 {
    let answer = refusal(s, cells.map(<[i16]>::len), grid.len(), 9);
    if answer != 0 {
        return answer;
    }
    let mut rest = cells.map(|c| c.chunks_exact(2));
    for (place, kind) in grid.chunks_exact_mut(3).zip(kinds(s)) {
        let cell: &[i16] = match kind {
            FAC.. => rest[(kind - FAC) as usize].next().expect("a cell for each place of its kind"),
            _ => &[0, 0],
        };
        place.copy_from_slice(&[kind, cell[0], cell[1]]);
    }
    assert!(rest.iter().all(|r| r.len() == 0), "a place for each cell");
    0
}

/// FAC, SDC and MSC cells off a grid.
pub fn take(s: &Settings, grid: &[i16], cells: [&mut [i16]; 3]) -> u8 {
    let answer = refusal(s, [cells[0].len(), cells[1].len(), cells[2].len()], grid.len(), 10);
    if answer != 0 {
        return answer;
    }
    let mut rest = cells.map(|c| c.chunks_exact_mut(2));
    for (place, kind) in grid.chunks_exact(3).zip(kinds(s)) {
        if kind >= FAC {
            let cell = rest[(kind - FAC) as usize].next().expect("a cell for each place of its kind");
            cell.copy_from_slice(&place[1..]);
        }
    }
    assert!(rest.iter().all(|r| r.len() == 0), "a place for each cell");
    0
}

/// The tables compared with 001 a second way: rules that its tables follow and its text doesn't state.
#[cfg(test)]
mod tests {
    use super::*;
    use crate::settings::{FAC_CELLS, PAIRINGS};

    /// FAC cells of a mode as (symbol, carrier).
    fn cells(mode: usize) -> Vec<(i32, i32)> {
        (0..).zip(ROWS[mode]).flat_map(|(s, row)| row.iter().map(move |&k| (s, k))).collect()
    }

    /// The cells in a range of symbols and carriers that pass a test and are no frequency references.
    fn region(mode: usize, symbols: (i32, i32), carriers: (i32, i32), test: fn(i32, i32) -> bool) -> Vec<(i32, i32)> {
        let all = (symbols.0..=symbols.1).flat_map(|s| (carriers.0..=carriers.1).map(move |k| (s, k)));
        all.filter(|&(s, k)| test(s, k) && !TONES[mode].contains(&k)).collect()
    }

    /// The cells on lines that rise by `slope` carriers a symbol (carrier at symbol 0, first and last symbol) and are
    /// no frequency references.
    fn on_lines(mode: usize, slope: i32, lines: &[(i32, i32, i32)]) -> Vec<(i32, i32)> {
        let all = lines.iter().flat_map(|&(c, first, last)| (first..=last).map(move |s| (s, c + slope * s)));
        let mut all: Vec<_> = all.filter(|(_, k)| !TONES[mode].contains(k)).collect();
        all.sort();
        all
    }

    #[test]
    fn fac_cells_of_modes_a_and_b_lie_on_lines() {
        let a = [
            (-34, 11, 12), (-22, 8, 9), (-14, 9, 13), (-2, 3, 10), (6, 4, 13), (18, 2, 8), (26, 8, 13), (38, 2, 9),
            (46, 4, 12), (58, 2, 9), (78, 2, 4),
        ];
        assert_eq!(cells(0), on_lines(0, 4, &a));
        let b = [(-3, 6, 13), (9, 2, 13), (21, 2, 13), (39, 2, 13), (51, 2, 13), (63, 2, 10)];
        assert_eq!(cells(1), on_lines(1, 2, &b));
    }

    #[test]
    fn fac_cells_of_modes_c_and_d_fill_a_lattice() {
        assert_eq!(cells(2), region(2, (3, 18), (5, 57), |s, k| (k - 2 * s - 3).rem_euclid(12) == 0));
        let mut d = region(3, (3, 22), (5, 37), |s, k| (k - s - 6).rem_euclid(9) == 0);
        d.retain(|cell| ![(3, 36), (4, 37)].contains(cell));
        assert_eq!(cells(3), d);
    }

    #[test]
    fn marked_time_references_are_the_frequency_references() {
        for mode in 0..4 {
            let marked: Vec<i32> = TIMES[mode].iter().filter(|&&t| t < 0).map(|t| -t).collect();
            assert_eq!(marked, TONES[mode]);
        }
    }

    /// "edge carriers are included as gain reference cell positions" (note to table 90); they are table 91's first and last.
    #[test]
    fn edge_carriers_are_gain_references() {
        for (mode, occupancy) in PAIRINGS {
            let (first, last) = CARRIERS[mode as usize][occupancy as usize];
            let gain = |k| (0..SYMBOLS[mode as usize]).any(|s| kind(mode as usize, 1, s, k) == GAIN);
            assert!(gain(first) && gain(last));
        }
    }

    #[test]
    fn counts_are_the_papers() {
        for (mode, occupancy) in PAIRINGS {
            let s = Settings { mode, occupancy, ..Settings::default() };
            let kinds = kinds(&s);
            let count = |kinds: &[i16], kind| kinds.iter().filter(|&&k| k == kind).count();
            for frame in kinds.chunks(kinds.len() / 3) {
                assert_eq!(count(frame, FAC), FAC_CELLS);
            }
            assert_eq!(2 * count(&kinds, SDC), s.sizes().sdc_numbers);
            assert_eq!(2 * count(&kinds, MSC), s.sizes().msc_numbers);
        }
    }
}
