//! Random calls of drm_grid_sizes, drm_grid_place and drm_grid_take beside the second program's own.

use crate::archive::Guarded;
use crate::damage::{last_settings, length, put_x, setting};
use crate::draw::Draw;
use crate::lent::first;
use second::grid;
use second::settings::{Settings, PAIRINGS};
use std::collections::BTreeMap;

mod c {
    extern "C" {
        pub fn drm_grid_sizes(settings: *const u8, settings_len: usize, sizes: *mut u32, sizes_len: usize) -> u8;
        pub fn drm_grid_place(
            settings: *const u8, settings_len: usize, fac_cells: *const i16, fac_cells_len: usize,
            sdc_cells: *const i16, sdc_cells_len: usize, msc_cells: *const i16, msc_cells_len: usize,
            grid: *mut i16, grid_len: usize,
        ) -> u8;
        pub fn drm_grid_take(
            settings: *const u8, settings_len: usize, grid: *const i16, grid_len: usize,
            fac_cells: *mut i16, fac_cells_len: usize, sdc_cells: *mut i16, sdc_cells_len: usize,
            msc_cells: *mut i16, msc_cells_len: usize,
        ) -> u8;
    }
}

const SEED: u64 = 4;
/// Changed calls beside each good one.
const CHANGED: usize = 10;

#[derive(Clone, Copy, PartialEq, Eq, PartialOrd, Ord, Debug)]
enum Call {
    Sizes,
    Place,
    Take,
}

impl Call {
    /// The answers that it can give.
    fn possible(self) -> Vec<u8> {
        let own: &[u8] = match self {
            Call::Sizes => &[],
            Call::Place => &[9, 17],
            Call::Take => &[10, 17],
        };
        (0..=7).chain([255]).chain(own.iter().copied()).collect()
    }
}

/// All that a call is lent.
#[derive(Clone)]
struct Lent {
    settings: Vec<u8>,
    sizes: Vec<u32>,
    cells: [Vec<i16>; 3],
    grid: Vec<i16>,
}

const CELLS: [&str; 3] = ["FAC cells", "SDC cells", "MSC cells"];

impl Lent {
    fn difference(&self, other: &Lent) -> Option<String> {
        let cells = || (0..3).find_map(|i| first(CELLS[i], &self.cells[i], &other.cells[i]));
        first("settings", &self.settings, &other.settings)
            .or_else(|| first("sizes", &self.sizes, &other.sizes))
            .or_else(cells)
            .or_else(|| first("grid", &self.grid, &other.grid))
    }
}

/// The archive's answer; every buffer lies between guards while the call lasts.
fn archive(call: Call, lent: &mut Lent) -> Result<u8, String> {
    let mut settings = Guarded::new(&lent.settings, 0xA5);
    let mut sizes = Guarded::new(&lent.sizes, 0xA5A5A5A5);
    let mut cells = [0, 1, 2].map(|i| Guarded::new(&lent.cells[i], 0x5A5A));
    let mut grid = Guarded::new(&lent.grid, 0x5A5A);
    let (s, z, g) = (settings.lent(), sizes.lent(), grid.lent());
    let [fac, sdc, msc] = &mut cells;
    let (fac, sdc, msc) = (fac.lent(), sdc.lent(), msc.lent());
    // Whole slices that Rust keeps apart, which is all that the header asks.
    let answer = unsafe {
        match call {
            Call::Sizes => c::drm_grid_sizes(s.as_ptr(), s.len(), z.as_mut_ptr(), z.len()),
            Call::Place => c::drm_grid_place(
                s.as_ptr(), s.len(), fac.as_ptr(), fac.len(), sdc.as_ptr(), sdc.len(), msc.as_ptr(), msc.len(),
                g.as_mut_ptr(), g.len(),
            ),
            Call::Take => c::drm_grid_take(
                s.as_ptr(), s.len(), g.as_ptr(), g.len(), fac.as_mut_ptr(), fac.len(), sdc.as_mut_ptr(), sdc.len(),
                msc.as_mut_ptr(), msc.len(),
            ),
        }
    };
    settings.back("settings", &mut lent.settings)?;
    sizes.back("sizes", &mut lent.sizes)?;
    for (i, guarded) in cells.iter().enumerate() {
        guarded.back(CELLS[i], &mut lent.cells[i])?;
    }
    grid.back("grid", &mut lent.grid)?;
    Ok(answer)
}

/// The second program's answer.
fn own(call: Call, lent: &mut Lent) -> u8 {
    let Ok(bytes) = <[u8; 10]>::try_from(&lent.settings[..]) else { return 255 };
    let s = Settings::from_bytes(bytes);
    let [fac, sdc, msc] = &mut lent.cells;
    match call {
        Call::Sizes if lent.sizes.len() != 3 => 255,
        Call::Sizes => {
            if s.refusal() == 0 {
                lent.sizes.copy_from_slice(&grid::sizes(&s).map(|v| v as u32));
            }
            s.refusal()
        }
        Call::Place => grid::place(&s, [fac, sdc, msc], &mut lent.grid),
        Call::Take => grid::take(&s, &lent.grid, [fac, sdc, msc]),
    }
}

/// One call with both programs: the answer, or where they differ, or what a refused call wrote.
fn both(call: Call, lent: &mut Lent) -> Result<u8, String> {
    let before = lent.clone();
    let mut expected = lent.clone();
    let right = own(call, &mut expected);
    let answer = archive(call, lent)?;
    if answer != right {
        return Err(format!("answer {answer} instead of {right}"));
    }
    let wanted = if answer == 0 { &expected } else { &before };
    match lent.difference(wanted) {
        Some(place) => Err(format!("answer {answer}, but {place}")),
        None => Ok(answer),
    }
}

/// One to three changes: slices of a wrong length, settings, and numbers, which may be anything.
fn spoil(lent: &mut Lent, draw: &mut Draw) {
    for _ in 0..draw.pick(&[1, 1, 1, 2, 2, 3]) {
        match draw.below(13) {
            0 => length(&mut lent.settings, draw),
            1 | 2 => setting(&mut lent.settings, draw),
            3 => put_x(&mut lent.settings, draw),
            4 => last_settings(&mut lent.settings, draw),
            5 | 6 => length(&mut lent.grid, draw),
            7 => length(&mut lent.sizes, draw),
            8 => {
                let which = draw.below(3);
                length(&mut lent.cells[which], draw)
            }
            9 | 10 => {
                if let Some(at) = draw.place(&lent.grid) {
                    lent.grid[at] = draw.number();
                }
            }
            _ => {
                let which = draw.below(3);
                if let Some(at) = draw.place(&lent.cells[which]) {
                    lent.cells[which][at] = draw.number();
                }
            }
        }
    }
}

/// A good call: any cells, any grid, noise in what is written.
fn good(s: &Settings, draw: &mut Draw) -> Lent {
    let z = s.sizes();
    let mut numbers = |n: usize| (0..n).map(|_| draw.number()).collect::<Vec<i16>>();
    let cells = [z.fac_numbers, z.sdc_numbers, z.msc_numbers].map(&mut numbers);
    let grid = numbers(grid::sizes(s)[2]);
    Lent { settings: s.bytes().to_vec(), sizes: (0..3).map(|_| draw.word() as u32).collect(), cells, grid }
}

/// All random calls; how many there were, or the first difference.
pub fn random_calls() -> Result<u32, String> {
    let mut draw = Draw(SEED);
    let mut answers: BTreeMap<(Call, u8), u32> = BTreeMap::new();
    for (pairing, msc, interleaving) in settings() {
        let s = draw.settings(pairing, msc, interleaving);
        for call in [Call::Sizes, Call::Place, Call::Take] {
            for changed in 0..=CHANGED {
                let mut lent = good(&s, &mut draw);
                if changed < CHANGED {
                    spoil(&mut lent, &mut draw);
                }
                let answer = both(call, &mut lent).map_err(|e| format!("{call:?}, settings {}: {e}", s.hex()))?;
                if changed == CHANGED && answer != 0 {
                    return Err(format!("a good call, {call:?}, settings {}, is refused by {answer}", s.hex()));
                }
                *answers.entry((call, answer)).or_default() += 1;
            }
        }
    }
    for call in [Call::Sizes, Call::Place, Call::Take] {
        let missing = call.possible().into_iter().find(|&n| !answers.contains_key(&(call, n)));
        if let Some(n) = missing {
            return Err(format!("{call:?} never answered {n}"));
        }
        let shown = answers.iter().filter(|((c, _), _)| *c == call).map(|((_, n), times)| format!("{n}: {times}"));
        println!("{call:?}: {}", shown.collect::<Vec<_>>().join(", "));
    }
    Ok(answers.values().sum())
}

/// Every pairing, MSC mode and interleaving.
fn settings() -> impl Iterator<Item = ((u8, u8), u8, u8)> {
    PAIRINGS.into_iter().flat_map(|p| (0..4).flat_map(move |msc| (0..2).map(move |l| (p, msc, l))))
}
