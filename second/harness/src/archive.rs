//! The archive's functions, as include/drmcoder.h declares them, and a call of them between guards.

use crate::lent::{Kind, Lent};
use second::forms::MemoryElement;
use second::memory::Element;

mod c {
    use second::forms::MemoryElement;

    extern "C" {
        pub fn drm_lengths(settings: *const u8, settings_len: usize, lengths: *mut u16, lengths_len: usize) -> u8;
        pub fn drm_sizes(settings: *const u8, settings_len: usize, sizes: *mut u32, sizes_len: usize) -> u8;
        pub fn drm_reset(
            state: *mut u8, state_len: usize, settings: *const u8, settings_len: usize,
            memory: *mut MemoryElement, memory_len: usize,
        ) -> u8;
        pub fn drm_code(
            state: *mut u8, state_len: usize, memory: *mut MemoryElement, memory_len: usize,
            fac: *const u8, fac_len: usize, sdc: *const u8, sdc_len: usize, msc: *const u8, msc_len: usize,
            fac_cells: *mut i16, fac_cells_len: usize, sdc_cells: *mut i16, sdc_cells_len: usize,
            msc_cells: *mut i16, msc_cells_len: usize,
        ) -> u8;
        pub fn drm_read(
            state: *mut u8, state_len: usize, memory: *mut MemoryElement, memory_len: usize,
            fac_cells: *const i16, fac_cells_len: usize, sdc_cells: *const i16, sdc_cells_len: usize,
            msc_cells: *const i16, msc_cells_len: usize,
            fac: *mut u8, fac_len: usize, sdc: *mut u8, sdc_len: usize, msc: *mut u8, msc_len: usize,
        ) -> u16;
        pub fn drm_fac_build(
            settings: *const u8, settings_len: usize, fields: *const u32, fields_len: usize,
            block: *mut u8, block_len: usize,
        ) -> u8;
        pub fn drm_fac_read(
            settings: *const u8, settings_len: usize, block: *const u8, block_len: usize,
            fields: *mut u32, fields_len: usize,
        ) -> u8;
        pub fn drm_fac_nearest(
            received: *const u8, received_len: usize, block: *mut u8, block_len: usize,
            disagreement: *mut u16, disagreement_len: usize,
        ) -> u8;
    }
}

// Each function below lends whole slices that Rust keeps apart, which is all that the header asks.

pub fn lengths(settings: &[u8], lengths: &mut [u16]) -> u8 {
    unsafe { c::drm_lengths(settings.as_ptr(), settings.len(), lengths.as_mut_ptr(), lengths.len()) }
}

pub fn sizes(settings: &[u8], sizes: &mut [u32]) -> u8 {
    unsafe { c::drm_sizes(settings.as_ptr(), settings.len(), sizes.as_mut_ptr(), sizes.len()) }
}

pub fn reset(state: &mut [u8], settings: &[u8], memory: &mut [MemoryElement]) -> u8 {
    unsafe {
        c::drm_reset(
            state.as_mut_ptr(), state.len(), settings.as_ptr(), settings.len(), memory.as_mut_ptr(), memory.len(),
        )
    }
}

/// Bytes and cells in the order FAC, SDC, MSC.
pub fn code(state: &mut [u8], memory: &mut [MemoryElement], bytes: [&[u8]; 3], cells: [&mut [i16]; 3]) -> u8 {
    unsafe {
        c::drm_code(
            state.as_mut_ptr(), state.len(), memory.as_mut_ptr(), memory.len(),
            bytes[0].as_ptr(), bytes[0].len(), bytes[1].as_ptr(), bytes[1].len(), bytes[2].as_ptr(), bytes[2].len(),
            cells[0].as_mut_ptr(), cells[0].len(), cells[1].as_mut_ptr(), cells[1].len(),
            cells[2].as_mut_ptr(), cells[2].len(),
        )
    }
}

/// Cells and bytes in the order FAC, SDC, MSC.
pub fn read(state: &mut [u8], memory: &mut [MemoryElement], cells: [&[i16]; 3], bytes: [&mut [u8]; 3]) -> u16 {
    unsafe {
        c::drm_read(
            state.as_mut_ptr(), state.len(), memory.as_mut_ptr(), memory.len(),
            cells[0].as_ptr(), cells[0].len(), cells[1].as_ptr(), cells[1].len(), cells[2].as_ptr(), cells[2].len(),
            bytes[0].as_mut_ptr(), bytes[0].len(), bytes[1].as_mut_ptr(), bytes[1].len(),
            bytes[2].as_mut_ptr(), bytes[2].len(),
        )
    }
}

pub fn fac_build(settings: &[u8], fields: &[u32], block: &mut [u8]) -> u8 {
    unsafe {
        c::drm_fac_build(
            settings.as_ptr(), settings.len(), fields.as_ptr(), fields.len(), block.as_mut_ptr(), block.len(),
        )
    }
}

pub fn fac_read(settings: &[u8], block: &[u8], fields: &mut [u32]) -> u8 {
    unsafe {
        c::drm_fac_read(
            settings.as_ptr(), settings.len(), block.as_ptr(), block.len(), fields.as_mut_ptr(), fields.len(),
        )
    }
}

pub fn fac_nearest(received: &[u8], block: &mut [u8], count: &mut [u16]) -> u8 {
    unsafe {
        c::drm_fac_nearest(
            received.as_ptr(), received.len(), block.as_mut_ptr(), block.len(), count.as_mut_ptr(), count.len(),
        )
    }
}

/// Elements before and after a lent buffer that nobody may write; odd, so that alignment is the least allowed.
const GUARD: usize = 33;

/// A copy of a buffer with a guard on each side.
pub struct Guarded<T> {
    all: Vec<T>,
    len: usize,
    guard: T,
}

impl<T: Copy + PartialEq> Guarded<T> {
    pub fn new(buffer: &[T], guard: T) -> Guarded<T> {
        let mut all = vec![guard; buffer.len() + 2 * GUARD];
        all[GUARD..GUARD + buffer.len()].copy_from_slice(buffer);
        Guarded { all, len: buffer.len(), guard }
    }

    pub fn lent(&mut self) -> &mut [T] {
        &mut self.all[GUARD..GUARD + self.len]
    }

    /// Copies the buffer back; an error if a guard was written.
    pub fn back(&self, name: &str, buffer: &mut [T]) -> Result<(), String> {
        let (before, rest) = self.all.split_at(GUARD);
        let (lent, after) = rest.split_at(self.len);
        buffer.copy_from_slice(lent);
        match before.iter().chain(after).all(|v| *v == self.guard) {
            true => Ok(()),
            false => Err(format!("{name}: written outside what was lent")),
        }
    }
}

/// The answer of the archive; every buffer lies between guards while the call lasts.
pub fn answer(kind: Kind, lent: &mut Lent) -> Result<u16, String> {
    let mut settings = Guarded::new(&lent.settings, 0xA5);
    let mut state = Guarded::new(&lent.state, 0xA5);
    let mut lengths_out = Guarded::new(&lent.lengths, 0xA5A5);
    let mut sizes_out = Guarded::new(&lent.sizes, 0xA5A5A5A5);
    let mut lent_memory = MemoryElement::memory(&lent.memory);
    let mut memory = Guarded::new(&lent_memory, MemoryElement::GUARD);
    let [mut fac, mut sdc, mut msc] = [&lent.fac, &lent.sdc, &lent.msc].map(|b| Guarded::new(b, 0xA5));
    let cells = [&lent.fac_cells, &lent.sdc_cells, &lent.msc_cells];
    let [mut fac_cells, mut sdc_cells, mut msc_cells] = cells.map(|b| Guarded::new(b, 0x5A5A));
    let mut fields = Guarded::new(&lent.fields, 0xA5A5A5A5);
    let answer = match kind {
        Kind::Lengths => lengths(settings.lent(), lengths_out.lent()) as u16,
        Kind::Sizes => sizes(settings.lent(), sizes_out.lent()) as u16,
        Kind::Reset => reset(state.lent(), settings.lent(), memory.lent()) as u16,
        Kind::Code => {
            let cells = [fac_cells.lent(), sdc_cells.lent(), msc_cells.lent()];
            code(state.lent(), memory.lent(), [fac.lent(), sdc.lent(), msc.lent()], cells) as u16
        }
        Kind::Read => {
            let bytes = [fac.lent(), sdc.lent(), msc.lent()];
            read(state.lent(), memory.lent(), [fac_cells.lent(), sdc_cells.lent(), msc_cells.lent()], bytes)
        }
        Kind::FacBuild => fac_build(settings.lent(), fields.lent(), fac.lent()) as u16,
        Kind::FacRead => fac_read(settings.lent(), fac.lent(), fields.lent()) as u16,
    };
    settings.back("settings", &mut lent.settings)?;
    state.back("state", &mut lent.state)?;
    lengths_out.back("lengths", &mut lent.lengths)?;
    sizes_out.back("sizes", &mut lent.sizes)?;
    memory.back("memory", &mut lent_memory)?;
    lent.memory = MemoryElement::numbers(&lent_memory);
    fac.back("FAC bytes", &mut lent.fac)?;
    sdc.back("SDC bytes", &mut lent.sdc)?;
    msc.back("MSC bytes", &mut lent.msc)?;
    fac_cells.back("FAC cells", &mut lent.fac_cells)?;
    sdc_cells.back("SDC cells", &mut lent.sdc_cells)?;
    msc_cells.back("MSC cells", &mut lent.msc_cells)?;
    fields.back("fields", &mut lent.fields)?;
    Ok(answer)
}
