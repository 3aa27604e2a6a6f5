//! The archive's functions of the requests, over slices as the modules of random calls take them. A function that no
//! program names needs no archive that has it.

use crate::holds::Hold;
use crate::streams::Mux;
use crate::tables::Coder;
use second::forms::MemoryElement;

mod c {
    use second::forms::MemoryElement;

    extern "C" {
        pub fn drm_plan(rules: *const u8, rules_len: usize, super_frame: u32, answer: *mut u8, answer_len: usize) -> u8;
        pub fn drm_mux_build(
            settings: *const u8, settings_len: usize, description: *const u16, description_len: usize,
            streams: *const u8, streams_len: usize, frame: *mut u8, frame_len: usize,
        ) -> u8;
        pub fn drm_mux_read(
            settings: *const u8, settings_len: usize, description: *const u16, description_len: usize,
            frame: *const u8, frame_len: usize, streams: *mut u8, streams_len: usize,
        ) -> u8;
        pub fn drm_how_long(
            settings: *const u8, settings_len: usize, bytes: u32, numbers: *mut u32, numbers_len: usize,
        ) -> u8;
        pub fn drm_hold_sizes(settings: *const u8, settings_len: usize, sizes: *mut u32, sizes_len: usize) -> u8;
        pub fn drm_store_old(
            state: *const u8, state_len: usize, memory: *const u8, memory_len: usize, file: *mut u8, file_len: usize,
        ) -> u8;
        pub fn drm_store_new(
            state: *const u8, state_len: usize, memory: *const u8, memory_len: usize, file: *mut u8, file_len: usize,
        ) -> u8;
        pub fn drm_to_new(
            settings: *const u8, settings_len: usize, old_file: *const u8, old_file_len: usize,
            new_file: *mut u8, new_file_len: usize,
        ) -> u8;
        pub fn drm_to_old(
            settings: *const u8, settings_len: usize, new_file: *const u8, new_file_len: usize,
            old_file: *mut u8, old_file_len: usize,
        ) -> u8;
        pub fn drm_restore_old(
            state: *mut u8, state_len: usize, settings: *const u8, settings_len: usize,
            file: *const u8, file_len: usize, memory: *mut u8, memory_len: usize,
        ) -> u8;
        pub fn drm_restore_new(
            state: *mut u8, state_len: usize, settings: *const u8, settings_len: usize,
            file: *const u8, file_len: usize, memory: *mut u8, memory_len: usize,
        ) -> u8;
        pub fn drm_restore_old_table(
            state: *mut u8, state_len: usize, settings: *const u8, settings_len: usize, table: *const u8, table_len: usize,
            file: *const u8, file_len: usize, memory: *mut u8, memory_len: usize,
        ) -> u8;
        pub fn drm_restore_new_table(
            state: *mut u8, state_len: usize, settings: *const u8, settings_len: usize, table: *const u8, table_len: usize,
            file: *const u8, file_len: usize, memory: *mut u8, memory_len: usize,
        ) -> u8;
        pub fn drm_disperse(
            treated: u16, bits: u16, bytes: *const u8, bytes_len: usize, out: *mut u8, out_len: usize,
        ) -> u8;
        pub fn drm_reset_table(
            state: *mut u8, state_len: usize, settings: *const u8, settings_len: usize, table: *const u8, table_len: usize,
            memory: *mut MemoryElement, memory_len: usize,
        ) -> u8;
        pub fn drm_preview(
            state: *const u8, state_len: usize, memory: *const u8, memory_len: usize,
            fac: *const u8, fac_len: usize, sdc: *const u8, sdc_len: usize, msc: *const u8, msc_len: usize,
            fac_cells: *mut i16, fac_cells_len: usize, sdc_cells: *mut i16, sdc_cells_len: usize,
            msc_cells: *mut i16, msc_cells_len: usize, next: *mut u8, next_len: usize,
        ) -> u8;
        pub fn drm_read_on(
            state: *mut u8, state_len: usize, memory: *mut u8, memory_len: usize,
            fac_cells: *const i16, fac_cells_len: usize, sdc_cells: *const i16, sdc_cells_len: usize,
            msc_cells: *const i16, msc_cells_len: usize,
            fac: *mut u8, fac_len: usize, sdc: *mut u8, sdc_len: usize, msc: *mut u8, msc_len: usize,
            lost: *mut u8, lost_len: usize,
        ) -> u16;
    }
}

// Each function below lends whole slices that Rust keeps apart, which is all that the header asks.

/// S-12.
pub fn plan(rules: &[u8], super_frame: u32, answer: &mut [u8]) -> u8 {
    unsafe { c::drm_plan(rules.as_ptr(), rules.len(), super_frame, answer.as_mut_ptr(), answer.len()) }
}

/// S-8.
pub const MUX: Mux = Mux { build: mux_build, read: mux_read };

pub fn mux_build(settings: &[u8], description: &[u16], streams: &[u8], frame: &mut [u8]) -> u8 {
    unsafe {
        c::drm_mux_build(
            settings.as_ptr(), settings.len(), description.as_ptr(), description.len(),
            streams.as_ptr(), streams.len(), frame.as_mut_ptr(), frame.len(),
        )
    }
}

pub fn mux_read(settings: &[u8], description: &[u16], frame: &[u8], streams: &mut [u8]) -> u8 {
    unsafe {
        c::drm_mux_read(
            settings.as_ptr(), settings.len(), description.as_ptr(), description.len(),
            frame.as_ptr(), frame.len(), streams.as_mut_ptr(), streams.len(),
        )
    }
}

/// S-14.
pub fn how_long(settings: &[u8], bytes: u32, numbers: &mut [u32]) -> u8 {
    unsafe { c::drm_how_long(settings.as_ptr(), settings.len(), bytes, numbers.as_mut_ptr(), numbers.len()) }
}

/// S-7.
pub const HOLD: Hold = Hold {
    sizes: hold_sizes,
    store: [store_old, store_new],
    convert: [to_new, to_old],
    restore: [restore_old, restore_new],
    restore_table: [restore_old_table, restore_new_table],
};

pub fn hold_sizes(settings: &[u8], sizes: &mut [u32]) -> u8 {
    unsafe { c::drm_hold_sizes(settings.as_ptr(), settings.len(), sizes.as_mut_ptr(), sizes.len()) }
}

pub fn store_old(state: &[u8], memory: &[u8], file: &mut [u8]) -> u8 {
    unsafe {
        c::drm_store_old(
            state.as_ptr(), state.len(), memory.as_ptr(), memory.len(), file.as_mut_ptr(), file.len(),
        )
    }
}

pub fn store_new(state: &[u8], memory: &[u8], file: &mut [u8]) -> u8 {
    unsafe {
        c::drm_store_new(
            state.as_ptr(), state.len(), memory.as_ptr(), memory.len(), file.as_mut_ptr(), file.len(),
        )
    }
}

pub fn to_new(settings: &[u8], old_file: &[u8], new_file: &mut [u8]) -> u8 {
    unsafe {
        c::drm_to_new(
            settings.as_ptr(), settings.len(), old_file.as_ptr(), old_file.len(), new_file.as_mut_ptr(), new_file.len(),
        )
    }
}

pub fn to_old(settings: &[u8], new_file: &[u8], old_file: &mut [u8]) -> u8 {
    unsafe {
        c::drm_to_old(
            settings.as_ptr(), settings.len(), new_file.as_ptr(), new_file.len(), old_file.as_mut_ptr(), old_file.len(),
        )
    }
}

pub fn restore_old(state: &mut [u8], settings: &[u8], file: &[u8], memory: &mut [u8]) -> u8 {
    unsafe {
        c::drm_restore_old(
            state.as_mut_ptr(), state.len(), settings.as_ptr(), settings.len(), file.as_ptr(), file.len(),
            memory.as_mut_ptr(), memory.len(),
        )
    }
}

pub fn restore_new(state: &mut [u8], settings: &[u8], file: &[u8], memory: &mut [u8]) -> u8 {
    unsafe {
        c::drm_restore_new(
            state.as_mut_ptr(), state.len(), settings.as_ptr(), settings.len(), file.as_ptr(), file.len(),
            memory.as_mut_ptr(), memory.len(),
        )
    }
}

pub fn restore_old_table(state: &mut [u8], settings: &[u8], table: &[u8], file: &[u8], memory: &mut [u8]) -> u8 {
    unsafe {
        c::drm_restore_old_table(
            state.as_mut_ptr(), state.len(), settings.as_ptr(), settings.len(), table.as_ptr(), table.len(),
            file.as_ptr(), file.len(), memory.as_mut_ptr(), memory.len(),
        )
    }
}

pub fn restore_new_table(state: &mut [u8], settings: &[u8], table: &[u8], file: &[u8], memory: &mut [u8]) -> u8 {
    unsafe {
        c::drm_restore_new_table(
            state.as_mut_ptr(), state.len(), settings.as_ptr(), settings.len(), table.as_ptr(), table.len(),
            file.as_ptr(), file.len(), memory.as_mut_ptr(), memory.len(),
        )
    }
}

/// S-6.
pub fn disperse(treated: u16, bits: u16, bytes: &[u8], out: &mut [u8]) -> u8 {
    unsafe { c::drm_disperse(treated, bits, bytes.as_ptr(), bytes.len(), out.as_mut_ptr(), out.len()) }
}

/// S-11, in today's form of memory; Code and Read are those of `archive`.
pub const CODER: Coder<MemoryElement> =
    Coder { reset_table, code: crate::archive::code, read: crate::archive::read };

pub fn reset_table(state: &mut [u8], settings: &[u8], table: &[u8], memory: &mut [MemoryElement]) -> u8 {
    unsafe {
        c::drm_reset_table(
            state.as_mut_ptr(), state.len(), settings.as_ptr(), settings.len(), table.as_ptr(), table.len(),
            memory.as_mut_ptr(), memory.len(),
        )
    }
}

/// S-3.
pub fn preview(state: &[u8], memory: &[u8], bytes: [&[u8]; 3], cells: [&mut [i16]; 3], next: &mut [u8]) -> u8 {
    let [fac, sdc, msc] = bytes;
    let [fac_cells, sdc_cells, msc_cells] = cells;
    unsafe {
        c::drm_preview(
            state.as_ptr(), state.len(), memory.as_ptr(), memory.len(),
            fac.as_ptr(), fac.len(), sdc.as_ptr(), sdc.len(), msc.as_ptr(), msc.len(),
            fac_cells.as_mut_ptr(), fac_cells.len(), sdc_cells.as_mut_ptr(), sdc_cells.len(),
            msc_cells.as_mut_ptr(), msc_cells.len(), next.as_mut_ptr(), next.len(),
        )
    }
}

/// S-13.
pub fn read_on(
    state: &mut [u8], memory: &mut [u8], cells: [&[i16]; 3], bytes: [&mut [u8]; 3], lost: &mut [u8],
) -> u16 {
    let [fac_cells, sdc_cells, msc_cells] = cells;
    let [fac, sdc, msc] = bytes;
    unsafe {
        c::drm_read_on(
            state.as_mut_ptr(), state.len(), memory.as_mut_ptr(), memory.len(),
            fac_cells.as_ptr(), fac_cells.len(), sdc_cells.as_ptr(), sdc_cells.len(),
            msc_cells.as_ptr(), msc_cells.len(),
            fac.as_mut_ptr(), fac.len(), sdc.as_mut_ptr(), sdc.len(), msc.as_mut_ptr(), msc.len(),
            lost.as_mut_ptr(), lost.len(),
        )
    }
}
