//! A second program for the DRM channel coder and reader, to be compared with the first by running both.

pub mod annexj;
pub mod block;
pub mod blocks;
pub mod buffers;
pub mod calls;
pub mod component;
pub mod counts;
pub mod digest;
pub mod dispersal;
pub mod fac;
pub mod forms;
pub mod grid;
pub mod hold;
pub mod how_long;
pub mod interleaver;
pub mod lengths;
pub mod mapping;
pub mod measured;
pub mod memory;
pub mod nearest;
pub mod packing;
pub mod plan;
pub mod preview;
pub mod rates;
pub mod read_on;
#[cfg(test)]
mod reference;
pub mod refusals;
pub mod runs;
pub mod settings;
pub mod streams;
pub mod superframe;
pub mod table;
#[cfg(test)]
mod tests;
