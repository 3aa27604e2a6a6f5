//! Calls of the archive of include/drmcoder.h, compared with the second program's own results; `bench` uses both too.

pub mod archive;
pub mod beside;
pub mod calls;
pub mod compare;
pub mod damage;
pub mod disperse;
pub mod draw;
pub mod grids;
pub mod halves;
pub mod holds;
pub mod how_long;
pub mod lent;
pub mod measured;
pub mod nearest;
pub mod own;
pub mod plans;
pub mod previews;
pub mod read_ons;
pub mod requests;
pub mod streams;
pub mod tables;
pub mod tally;
