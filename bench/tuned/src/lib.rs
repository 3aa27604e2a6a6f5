//! Code and Read written for speed, to measure the library against. The standard's tables are read as in the second
//! program; no stage is its.
//!
//! Bits between two stages stand one a byte, and a byte may carry that bit of several blocks at once (its lanes), so
//! that one pass, and one look at each place of an interleaver, serves them all. Parities are sums of shifted copies of
//! the bits, and decoding divides by the generator through its squares, so that both go sixteen bytes a step.
//!
//! It knows the standard's puncturing table only: a state with another is refused by 23.

mod block;
mod component;
mod fixed;
mod layout;
mod places;
mod standard;
mod superframe;

pub use superframe::Tuned;
