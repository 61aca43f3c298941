//! A gateway that runs a board's turns on a fixed clock, one slot each, and releases what a turn hands out at the
//! slot's end; and a measurement of what a rival learns from the moments of a board with and without it.
#![forbid(unsafe_code)]
pub mod arguments;
pub mod clock;
pub mod measure;
pub mod mixes;
pub mod paced;
pub mod report;
pub mod slots;
pub mod statistics;
