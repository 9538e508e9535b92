//! The library's jobs in quick plain Rust: what the benchmarks measure the library against.
//!
//! - `completion`: rows packed into words, recursion over the variables, the last three as a staircase.
//! - `slices`: the recursion over slices on flat bytes, without packing.
//! - `packed`: rows as words; the checks of entries, of order and for equal rows.
//! - `division`: marks of ascending rows, marks of any rows with their checks, find by scan and by descent.
//! - `counting`: all checks and the sum over the cones.
//! - `bundle`: opening the tables of a bundle, writing a bundle. `listing`: the whole output of `janet`.
//!
//! Tables are flat bytes, n a row, and are taken to be valid except where a check is what is measured.

#![warn(missing_docs)]

pub mod bundle;
pub mod completion;
pub mod counting;
pub mod division;
pub mod listing;
pub mod packed;
pub mod slices;
pub mod staircase;
