//! What the programs that measure share.
//!
//! - `turns`: the times of several jobs side by side. `print`: the lines of a report. `tables`: what is measured.

#![warn(missing_docs)]

pub mod print;
pub mod tables;
pub mod turns;
