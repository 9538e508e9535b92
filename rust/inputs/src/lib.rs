//! Random inputs for the comparisons: the same seed gives the same inputs on every machine.
//!
//! - `random`: the numbers. `tables`: tables for every operation. `bundles`: bundles of them. `parts`: what a bundle is
//!   written from. `equal`: all these with equal rows and one fault more, none of them random.

#![warn(missing_docs)]

pub mod bundles;
pub mod equal;
pub mod parts;
pub mod random;
pub mod tables;
