//! A second program for the paper's operations, written from the paper alone.
//!
//! The library is compared with it, so the two share no code, no algorithm and no table. What is plain is preferred to
//! what is quick:
//! - `division`: rules 1 to 4 and 6 by scanning all rows;
//! - `completion`: rule 5 decided beginning by beginning, from the limit that its words give;
//! - `counting`: rules 7 to 9 by slicing the rows, the polynomial by differences of counts;
//! - `operations`: the seven operations on a table's bytes, with the paper's refusals in the paper's order;
//! - `bundle` and `listing`: the reader of bundles and all that the program `janet` writes;
//! - `writer`: the writer of bundles, which says for each place the byte that stands there.
//!
//! Places count from 0 in this crate: place 0 is the paper's variable 1. Row numbers count from 0.

#![warn(missing_docs)]

pub mod bundle;
pub mod completion;
pub mod counting;
pub mod division;
pub mod listing;
pub mod operations;
pub mod writer;

/// The paper's number of a refusal, 1 to 12.
pub type Refusal = u8;
