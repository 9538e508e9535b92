//! Completion on packed rows: recursion over the variables, the last three as a staircase.
//!
//! For each exponent of the first variable, ascending, the tails of the rows with it join the generators of the slices
//! before. If they enlarge their ideal, the block of rows last written is repeated for the exponents between, and the
//! block of the enlarged ideal follows. A block is itself a set of generators and takes their place where it is
//! shorter.

use crate::packed::{any_divides, byte, pack_all, unpack_all};
use crate::staircase::Staircase;
use std::ops::Range;

/// The most rows of a table.
const MOST_ROWS: usize = 4096;

/// Rows written so far, and the room for them; a row too many makes it refused for good.
pub struct Rows {
    words: Vec<u64>,
    room: usize,
    refused: bool,
}

impl Rows {
    /// How many rows there are.
    pub fn len(&self) -> usize {
        self.words.len()
    }

    /// Whether there are none.
    pub fn is_empty(&self) -> bool {
        self.words.is_empty()
    }

    /// Whether a row did not fit.
    pub fn is_refused(&self) -> bool {
        self.refused
    }

    /// Appends some rows.
    pub fn append(&mut self, words: impl ExactSizeIterator<Item = u64>) {
        if self.words.len() + words.len() > self.room {
            self.refused = true;
        } else {
            self.words.extend(words);
        }
    }

    /// Appends a block again and again, each time with the exponent at `shift` one higher.
    pub fn repeat(&mut self, block: Range<usize>, shift: usize, times: usize) {
        let length = block.len();
        if self.words.len() + length * times > self.room {
            self.refused = true;
            return;
        }
        for time in 1..=times as u64 {
            let start = self.words.len();
            self.words.extend_from_within(block.clone());
            self.words[start..].iter_mut().for_each(|word| *word += time << shift);
        }
    }
}

/// Writes the completed table to the buffer's front and gives its number of rows, or nothing where it does not fit.
pub fn complete(n: usize, table: &[u8], buffer: &mut [u8]) -> Option<usize> {
    let words = pack_all(n, table);
    let room = MOST_ROWS.min(buffer.len() / n);
    let mut rows = Rows { words: Vec::with_capacity(room.min(64)), room, refused: false };
    level(n, &words, 0, &mut rows);
    if rows.refused {
        return None;
    }
    unpack_all(n, &rows.words, buffer);
    Some(rows.len())
}

/// Appends the completed rows of a table in the last `variables` variables, each behind `head`.
fn level(variables: usize, table: &[u64], head: u64, rows: &mut Rows) {
    match variables {
        0..=3 => last_three(variables, table, head, rows),
        4 => four(table, head, rows),
        _ => more(variables, table, head, rows),
    }
}

/// At most three variables: one staircase. Variables that are missing before them stay 0.
fn last_three(variables: usize, table: &[u64], head: u64, rows: &mut Rows) {
    debug_assert!(variables <= 3);
    let mut stairs = Staircase::new(table);
    for &word in table {
        stairs.enter(word);
    }
    stairs.write(head, rows);
}

/// The rows of a table in the order of one of their bytes, and where each exponent's rows begin.
struct ByHead {
    words: Vec<u64>,
    starts: [usize; 52],
    largest: usize,
}

impl ByHead {
    /// A counting sort.
    fn new(table: &[u64], place: usize) -> Self {
        let mut starts = [0; 52];
        let mut largest = 0;
        for &word in table {
            let exponent = byte(word, place);
            starts[exponent + 1] += 1;
            largest = largest.max(exponent);
        }
        for exponent in 0..51 {
            starts[exponent + 1] += starts[exponent];
        }
        let mut next = starts;
        let mut words = vec![0; table.len()];
        for &word in table {
            let exponent = byte(word, place);
            words[next[exponent]] = word;
            next[exponent] += 1;
        }
        ByHead { words, starts, largest }
    }

    /// The rows with an exponent.
    fn with(&self, exponent: usize) -> &[u64] {
        &self.words[self.starts[exponent]..self.starts[exponent + 1]]
    }
}

/// Four variables: the tails enter one staircase, which is read off whenever it grew.
fn four(table: &[u64], head: u64, rows: &mut Rows) {
    let by_head = ByHead::new(table, 3);
    let mut stairs = Staircase::new(table);
    let mut block = rows.len()..rows.len();
    let mut last = 0;
    for exponent in 0..=by_head.largest {
        let grew = by_head.with(exponent).iter().fold(false, |grew, &word| stairs.enter(word) | grew);
        if !grew {
            continue;
        }
        rows.repeat(block, 24, exponent.saturating_sub(last + 1));
        let start = rows.len();
        stairs.write(head | (exponent as u64) << 24, rows);
        if rows.refused {
            return;
        }
        (block, last) = (start..rows.len(), exponent);
    }
}

/// Five or six variables: the generators of the slices so far stand in a list of words.
fn more(variables: usize, table: &[u64], head: u64, rows: &mut Rows) {
    let shift = 8 * (variables - 1);
    let tail = (1u64 << shift) - 1;
    let by_head = ByHead::new(table, variables - 1);
    let mut generators: Vec<u64> = Vec::with_capacity(table.len());
    let mut block = rows.len()..rows.len();
    let mut last = 0;
    for exponent in 0..=by_head.largest {
        if !join(&mut generators, by_head.with(exponent), tail) {
            continue;
        }
        rows.repeat(block, shift, exponent.saturating_sub(last + 1));
        let start = rows.len();
        level(variables - 1, &generators, head | (exponent as u64) << shift, rows);
        if rows.refused {
            return;
        }
        (block, last) = (start..rows.len(), exponent);
        if block.len() < generators.len() {
            generators.clear();
            generators.extend(rows.words[block.clone()].iter().map(|word| word & tail));
        }
    }
}

/// Appends the tails where they enlarge the ideal of the generators; says whether they do. Once one of them does, all
/// are taken: to test each would cost more than what is saved below.
fn join(generators: &mut Vec<u64>, added: &[u64], tail: u64) -> bool {
    let grows = added.iter().any(|word| !any_divides(generators, word & tail));
    if grows {
        generators.extend(added.iter().map(|word| word & tail));
    }
    grows
}
