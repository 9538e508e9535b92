//! What a bundle is written from: sound parts, those of the longest bundles, and ones with the faults that the writer's
//! refusals name.
//!
//! - `Parts`: n, the counts and the tables. `several`: those of short tables. `repeated`: one of them with equal rows.
//! - `longest`: those of a bundle of 65,535 bytes. `beyond`: those of one that is too long.
//! - `damage`: parts with a fault or several. `at_limits`: parts at each limit and just past it.

use crate::bundles::{full_tables, repeated_tables, several_tables, spread, spread_counted};
use crate::random::Random;
use crate::tables;
use second::bundle::{MOST_BYTES, MOST_TABLES};
use second::operations::{LARGEST_ENTRY, MOST_ROWS};

/// The parts of a bundle.
#[derive(Clone, Debug)]
pub struct Parts {
    /// The number of variables.
    pub n: usize,
    /// The number of rows of each table.
    pub counts: Vec<u16>,
    /// The rows of all tables end to end.
    pub tables: Vec<u8>,
}

impl Parts {
    /// The parts of some tables with the same n.
    pub fn of(n: usize, bodies: &[Vec<u8>]) -> Self {
        Parts { n, counts: bodies.iter().map(|body| (body.len() / n) as u16).collect(), tables: bodies.concat() }
    }

    /// The length of their bundle.
    pub fn length(&self) -> usize {
        2 + 4 * self.counts.len() + self.tables.len()
    }

    /// Cuts or lengthens the tables to the bytes that n and the counts demand; of a damaged n at most 8 a row. Rows
    /// that are added have large entries, so that they seldom equal those before them.
    fn fit(&mut self) {
        let rows: usize = self.counts.iter().map(|&count| usize::from(count)).sum();
        let large = tables::counted(self.n.min(8), rows).into_iter().map(|entry| LARGEST_ENTRY - entry);
        self.tables.truncate(large.len());
        self.tables.extend(large.skip(self.tables.len()));
    }

    /// The same with these bytes.
    fn fitted(mut self) -> Self {
        self.fit();
        self
    }
}

/// The parts of a sound bundle of short tables.
pub fn several(random: &mut Random, least: usize, most: usize) -> Parts {
    let (n, bodies) = several_tables(random, least, most);
    Parts::of(n, &bodies)
}

/// The parts of such a bundle, but with equal rows in a table.
pub fn repeated(random: &mut Random, least: usize, most: usize) -> Parts {
    let (n, bodies) = repeated_tables(random, least, most);
    Parts::of(n, &bodies)
}

/// The parts of a sound bundle of exactly 65,535 bytes.
pub fn longest(random: &mut Random) -> Parts {
    let (n, bodies) = full_tables(random);
    Parts::of(n, &bodies)
}

/// The parts of a bundle of exactly 65,536 bytes, or of a few more; sound but for that.
pub fn beyond(random: &mut Random) -> Parts {
    let rows = random.pick(&[0, 0, 0, 1, 13]);
    if random.once_in(3) {
        return Parts::of(2, &spread_counted(2, MOST_BYTES + 1 + 2 * rows));
    }
    let largest = random.pick(&[3, 50]);
    Parts::of(5, &spread(5, MOST_BYTES + 1 + 5 * rows, |rows| tables::rows(random, 5, rows, largest).bytes))
}

/// Parts with one fault or several; of n, of the number of tables, of their bytes, of a count, of an entry.
pub fn damage(random: &mut Random, mut parts: Parts) -> Parts {
    for _ in 0..random.between(1, 3) {
        match random.below(10) {
            0 => change_variables(random, &mut parts),
            1 => change_number(random, &mut parts),
            2 => change_length(random, &mut parts),
            3..=6 => change_count(random, &mut parts),
            _ => spoil_entry(random, &mut parts),
        }
    }
    parts
}

/// An n that is not 1 to 6, also one whose lowest byte or word is; half of the time with the bytes that it demands.
fn change_variables(random: &mut Random, parts: &mut Parts) {
    parts.n = random.pick(&[0, 0, 7, 7, 8, 255, 258, usize::MAX, 1 << 32, (1 << 32) + 2]);
    if random.once_in(2) {
        parts.fit();
    }
}

/// Another number of tables: none, 1, 16, more than that, also one whose lowest byte is 1 to 16, seldom one whose two
/// lowest are. Tables that are added have no rows; half of the time the bytes fit again.
fn change_number(random: &mut Random, parts: &mut Parts) {
    let number = if random.once_in(50) {
        random.pick(&[65_536, 65_537])
    } else {
        random.pick(&[0, 0, 1, 16, 17, 17, 18, 40, 256, 257, 272])
    };
    parts.counts.resize(number, 0);
    if random.once_in(2) {
        parts.fit();
    }
}

/// A byte or a row more or less, or no bytes at all.
fn change_length(random: &mut Random, parts: &mut Parts) {
    let (length, row) = (parts.tables.len(), parts.n.min(8));
    let others = [length + 1, length + row, length.saturating_sub(1), length.saturating_sub(row), 0];
    parts.tables.resize(random.pick(&others), 1);
}

/// Another count of rows: one more, one less, 4,096 or above it; half of the time with the bytes that it demands.
fn change_count(random: &mut Random, parts: &mut Parts) {
    if parts.counts.is_empty() {
        return;
    }
    let table = random.below(parts.counts.len());
    let count = parts.counts[table];
    let few = [count.wrapping_add(1), count.wrapping_sub(1), 4096, 4097, 4097];
    parts.counts[table] = if random.once_in(12) { 65_535 } else { random.pick(&few) };
    if random.once_in(2) {
        parts.fit();
    }
}

/// An entry above 50: the first, the last, or one anywhere.
fn spoil_entry(random: &mut Random, parts: &mut Parts) {
    if parts.tables.is_empty() {
        return;
    }
    let anywhere = random.below(parts.tables.len());
    let at = random.pick(&[0, anywhere, parts.tables.len() - 1]);
    parts.tables[at] = random.pick(&[51, 51, 52, 128, 255]);
}

/// Parts at a limit and past it, sound in all else: of n, of the tables, of their rows, of the bytes, of an entry; then
/// parts with more rows than 16 bits can count but without bytes, and parts with two faults.
pub fn at_limits() -> Vec<Parts> {
    let sized = |n: usize, counts: &[u16]| Parts { n, counts: counts.to_vec(), tables: Vec::new() };
    let variables = [0, 1, 6, 7, 8].map(|n| sized(n, &[1, 2]).fitted());
    let far = [255, 256, 258, usize::MAX, 1 << 32].map(|n| sized(n, &[0]));
    let tables = [0, 1, MOST_TABLES, MOST_TABLES + 1, 256, 257].map(|count| sized(3, &vec![0; count]));
    let rows = [MOST_ROWS as u16, 4097, 65_535].map(|rows| sized(3, &[1, rows]).fitted());
    let bytes = [(3, MOST_BYTES), (5, MOST_BYTES + 1)].map(|(n, bytes)| Parts::of(n, &spread_counted(n, bytes)));
    let most = [3, 6].map(|n| sized(n, &[MOST_ROWS as u16; MOST_TABLES]).fitted());
    let entries = [50, 51].map(|entry| Parts::of(2, &[vec![1, 2], vec![3, entry]]));
    let wrapping = [sized(1, &[MOST_ROWS as u16; MOST_TABLES]), sized(2, &[65_535, 1])];
    let all = [&variables[..], &far, &tables, &rows, &bytes, &most, &entries, &wrapping, &twofold()];
    all.concat()
}

/// Two faults each, one behind the other in the writer's order: 1 and 9, 9 and 2, 2 and 3, 2 and 4, 3 and 4. In a short
/// buffer each of them has 8 as well.
fn twofold() -> [Parts; 5] {
    let parts = |n: usize, counts: &[u16], tables: Vec<u8>| Parts { n, counts: counts.to_vec(), tables };
    [
        parts(0, &[], Vec::new()),
        parts(2, &[1; 17], vec![1]),
        parts(2, &[4097], vec![1, 1]),
        parts(2, &[1, 1], vec![1, 1, 51]),
        parts(1, &[4097], vec![51; 4097]),
    ]
}
