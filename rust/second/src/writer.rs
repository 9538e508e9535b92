//! The writer of bundles: for each place of a bundle the byte that stands there, said from n, the counts and the tables
//! alone, without a look at the bytes before it.
//!
//! - `byte`: the byte at a place. `write`: the bundle of these bytes, refused in the writer's order.

use crate::bundle::{MOST_BYTES, MOST_TABLES};
use crate::division::VARIABLES;
use crate::operations::{check_distinct, rows_of, LARGEST_ENTRY, MOST_ROWS};
use crate::Refusal;

/// The bundle of some tables at the buffer's front, and its length. `counts` has the number of rows of each table, and
/// `tables` their rows end to end. Refused by 1, 9, 2, 3, 4, 12 or 8, the first that holds.
pub fn write(n: usize, counts: &[u16], tables: &[u8], buffer: &mut [u8]) -> Result<usize, Refusal> {
    check(n, counts, tables)?;
    let length = header(counts) + tables.len();
    if length > buffer.len() || length > MOST_BYTES {
        return Err(8);
    }
    for (at, place) in buffer[..length].iter_mut().enumerate() {
        *place = byte(n, counts, tables, at);
    }
    Ok(length)
}

/// Refused by 1, 9, 2, 3, 4 or 12 unless these are the tables of some bundle, be it a long one.
fn check(n: usize, counts: &[u16], tables: &[u8]) -> Result<(), Refusal> {
    if !(1..=VARIABLES).contains(&n) {
        return Err(1);
    }
    if !(1..=MOST_TABLES).contains(&counts.len()) {
        return Err(9);
    }
    if tables.len() != n * rows(counts) {
        return Err(2);
    }
    if counts.iter().any(|&count| usize::from(count) > MOST_ROWS) {
        return Err(3);
    }
    if tables.iter().any(|&entry| entry > LARGEST_ENTRY) {
        return Err(4);
    }
    (0..counts.len()).try_for_each(|table| check_distinct(&rows_of(n, body(n, counts, tables, table))))
}

/// The bytes of one of the tables: they stand behind the rows of those before it.
fn body<'a>(n: usize, counts: &[u16], tables: &'a [u8], table: usize) -> &'a [u8] {
    let [start, end] = [table, table + 1].map(|tables| n * rows(&counts[..tables]));
    &tables[start..end]
}

/// The byte at a place of the bundle.
fn byte(n: usize, counts: &[u16], tables: &[u8], at: usize) -> u8 {
    match at {
        0 => n as u8,
        1 => counts.len() as u8,
        _ if at < header(counts) => described(n, counts, (at - 2) / 4)[(at - 2) % 4],
        _ => tables[at - header(counts)],
    }
}

/// The header's four bytes of a table: its rows and the offset of its body, low byte first. The offset is the header
/// and the rows before it.
fn described(n: usize, counts: &[u16], table: usize) -> [u8; 4] {
    let count = usize::from(counts[table]);
    let offset = header(counts) + n * rows(&counts[..table]);
    [count % 256, count / 256, offset % 256, offset / 256].map(|part| part as u8)
}

/// The header's length.
fn header(counts: &[u16]) -> usize {
    2 + 4 * counts.len()
}

/// All rows of some tables.
fn rows(counts: &[u16]) -> usize {
    counts.iter().map(|&count| usize::from(count)).sum()
}
