//! The reader of bundles: the header's refusals in the paper's order, and where each table's body lies.

use crate::division::VARIABLES;
use crate::operations::{check_distinct, rows_of, LARGEST_ENTRY, MOST_ROWS};
use crate::Refusal;

/// The most bytes of a bundle.
pub const MOST_BYTES: usize = 65_535;
/// The most tables of a bundle.
pub const MOST_TABLES: usize = 16;

/// An opened table: its n, its row count, and where its body begins in the bundle.
#[derive(Clone, Copy, Debug, PartialEq, Eq)]
pub struct Opened {
    /// The number of variables.
    pub n: usize,
    /// The number of rows.
    pub rows: usize,
    /// Where the body begins, from the bundle's start.
    pub offset: usize,
}

impl Opened {
    /// The table's bytes: that part of the bundle.
    pub fn body<'a>(&self, bundle: &'a [u8]) -> &'a [u8] {
        &bundle[self.offset..self.offset + self.n * self.rows]
    }
}

/// Table j of a bundle, counted from 0; refused by 5 behind the last table of a bundle without fault.
pub fn open(bundle: &[u8], j: usize) -> Result<Opened, Refusal> {
    tables(bundle)?.get(j).copied().ok_or(5)
}

/// All tables of a bundle; refused by 9, 1, 3, 10, 11, 4 or 12 for a fault in any of them.
pub fn tables(bundle: &[u8]) -> Result<Vec<Opened>, Refusal> {
    let (n, tables) = checked_header(bundle)?;
    let mut next = 2 + 4 * tables;
    let mut opened = Vec::new();
    for j in 0..tables {
        let table = Opened { n, rows: number(bundle, 2 + 4 * j), offset: number(bundle, 4 + 4 * j) };
        check_place(bundle, &table, next)?;
        next += n * table.rows;
        opened.push(table);
    }
    if next != bundle.len() {
        return Err(11);
    }
    if opened.iter().any(|table| table.body(bundle).iter().any(|&entry| entry > LARGEST_ENTRY)) {
        return Err(4);
    }
    opened.iter().try_for_each(|table| check_distinct(&rows_of(n, table.body(bundle))))?;
    Ok(opened)
}

/// n and the number of tables; refused by 9, then 1.
fn checked_header(bundle: &[u8]) -> Result<(usize, usize), Refusal> {
    if bundle.len() < 2 || bundle.len() > MOST_BYTES {
        return Err(9);
    }
    let (n, tables) = (usize::from(bundle[0]), usize::from(bundle[1]));
    if !(1..=MOST_TABLES).contains(&tables) || bundle.len() < 2 + 4 * tables {
        return Err(9);
    }
    if !(1..=VARIABLES).contains(&n) {
        return Err(1);
    }
    Ok((n, tables))
}

/// Refused by 3, 10 or 11 unless the table has at most 4,096 rows, begins where it must, and ends in the bundle.
fn check_place(bundle: &[u8], table: &Opened, next: usize) -> Result<(), Refusal> {
    if table.rows > MOST_ROWS {
        return Err(3);
    }
    if table.offset != next {
        return Err(10);
    }
    if next + table.n * table.rows > bundle.len() {
        return Err(11);
    }
    Ok(())
}

/// Sixteen bits at a place, low byte first.
fn number(bundle: &[u8], at: usize) -> usize {
    usize::from(bundle[at]) + 256 * usize::from(bundle[at + 1])
}
