//! Random tables: short and long, in order or not, complete, nearly complete, with equal rows.
//!
//! - `short`: a few random rows. `in_order`: a table's rows in order, once each. `once_each`: in their own order.
//! - `complete`: the completed table of a few random rows. `nearly`: one with a small change.
//! - `long`: up to 4,096 rows. `growing`: a few rows whose completion is large.
//! - `rows`: random rows. `counted`: the first rows of all in order.
//! - `repeated`: a table with equal rows. Else there are none but where `nearly` or `damage` makes them.
//! - `damage`: a table and n with faults that the refusals name.

use crate::random::Random;
use second::completion::completed;
use second::division::VARIABLES;
use second::operations::{checked_rows, LARGEST_ENTRY, MOST_ROWS};
use std::collections::HashSet;

/// A number of variables and a table's bytes.
#[derive(Clone, Debug)]
pub struct Table {
    /// The number of variables.
    pub n: usize,
    /// The rows end to end.
    pub bytes: Vec<u8>,
}

impl Table {
    /// The number of whole rows; 0 for a damaged n of 0.
    pub fn rows(&self) -> usize {
        self.bytes.len().checked_div(self.n).unwrap_or(0)
    }

    /// The bytes of a row.
    pub fn row(&self, row: usize) -> &[u8] {
        &self.bytes[row * self.n..(row + 1) * self.n]
    }

    /// Writes a row over another.
    pub fn copy_row(&mut self, from: usize, to: usize) {
        self.bytes.copy_within(from * self.n..(from + 1) * self.n, to * self.n);
    }
}

/// The largest entry of a short table: mostly small, so that most completions have tens of rows and not thousands.
fn largest_entry(random: &mut Random, n: usize) -> u8 {
    let usual = [50, 20, 8, 5, 4, 3][n - 1];
    match random.below(12) {
        0 => 50,
        1 | 2 => 1,
        3..=5 => 2,
        _ => usual,
    }
}

/// Rows with entries up to `largest`, no two equal: so many, or all that there are.
pub fn rows(random: &mut Random, n: usize, count: usize, largest: u8) -> Table {
    let all = (usize::from(largest) + 1).pow(n as u32);
    let mut before = HashSet::new();
    let mut bytes = Vec::new();
    while before.len() < count.min(all) {
        let mut row = [0; VARIABLES];
        row[..n].fill_with(|| random.byte(largest));
        if before.insert(row) {
            bytes.extend(&row[..n]);
        }
    }
    Table { n, bytes }
}

/// The first rows of all in order, so many; behind the last of all they begin again.
pub fn counted(n: usize, rows: usize) -> Vec<u8> {
    let mut row = vec![0; n];
    let mut bytes = Vec::with_capacity(n * rows);
    for _ in 0..rows {
        bytes.extend(&row);
        let raised = row.iter().rposition(|&entry| entry < LARGEST_ENTRY);
        row[raised.map_or(0, |place| place + 1)..].fill(0);
        if let Some(place) = raised {
            row[place] += 1;
        }
    }
    bytes
}

/// A few random rows, sometimes with boundary entries.
pub fn short(random: &mut Random, n: usize) -> Table {
    let largest = largest_entry(random, n);
    let most = if largest == 50 && n > 2 { 3 } else { 10 };
    let count = random.between(0, most);
    let mut table = rows(random, n, count, largest);
    if count > 0 && random.once_in(12) {
        let at = random.below(table.bytes.len());
        table.bytes[at] = 50;
    }
    once_each(&table)
}

/// The table with equal rows: side by side, the first and the last, any two, three, or all of them.
pub fn repeated(random: &mut Random, mut table: Table) -> Table {
    if table.rows() < 2 {
        table.bytes = vec![random.byte(5); 2 * table.n];
    }
    let rows = table.rows();
    let row = random.below(rows);
    match random.below(5) {
        0 => table.copy_row(row, (row + 1) % rows),
        1 => table.copy_row(0, rows - 1),
        2 => table.copy_row(row, another(random, row, rows)),
        3 => (0..2).for_each(|_| table.copy_row(row, another(random, row, rows))),
        _ => (0..rows).for_each(|other| table.copy_row(row, other)),
    }
    table
}

/// Another row of so many.
fn another(random: &mut Random, row: usize, rows: usize) -> usize {
    (row + random.between(1, rows - 1)) % rows
}

/// The rows in their order, without those that stand there before.
pub fn once_each(table: &Table) -> Table {
    let mut before = HashSet::new();
    let rows: Vec<&[u8]> = table.bytes.chunks(table.n).filter(|row| before.insert(*row)).collect();
    Table { n: table.n, bytes: rows.concat() }
}

/// The rows in ascending order, once each.
pub fn in_order(table: &Table) -> Table {
    let mut rows: Vec<&[u8]> = table.bytes.chunks(table.n).collect();
    rows.sort();
    rows.dedup();
    Table { n: table.n, bytes: rows.concat() }
}

/// The completed table of another; empty where it does not fit.
pub fn completion(table: &Table) -> Table {
    let rows = checked_rows(table.n, &table.bytes).expect("the table is valid");
    let full = completed(table.n, &rows, MOST_ROWS).unwrap_or_default();
    Table { n: table.n, bytes: full.iter().flat_map(|row| row[..table.n].to_vec()).collect() }
}

/// The completed table of a few random rows.
pub fn complete(random: &mut Random, n: usize) -> Table {
    completion(&short(random, n))
}

/// A complete table with one small change, so that it is often no longer complete or no longer in order.
pub fn nearly(random: &mut Random, complete: &Table) -> Table {
    let mut table = complete.clone();
    let (n, count) = (table.n, table.rows());
    if count == 0 {
        return table;
    }
    let row = random.below(count);
    match random.below(6) {
        0 | 1 => drop(table.bytes.drain(row * n..(row + 1) * n)),
        2 => raise(&mut table, row, random.below(n)),
        3 => repeat_row(&mut table, row),
        4 => swap_rows(&mut table, row, random.below(count)),
        _ => table = with_row(random, &table),
    }
    table
}

/// One entry larger by one.
fn raise(table: &mut Table, row: usize, place: usize) {
    let entry = &mut table.bytes[row * table.n + place];
    *entry = 50.min(*entry + 1);
}

/// A row twice, one behind the other.
fn repeat_row(table: &mut Table, row: usize) {
    let repeated = table.row(row).to_vec();
    let behind = (row + 1) * table.n;
    table.bytes.splice(behind..behind, repeated);
}

/// Two rows exchanged.
fn swap_rows(table: &mut Table, one: usize, other: usize) {
    for place in 0..table.n {
        table.bytes.swap(one * table.n + place, other * table.n + place);
    }
}

/// The table in order with one row more that one of its rows divides.
fn with_row(random: &mut Random, table: &Table) -> Table {
    let mut more = table.clone();
    let row: Vec<u8> = table.row(random.below(table.rows())).iter().map(|e| 50.min(e + random.byte(2))).collect();
    more.bytes.extend(row);
    in_order(&more)
}

/// A long table: thousands of random rows, or exactly 4,096, or all that there are; sometimes in order.
pub fn long(random: &mut Random, n: usize) -> Table {
    let count = if random.once_in(3) { MOST_ROWS } else { random.between(200, MOST_ROWS) };
    let largest = random.pick(&[3, 10, 25, 50]);
    let table = rows(random, n, count, largest);
    if random.once_in(4) {
        in_order(&table)
    } else {
        table
    }
}

/// A few rows whose completion often has 500 to 4,096 rows.
pub fn growing(random: &mut Random, n: usize) -> Table {
    let (largest, most) = [(50, 12), (50, 12), (45, 14), (16, 12), (9, 12), (6, 14)][n - 1];
    let count = random.between(4, most);
    rows(random, n, count, largest)
}

/// A table with one fault or several, and n perhaps not 1 to 6.
pub fn damage(random: &mut Random, mut table: Table) -> Table {
    for _ in 0..random.between(1, 2) {
        match random.below(4) {
            0 => table.n = random.pick(&[0, 0, 7, 8, 7, 8, 255, 258, usize::MAX, 1 << 32, (1 << 32) + 2]),
            1 => cut(random, &mut table),
            2 => stretch(random, &mut table),
            _ => spoil(random, &mut table),
        }
    }
    table
}

/// One byte less or more, so that the length is no multiple of n (unless n is 1).
fn cut(random: &mut Random, table: &mut Table) {
    if table.bytes.pop().is_none() || random.once_in(3) {
        table.bytes.extend([1, 1]);
    }
}

/// 4,097 rows or more, seldom far more; mostly with equal ones, which n = 1 and n = 2 must have.
fn stretch(random: &mut Random, table: &mut Table) {
    let rows = MOST_ROWS + if random.once_in(8) { random.between(1, 70_000) } else { 1 };
    let n = table.n.clamp(1, 8);
    if random.once_in(3) {
        table.bytes = counted(n, rows);
    } else {
        table.bytes.resize(n * rows, random.byte(1));
    }
}

/// An entry above 50.
fn spoil(random: &mut Random, table: &mut Table) {
    if table.bytes.is_empty() {
        table.bytes.resize(table.n.clamp(1, 8), 0);
    }
    let at = match random.below(3) {
        0 => 0,
        1 => table.bytes.len() - 1,
        _ => random.below(table.bytes.len()),
    };
    table.bytes[at] = random.pick(&[51, 51, 52, 128, 255]);
}
