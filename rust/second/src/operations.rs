//! The operations on bytes. Each tries the paper's conditions in the paper's order and refuses by the first that holds;
//! a refusal leaves lent bytes as they were.

use crate::completion::completed;
use crate::counting;
use crate::division::{
    all_marks, divides, find as find_row, has_equal_rows, is_complete, strictly_ascends, Found, Monomial, VARIABLES,
};
use crate::Refusal;

/// The most rows of a table.
pub const MOST_ROWS: usize = 4096;
/// The largest entry of a table.
pub const LARGEST_ENTRY: u8 = 50;
/// The largest degree of a count.
pub const LARGEST_DEGREE: usize = 300;

/// The rows of a table, refused by 1 to 4.
pub fn checked_rows(n: usize, table: &[u8]) -> Result<Vec<Monomial>, Refusal> {
    if !(1..=VARIABLES).contains(&n) {
        return Err(1);
    }
    if table.len() % n != 0 {
        return Err(2);
    }
    if table.len() / n > MOST_ROWS {
        return Err(3);
    }
    if table.iter().any(|&entry| entry > LARGEST_ENTRY) {
        return Err(4);
    }
    Ok(rows_of(n, table))
}

/// The rows of a table for the operations that take them in any order: refused by 1 to 4, then by 12.
fn checked_distinct_rows(n: usize, table: &[u8]) -> Result<Vec<Monomial>, Refusal> {
    let rows = checked_rows(n, table)?;
    check_distinct(&rows)?;
    Ok(rows)
}

/// Refused by 12 when two rows are equal.
pub fn check_distinct(rows: &[Monomial]) -> Result<(), Refusal> {
    if has_equal_rows(rows) {
        Err(12)
    } else {
        Ok(())
    }
}

/// The rows of n exponents that stand end to end.
pub fn rows_of(n: usize, table: &[u8]) -> Vec<Monomial> {
    table.chunks(n).map(monomial).collect()
}

/// The monomial with these exponents, 0 behind them.
fn monomial(exponents: &[u8]) -> Monomial {
    let mut whole = [0; VARIABLES];
    whole[..exponents.len()].copy_from_slice(exponents);
    whole
}

/// The query, refused by 5 when its length is not n.
fn checked_query(n: usize, query: &[u8]) -> Result<Monomial, Refusal> {
    if query.len() == n {
        Ok(monomial(query))
    } else {
        Err(5)
    }
}

/// Refused by 6 unless the rows ascend strictly.
fn check_order(rows: &[Monomial]) -> Result<(), Refusal> {
    if strictly_ascends(rows) {
        Ok(())
    } else {
        Err(6)
    }
}

/// Refused by 6 unless the rows ascend, by 7 unless they are complete.
fn check_complete(n: usize, rows: &[Monomial]) -> Result<(), Refusal> {
    check_order(rows)?;
    if is_complete(n, rows) {
        Ok(())
    } else {
        Err(7)
    }
}

/// Refused by 5 when the degree is above 300.
fn check_degree(s: usize) -> Result<(), Refusal> {
    if s > LARGEST_DEGREE {
        Err(5)
    } else {
        Ok(())
    }
}

/// The marks of each row at the buffer's front. Refused by 1 to 4, 12 or 8.
pub fn marks(n: usize, table: &[u8], buffer: &mut [u8]) -> Result<(), Refusal> {
    let rows = checked_distinct_rows(n, table)?;
    if buffer.len() < rows.len() {
        return Err(8);
    }
    buffer[..rows.len()].copy_from_slice(&all_marks(n, &rows));
    Ok(())
}

/// The first given row that divides the query. Refused by 1 to 4, 12 or 5.
pub fn inside(n: usize, table: &[u8], query: &[u8]) -> Result<Option<usize>, Refusal> {
    let rows = checked_distinct_rows(n, table)?;
    let q = checked_query(n, query)?;
    Ok(rows.iter().position(|u| divides(u, &q)))
}

/// The completed rows at the buffer's front, and how many they are. Refused by 1 to 4, 12 or 8.
pub fn complete(n: usize, table: &[u8], buffer: &mut [u8]) -> Result<usize, Refusal> {
    let rows = checked_distinct_rows(n, table)?;
    let room = MOST_ROWS.min(buffer.len() / n);
    let full = completed(n, &rows, room).ok_or(8)?;
    for (place, row) in buffer.chunks_exact_mut(n).zip(&full) {
        place.copy_from_slice(&row[..n]);
    }
    Ok(full.len())
}

/// The Janet divisor of the query and the steps of the descent.
pub fn find(n: usize, table: &[u8], query: &[u8]) -> Result<Found, Refusal> {
    let rows = checked_rows(n, table)?;
    let q = checked_query(n, query)?;
    check_order(&rows)?;
    Ok(find_row(n, &rows, &q))
}

/// The number of monomials of degree at most s outside the ideal.
pub fn count(n: usize, table: &[u8], s: usize) -> Result<u64, Refusal> {
    let rows = checked_rows(n, table)?;
    check_degree(s)?;
    check_complete(n, &rows)?;
    Ok(counting::count(n, &rows, s))
}

/// The polynomial at s.
pub fn polynomial(n: usize, table: &[u8], s: usize) -> Result<i64, Refusal> {
    let rows = checked_rows(n, table)?;
    check_degree(s)?;
    check_complete(n, &rows)?;
    Ok(counting::polynomial(n, &rows, s))
}

/// The largest degree of a row.
pub fn steady(n: usize, table: &[u8]) -> Result<usize, Refusal> {
    let rows = checked_rows(n, table)?;
    check_complete(n, &rows)?;
    Ok(counting::steady(&rows))
}
