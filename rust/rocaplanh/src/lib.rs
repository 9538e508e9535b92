//! Janet division of monomials: a safe wrapper over the archive of the proved library.
//!
//! A table is rows of n bytes end to end; `include/rocaplanh.h` in the repository says what each operation does. What C
//! must promise of its pointers, Rust's slices promise by themselves, so that nothing is left to the caller here.
//!
//! - `marks`, `inside`, `complete`, `find`, `count`, `polynomial`, `steady`, `open`, `write`: the operations.
//! - `completed`, `written`: `complete` and `write`, each into a vector of its own.
//! - `Refusal`: why there is no answer. `declarations`: the C functions themselves.

#![warn(missing_docs)]

use std::fmt;

pub mod declarations;

use declarations::*;

/// The most rows of a table.
pub const MOST_ROWS: usize = 4096;

/// The most bytes of a bundle.
pub const MOST_BUNDLE_BYTES: usize = 65_535;

/// The row number by which the C functions say that there is none.
pub const NO_ROW: u32 = 65_535;

/// Why there is no answer. A row that stands twice in a table is a typing error, 12, where rows may come in any order,
/// and rows out of order, 6, where they must ascend:
///
/// ```
/// let twice = [1, 0, 1, 0];
/// let number = |refusal: rocaplanh::Refusal| refusal.number();
/// assert_eq!(rocaplanh::marks(2, &twice, &mut [0; 2]).map_err(number), Err(12));
/// assert_eq!(rocaplanh::inside(2, &twice, &[1, 0]).map_err(number), Err(12));
/// assert_eq!(rocaplanh::completed(2, &twice).map_err(number), Err(12));
/// assert_eq!(rocaplanh::written(2, &[2], &twice).map_err(number), Err(12));
/// assert_eq!(rocaplanh::open(&[2, 1, 2, 0, 6, 0, 1, 0, 1, 0], 0).map_err(number), Err(12));
/// assert_eq!(rocaplanh::find(2, &twice, &[1, 0]).map_err(number), Err(6));
/// ```
#[derive(Clone, Copy, Debug, PartialEq, Eq)]
pub struct Refusal(u32);

impl Refusal {
    /// The paper's number, 1 to 12.
    pub fn number(self) -> u32 {
        self.0
    }
}

impl fmt::Display for Refusal {
    fn fmt(&self, out: &mut fmt::Formatter<'_>) -> fmt::Result {
        let reason = match self.0 {
            1 => "the number of variables is not 1 to 6",
            2 => "the table's length is no multiple of the number of variables, or not what the row counts demand",
            3 => "a table has more than 4,096 rows",
            4 => "an entry is above 50",
            5 => "the query's length, the degree or the table number is wrong",
            6 => "the rows do not ascend strictly",
            7 => "the table is not complete",
            8 => "the answer is longer than the lent buffer, than 4,096 rows, or than the 65,535 bytes of a bundle",
            9 => "the number of tables is not 1 to 16, or the bundle's size or header is wrong",
            10 => "an offset is not where that table must begin",
            11 => "a body passes the bundle's end, or bytes remain after the last",
            12 => "two rows of one table are equal",
            _ => "refused",
        };
        write!(out, "{reason} (refusal {})", self.0)
    }
}

impl std::error::Error for Refusal {}

/// The answer of a C function that returned this number.
fn answered<T>(returned: u32, answer: T) -> Result<T, Refusal> {
    if returned == 0 {
        Ok(answer)
    } else {
        Err(Refusal(returned))
    }
}

/// A row number, or none.
fn row_or_none(row: u32) -> Option<usize> {
    (row != NO_ROW).then_some(row as usize)
}

/// Writes the marks of each row to the front of `marks`; bytes behind stay. Rows may come in any order, each once.
pub fn marks(n: usize, table: &[u8], marks: &mut [u8]) -> Result<(), Refusal> {
    // Safety, here and below: a slice's pointer is valid for its length, and a mutable borrow overlaps nothing else.
    let returned = unsafe { rocaplanh_marks(n, table.as_ptr(), table.len(), marks.as_mut_ptr(), marks.len()) };
    answered(returned, ())
}

/// The first row that divides the query; rows may come in any order, each once.
pub fn inside(n: usize, table: &[u8], query: &[u8]) -> Result<Option<usize>, Refusal> {
    let mut row = 0;
    let returned = unsafe { rocaplanh_inside(n, table.as_ptr(), table.len(), query.as_ptr(), query.len(), &mut row) };
    answered(returned, row_or_none(row))
}

/// Writes the completed table to the front of `rows` and gives its number of rows; bytes behind stay. The given rows
/// may come in any order, each once.
pub fn complete(n: usize, table: &[u8], rows: &mut [u8]) -> Result<usize, Refusal> {
    let mut count = 0;
    let returned =
        unsafe { rocaplanh_complete(n, table.as_ptr(), table.len(), rows.as_mut_ptr(), rows.len(), &mut count) };
    answered(returned, count as usize)
}

/// The completed table in a vector of its own.
pub fn completed(n: usize, table: &[u8]) -> Result<Vec<u8>, Refusal> {
    let mut rows = vec![0; MOST_ROWS * n.min(6)];
    let count = complete(n, table, &mut rows)?;
    rows.truncate(count * n);
    Ok(rows)
}

/// What `find` gives.
#[derive(Clone, Copy, Debug, PartialEq, Eq)]
pub struct Found {
    /// The Janet divisor's row number, if there is one.
    pub row: Option<usize>,
    /// How many exponents the descent stepped on.
    pub steps: usize,
}

/// The Janet divisor of the query; the rows must ascend strictly.
pub fn find(n: usize, table: &[u8], query: &[u8]) -> Result<Found, Refusal> {
    let (mut row, mut steps) = (0, 0);
    let returned =
        unsafe { rocaplanh_find(n, table.as_ptr(), table.len(), query.as_ptr(), query.len(), &mut row, &mut steps) };
    answered(returned, Found { row: row_or_none(row), steps: steps as usize })
}

/// The number of monomials of degree at most `degree` that no row divides; the table must be complete.
pub fn count(n: usize, table: &[u8], degree: u32) -> Result<u64, Refusal> {
    let mut value = 0;
    let returned = unsafe { rocaplanh_count(n, table.as_ptr(), table.len(), degree, &mut value) };
    answered(returned, value)
}

/// The polynomial at `degree`; the table must be complete.
pub fn polynomial(n: usize, table: &[u8], degree: u32) -> Result<i64, Refusal> {
    let mut value = 0;
    let returned = unsafe { rocaplanh_polynomial(n, table.as_ptr(), table.len(), degree, &mut value) };
    answered(returned, value)
}

/// The steady degree; the table must be complete.
pub fn steady(n: usize, table: &[u8]) -> Result<u32, Refusal> {
    let mut degree = 0;
    let returned = unsafe { rocaplanh_steady(n, table.as_ptr(), table.len(), &mut degree) };
    answered(returned, degree)
}

/// An opened table: its n, its row count, and its body as that part of the bundle.
#[derive(Clone, Copy, Debug, PartialEq, Eq)]
pub struct Opened<'a> {
    /// The number of variables.
    pub n: usize,
    /// The number of rows.
    pub rows: usize,
    /// The rows end to end.
    pub body: &'a [u8],
}

/// Table `table` of a bundle, counted from 0.
pub fn open(bundle: &[u8], table: usize) -> Result<Opened<'_>, Refusal> {
    let (mut n, mut rows, mut offset) = (0, 0, 0);
    let returned = unsafe { rocaplanh_open(bundle.as_ptr(), bundle.len(), table, &mut n, &mut rows, &mut offset) };
    let (n, rows, offset) = (n as usize, rows as usize, offset as usize);
    answered(returned, ())?;
    Ok(Opened { n, rows, body: &bundle[offset..offset + n * rows] })
}

/// Writes the bundle of some tables to the front of `buffer` and gives its length; bytes behind stay. `counts` has the
/// number of rows of each table, and `tables` their rows end to end; a row may stand in several tables, but in each
/// only once. What is written opens as these tables:
///
/// ```
/// let mut buffer = [9; 12];
/// let length = rocaplanh::write(2, &[2], &[2, 1, 0, 2], &mut buffer)?;
/// assert_eq!(buffer, [2, 1, 2, 0, 6, 0, 2, 1, 0, 2, 9, 9]);
/// assert_eq!(rocaplanh::open(&buffer[..length], 0)?.body, [2, 1, 0, 2]);
/// # Ok::<(), rocaplanh::Refusal>(())
/// ```
pub fn write(n: usize, counts: &[u16], tables: &[u8], buffer: &mut [u8]) -> Result<usize, Refusal> {
    let mut length = 0;
    let returned = unsafe {
        rocaplanh_write(
            n,
            counts.as_ptr(),
            counts.len(),
            tables.as_ptr(),
            tables.len(),
            buffer.as_mut_ptr(),
            buffer.len(),
            &mut length,
        )
    };
    answered(returned, length as usize)
}

/// The bundle of some tables in a vector of its own. Tables that were opened make their bundle again:
///
/// ```
/// let bundle = [2, 1, 2, 0, 6, 0, 2, 1, 0, 2];
/// let table = rocaplanh::open(&bundle, 0)?;
/// assert_eq!(rocaplanh::written(table.n, &[table.rows as u16], table.body)?, bundle);
/// # Ok::<(), rocaplanh::Refusal>(())
/// ```
pub fn written(n: usize, counts: &[u16], tables: &[u8]) -> Result<Vec<u8>, Refusal> {
    let mut bundle = vec![0; MOST_BUNDLE_BYTES];
    let length = write(n, counts, tables, &mut bundle)?;
    bundle.truncate(length);
    Ok(bundle)
}
