//! A call of an operation, and its answer from the archive and from the second program.
//!
//! - `Call`: an operation with all that it is given.
//! - `Answer`: the refusal's number, the numbers given out, and every byte of the lent buffer and around it.
//! - `by_archive`, `by_second`: the two answers that must be equal.

use rocaplanh::declarations as archive;
use rocaplanh::NO_ROW;
use second::{bundle, operations, writer};
use std::ptr;

/// Bytes before and behind each lent buffer, which no call may touch.
const GUARD: usize = 32;

/// What numbers hold before a call; a call writes each of them, on refusal too.
const UNWRITTEN: u32 = 0xaaaa_aaaa;

/// An operation and what it is given. A buffer is given by its length; `lend` makes its bytes.
#[derive(Clone, Debug)]
#[allow(missing_docs)]
pub enum Call {
    Marks { n: usize, table: Vec<u8>, buffer: usize },
    Inside { n: usize, table: Vec<u8>, query: Vec<u8> },
    Complete { n: usize, table: Vec<u8>, buffer: usize },
    Find { n: usize, table: Vec<u8>, query: Vec<u8> },
    Count { n: usize, table: Vec<u8>, degree: u32 },
    Polynomial { n: usize, table: Vec<u8>, degree: u32 },
    Steady { n: usize, table: Vec<u8> },
    Open { bundle: Vec<u8>, table: usize },
    Write { n: usize, counts: Vec<u16>, tables: Vec<u8>, buffer: usize },
}

/// The names of the operations, in the order of `Call::operation`.
pub const OPERATIONS: [&str; 9] =
    ["marks", "inside", "complete", "find", "count", "polynomial", "steady", "open", "write"];

impl Call {
    /// The place of this call's operation in `OPERATIONS`.
    pub fn operation(&self) -> usize {
        match self {
            Call::Marks { .. } => 0,
            Call::Inside { .. } => 1,
            Call::Complete { .. } => 2,
            Call::Find { .. } => 3,
            Call::Count { .. } => 4,
            Call::Polynomial { .. } => 5,
            Call::Steady { .. } => 6,
            Call::Open { .. } => 7,
            Call::Write { .. } => 8,
        }
    }
}

/// All that a call leaves behind.
#[derive(Clone, Debug, PartialEq, Eq)]
pub struct Answer {
    /// 0 for an answer, else the refusal's number.
    pub refusal: u32,
    /// The numbers given out, unused ones 0; the polynomial's by its bits.
    pub numbers: [u64; 3],
    /// The lent buffer with its guards, empty where none is lent.
    pub lent: Vec<u8>,
}

impl Answer {
    fn numbers(refusal: u32, numbers: [u64; 3]) -> Self {
        Answer { refusal, numbers, lent: Vec::new() }
    }

    /// An answer of the second program without buffer; after a refusal each number is 0.
    fn of(result: Result<[u64; 3], second::Refusal>) -> Self {
        match result {
            Ok(numbers) => Answer::numbers(0, numbers),
            Err(refusal) => Answer::numbers(u32::from(refusal), [0; 3]),
        }
    }

    /// The polynomial's value.
    pub fn signed(&self) -> i64 {
        self.numbers[0] as i64
    }
}

/// A buffer between its guards. No byte of it is an exponent or a mark, so that each write of one shows.
fn lend(length: usize) -> Vec<u8> {
    (0..length + 2 * GUARD).map(|at| 128 + (at * 37 % 128) as u8).collect()
}

/// The part that is lent.
fn part(lent: &mut [u8]) -> &mut [u8] {
    let end = lent.len() - GUARD;
    &mut lent[GUARD..end]
}

/// A slice's pointer as a C program may pass it: NULL when there is nothing to point to.
fn pointer<T>(slice: &[T]) -> *const T {
    if slice.is_empty() {
        ptr::null()
    } else {
        slice.as_ptr()
    }
}

/// The same for a slice that is written.
fn pointer_mut(bytes: &mut [u8]) -> *mut u8 {
    if bytes.is_empty() {
        ptr::null_mut()
    } else {
        bytes.as_mut_ptr()
    }
}

/// The archive's answer.
pub fn by_archive(call: &Call) -> Answer {
    match call {
        Call::Marks { n, table, buffer } => archive_marks(*n, table, *buffer),
        Call::Inside { n, table, query } => archive_inside(*n, table, query),
        Call::Complete { n, table, buffer } => archive_complete(*n, table, *buffer),
        Call::Find { n, table, query } => archive_find(*n, table, query),
        Call::Count { n, table, degree } => archive_count(*n, table, *degree),
        Call::Polynomial { n, table, degree } => archive_polynomial(*n, table, *degree),
        Call::Steady { n, table } => archive_steady(*n, table),
        Call::Open { bundle, table } => archive_open(bundle, *table),
        Call::Write { n, counts, tables, buffer } => archive_write(*n, counts, tables, *buffer),
    }
}

// Safety of the calls below: each pointer is valid for the length beside it, or NULL with length 0, and each that is
// written through is a local of its own.

fn archive_marks(n: usize, table: &[u8], buffer: usize) -> Answer {
    let mut lent = lend(buffer);
    let marks = part(&mut lent);
    let refusal = unsafe { archive::rocaplanh_marks(n, pointer(table), table.len(), pointer_mut(marks), marks.len()) };
    Answer { refusal, numbers: [0; 3], lent }
}

fn archive_inside(n: usize, table: &[u8], query: &[u8]) -> Answer {
    let mut row = UNWRITTEN;
    let refusal =
        unsafe { archive::rocaplanh_inside(n, pointer(table), table.len(), pointer(query), query.len(), &mut row) };
    Answer::numbers(refusal, [row.into(), 0, 0])
}

fn archive_complete(n: usize, table: &[u8], buffer: usize) -> Answer {
    let mut lent = lend(buffer);
    let mut count = UNWRITTEN;
    let rows = part(&mut lent);
    let refusal = unsafe {
        archive::rocaplanh_complete(n, pointer(table), table.len(), pointer_mut(rows), rows.len(), &mut count)
    };
    Answer { refusal, numbers: [count.into(), 0, 0], lent }
}

fn archive_find(n: usize, table: &[u8], query: &[u8]) -> Answer {
    let (mut row, mut steps) = (UNWRITTEN, UNWRITTEN);
    let refusal = unsafe {
        archive::rocaplanh_find(n, pointer(table), table.len(), pointer(query), query.len(), &mut row, &mut steps)
    };
    Answer::numbers(refusal, [row.into(), steps.into(), 0])
}

fn archive_count(n: usize, table: &[u8], degree: u32) -> Answer {
    let mut value = u64::from(UNWRITTEN);
    let refusal = unsafe { archive::rocaplanh_count(n, pointer(table), table.len(), degree, &mut value) };
    Answer::numbers(refusal, [value, 0, 0])
}

fn archive_polynomial(n: usize, table: &[u8], degree: u32) -> Answer {
    let mut value = i64::from(UNWRITTEN);
    let refusal = unsafe { archive::rocaplanh_polynomial(n, pointer(table), table.len(), degree, &mut value) };
    Answer::numbers(refusal, [value as u64, 0, 0])
}

fn archive_steady(n: usize, table: &[u8]) -> Answer {
    let mut degree = UNWRITTEN;
    let refusal = unsafe { archive::rocaplanh_steady(n, pointer(table), table.len(), &mut degree) };
    Answer::numbers(refusal, [degree.into(), 0, 0])
}

fn archive_open(bundle: &[u8], table: usize) -> Answer {
    let (mut n, mut rows, mut offset) = (UNWRITTEN, UNWRITTEN, UNWRITTEN);
    let refusal =
        unsafe { archive::rocaplanh_open(pointer(bundle), bundle.len(), table, &mut n, &mut rows, &mut offset) };
    Answer::numbers(refusal, [n.into(), rows.into(), offset.into()])
}

fn archive_write(n: usize, counts: &[u16], tables: &[u8], buffer: usize) -> Answer {
    let mut lent = lend(buffer);
    let mut length = UNWRITTEN;
    let bundle = part(&mut lent);
    let refusal = unsafe {
        archive::rocaplanh_write(
            n,
            pointer(counts),
            counts.len(),
            pointer(tables),
            tables.len(),
            pointer_mut(bundle),
            bundle.len(),
            &mut length,
        )
    };
    Answer { refusal, numbers: [length.into(), 0, 0], lent }
}

/// The second program's answer.
pub fn by_second(call: &Call) -> Answer {
    match call {
        Call::Marks { n, table, buffer } => second_lent(*buffer, |lent| operations::marks(*n, table, lent).map(|()| 0)),
        Call::Complete { n, table, buffer } => second_lent(*buffer, |lent| operations::complete(*n, table, lent)),
        Call::Inside { n, table, query } => {
            Answer::of(operations::inside(*n, table, query).map(|row| [row_number(row), 0, 0]))
        }
        Call::Find { n, table, query } => {
            Answer::of(operations::find(*n, table, query).map(|found| [row_number(found.row), found.steps as u64, 0]))
        }
        Call::Count { n, table, degree } => {
            Answer::of(operations::count(*n, table, *degree as usize).map(|value| [value, 0, 0]))
        }
        Call::Polynomial { n, table, degree } => {
            Answer::of(operations::polynomial(*n, table, *degree as usize).map(|value| [value as u64, 0, 0]))
        }
        Call::Steady { n, table } => Answer::of(operations::steady(*n, table).map(|degree| [degree as u64, 0, 0])),
        Call::Open { bundle, table } => Answer::of(
            bundle::open(bundle, *table).map(|opened| [opened.n, opened.rows, opened.offset].map(|part| part as u64)),
        ),
        Call::Write { n, counts, tables, buffer } => {
            second_lent(*buffer, |lent| writer::write(*n, counts, tables, lent))
        }
    }
}

/// The second program's answer where a buffer is lent.
fn second_lent(length: usize, operation: impl Fn(&mut [u8]) -> Result<usize, second::Refusal>) -> Answer {
    let mut lent = lend(length);
    let result = operation(part(&mut lent));
    Answer { lent, ..Answer::of(result.map(|number| [number as u64, 0, 0])) }
}

/// A row number as the archive gives it.
fn row_number(row: Option<usize>) -> u64 {
    row.map_or(u64::from(NO_ROW), |row| row as u64)
}
