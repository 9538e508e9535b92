//! The archive's functions as C declares them; include/rocaplanh.h says what each does.
//!
//! A slice is its pointer and then its length in items. Each returns 0 for an answer, else the refusal's number;
//! numbers behind pointers are always written, and are 0 after a refusal.
//!
//! # Safety
//! For each function: pointers are valid for their lengths, those to numbers are valid, and what is written through one
//! overlaps nothing else that is passed.

#![allow(clippy::missing_safety_doc)]

extern "C" {
    /// The marks of each row, to the front of `marks`.
    pub fn rocaplanh_marks(n: usize, table: *const u8, table_length: usize, marks: *mut u8, marks_length: usize)
        -> u32;

    /// The first row that divides the query, 65,535 for none.
    pub fn rocaplanh_inside(
        n: usize,
        table: *const u8,
        table_length: usize,
        query: *const u8,
        query_length: usize,
        row: *mut u32,
    ) -> u32;

    /// The completed table, to the front of `rows`, and its number of rows.
    pub fn rocaplanh_complete(
        n: usize,
        table: *const u8,
        table_length: usize,
        rows: *mut u8,
        rows_length: usize,
        count: *mut u32,
    ) -> u32;

    /// The Janet divisor's row, 65,535 for none, and the steps of the descent.
    pub fn rocaplanh_find(
        n: usize,
        table: *const u8,
        table_length: usize,
        query: *const u8,
        query_length: usize,
        row: *mut u32,
        steps: *mut u32,
    ) -> u32;

    /// The number of monomials of degree at most `degree` outside the ideal.
    pub fn rocaplanh_count(n: usize, table: *const u8, table_length: usize, degree: u32, value: *mut u64) -> u32;

    /// The polynomial at `degree`.
    pub fn rocaplanh_polynomial(n: usize, table: *const u8, table_length: usize, degree: u32, value: *mut i64) -> u32;

    /// The steady degree.
    pub fn rocaplanh_steady(n: usize, table: *const u8, table_length: usize, degree: *mut u32) -> u32;

    /// A table of a bundle: its n, its rows, and where its body begins.
    pub fn rocaplanh_open(
        bundle: *const u8,
        bundle_length: usize,
        table: usize,
        n: *mut u32,
        rows: *mut u32,
        offset: *mut u32,
    ) -> u32;

    /// The bundle of some tables, to the front of `buffer`, and its length. `counts` has a number for each table.
    pub fn rocaplanh_write(
        n: usize,
        counts: *const u16,
        counts_length: usize,
        tables: *const u8,
        tables_length: usize,
        buffer: *mut u8,
        buffer_length: usize,
        length: *mut u32,
    ) -> u32;
}
