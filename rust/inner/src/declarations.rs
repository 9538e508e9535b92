//! The functions of the archive that tools/inner.py makes, and safe forms of them for tables that are checked here.

use baseline::counting::is_valid;

/// The row number by which the archive says that there is none.
const NO_ROW: usize = 65_535;

extern "C" {
    fn inner_descend(
        n: usize,
        table: *const u8,
        table_length: usize,
        query: *const u8,
        query_length: usize,
        steps: *mut usize,
    ) -> usize;

    fn inner_count_sum(
        n: usize,
        table: *const u8,
        table_length: usize,
        marks: *const u8,
        marks_length: usize,
        degree: usize,
    ) -> u64;
}

/// A table that may be handed to the inner functions: n from 1 to 6, at most 4,096 rows, entries at most 50, ascending.
pub struct Checked<'a> {
    /// The number of variables.
    pub n: usize,
    /// The rows end to end.
    pub bytes: &'a [u8],
}

impl<'a> Checked<'a> {
    /// The table, once it is checked.
    pub fn new(n: usize, bytes: &'a [u8]) -> Self {
        assert!((1..=6).contains(&n) && bytes.len() % n == 0 && bytes.len() / n <= 4096 && is_valid(n, bytes));
        Checked { n, bytes }
    }

    /// The number of rows.
    pub fn rows(&self) -> usize {
        self.bytes.len() / self.n
    }

    /// The descent for a query: the Janet divisor's row, and the number of exponents stepped on.
    pub fn descend(&self, query: &[u8]) -> (Option<usize>, usize) {
        assert_eq!(query.len(), self.n);
        let mut steps = 0;
        // Safety: the table is checked, the query has n bytes, and each pointer is valid for the length beside it.
        let row = unsafe {
            inner_descend(self.n, self.bytes.as_ptr(), self.bytes.len(), query.as_ptr(), query.len(), &mut steps)
        };
        ((row != NO_ROW).then_some(row), steps)
    }
}

/// A complete table with its marks.
pub struct Marked<'a> {
    table: Checked<'a>,
    /// The marks of each row.
    pub marks: Vec<u8>,
}

impl<'a> Marked<'a> {
    /// The table with its marks, once it is found complete.
    pub fn new(table: Checked<'a>) -> Self {
        assert!(baseline::counting::count(table.n, table.bytes, 0).is_some(), "the table is complete");
        let mut marks = vec![0; table.rows()];
        baseline::division::ascending_marks(table.n, table.bytes, &mut marks);
        Marked { table, marks }
    }

    /// The count's sum at a degree of at most 300.
    pub fn count_sum(&self, degree: usize) -> u64 {
        assert!(degree <= 300);
        let Checked { n, bytes } = self.table;
        // Safety: the table is checked, complete and marked, the degree is small enough, and each pointer is valid for
        // the length beside it.
        unsafe { inner_count_sum(n, bytes.as_ptr(), bytes.len(), self.marks.as_ptr(), self.marks.len(), degree) }
    }
}
