//! Marks of ascending rows and of others, find by a scan of all rows, find by a descent through ranges of rows.

use crate::packed::{ascends, entries_are_small, pack_all};

/// The marks of ascending rows, from the last row to the first.
pub fn ascending_marks(n: usize, table: &[u8], marks: &mut [u8]) {
    let mut next: Option<(&[u8], u8)> = None;
    for (row, mark) in table.chunks_exact(n).zip(marks.iter_mut()).rev() {
        let own = next.map_or(all_marks(n), |(after, later)| {
            let differs = row.iter().zip(after).take_while(|(a, b)| a == b).count();
            marks_before(n, differs, later)
        });
        *mark = own;
        next = Some((row, own));
    }
}

/// A mark for each of n variables.
fn all_marks(n: usize) -> u8 {
    (1 << n) - 1
}

/// The marks of a row before another in order: none where they first differ, before that place the other row's, behind
/// it all.
fn marks_before(n: usize, differs: usize, later: u8) -> u8 {
    let before = (1u32 << differs) - 1;
    let behind = u32::from(all_marks(n)) & !((2u32 << differs) - 1);
    (u32::from(later) & before | behind) as u8
}

/// The bits of a key below the row's word: the row's number.
const ROW_BITS: u32 = 16;

/// The marks of rows in any order, with all checks; nothing for an entry above 50 or two equal rows. Rows that do not
/// ascend are sorted as words, each with the row's number below it.
pub fn marks(n: usize, table: &[u8], marks: &mut [u8]) -> Option<()> {
    if !entries_are_small(table) {
        return None;
    }
    if ascends(n, table) {
        ascending_marks(n, table, marks);
        return Some(());
    }
    let words = pack_all(n, table).into_iter();
    let mut keys: Vec<u64> = words.zip(0..).map(|(word, row)| word << ROW_BITS | row).collect();
    keys.sort_unstable();
    let distinct = keys.windows(2).all(|pair| (pair[0] ^ pair[1]) >> ROW_BITS != 0);
    distinct.then(|| marks_of_keys(n, &keys, marks))
}

/// The marks of sorted keys, each at the place of its row.
fn marks_of_keys(n: usize, keys: &[u64], marks: &mut [u8]) {
    let unused = 6 - n;
    let mut next: Option<(u64, u8)> = None;
    for &key in keys.iter().rev() {
        let own = next.map_or(all_marks(n), |(after, later)| {
            let differs = (key ^ after).leading_zeros() as usize / 8 - unused;
            marks_before(n, differs, later)
        });
        marks[(key & ((1 << ROW_BITS) - 1)) as usize] = own;
        next = Some((key, own));
    }
}

/// The first row that divides a query, by a look at each row in turn.
pub fn first_divisor(n: usize, table: &[u8], query: &[u8]) -> Option<usize> {
    table.chunks_exact(n).position(|row| row.iter().zip(query).all(|(u, q)| u <= q))
}

/// The Janet divisor of a query by a look at each row in turn, with the rows' marks at hand.
pub fn find_by_scan(n: usize, table: &[u8], marks: &[u8], query: &[u8]) -> Option<usize> {
    let is_divisor = |(row, &marks): (&[u8], &u8)| {
        row.iter().zip(query).enumerate().all(|(place, (u, q))| u == q || (u < q && marks >> place & 1 == 1))
    };
    table.chunks_exact(n).zip(marks).position(is_divisor)
}

/// The same for an n that is known when this is compiled, so that no loop over n is left.
pub fn find_by_scan_of<const N: usize>(table: &[u8], marks: &[u8], query: &[u8]) -> Option<usize> {
    let mut wanted = [0; N];
    wanted.copy_from_slice(query);
    let is_divisor = |(row, &marks): (&[u8], &u8)| {
        (0..N).all(|place| row[place] == wanted[place] || (row[place] < wanted[place] && marks >> place & 1 == 1))
    };
    table.chunks_exact(N).zip(marks).position(is_divisor)
}

/// The Janet divisor of a query and the number of exponents stepped on, by the descent. Rows ascend, so a group is a
/// range of rows; the rows with the same exponent are passed by doubling steps.
pub fn find_by_descent(n: usize, table: &[u8], query: &[u8]) -> (Option<usize>, usize) {
    let (mut from, mut to, mut steps) = (0, table.len() / n, 0);
    for (place, &wanted) in query.iter().enumerate() {
        let exponent = |row: usize| table[row * n + place];
        let mut at = from;
        let mut chosen = None;
        while at < to && exponent(at) <= wanted {
            let end = end_of_run(&exponent, at, to);
            chosen = Some((at, end));
            steps += 1;
            at = end;
        }
        let (start, end) = match chosen {
            Some(range) => range,
            None => return (None, steps),
        };
        if exponent(start) != wanted && end != to {
            return (None, steps);
        }
        (from, to) = (start, end);
    }
    ((from < to).then_some(from), steps)
}

/// The first row from `at` on, below `to`, with another exponent than `at`'s.
fn end_of_run(exponent: &impl Fn(usize) -> u8, at: usize, to: usize) -> usize {
    let own = exponent(at);
    let mut stride = 1;
    let mut low = at + 1;
    while low + stride <= to && exponent(low + stride - 1) == own {
        low += stride;
        stride *= 2;
    }
    let mut high = to.min(low + stride);
    while low < high {
        let middle = (low + high) / 2;
        if exponent(middle) == own {
            low = middle + 1
        } else {
            high = middle
        }
    }
    low
}
