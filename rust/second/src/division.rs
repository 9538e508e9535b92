//! Rules 1 to 4 and 6: division, groups and marks, Janet divisors, completeness, the descent.
//!
//! - `Monomial`: six exponents, those past the last variable 0.
//! - `divides`, `is_inside`: rule 1.
//! - `marks_of`, `all_marks`: rule 2.
//! - `janet_divides`: rule 3. `is_complete`: rule 4.
//! - `strictly_ascends`, `has_equal_rows`: what the operations ask of rows.
//! - `find`: the Janet divisor by a scan, its steps by rule 6.

use std::collections::BTreeSet;

/// The most variables that a table may have.
pub const VARIABLES: usize = 6;

/// The exponents of a monomial, first variable first; those past the last variable are 0.
pub type Monomial = [u8; VARIABLES];

/// Rule 1: no exponent of `u` exceeds that of `q`.
pub fn divides(u: &Monomial, q: &Monomial) -> bool {
    u.iter().zip(q).all(|(a, b)| a <= b)
}

/// Rule 1: some row divides `q`.
pub fn is_inside(rows: &[Monomial], q: &Monomial) -> bool {
    rows.iter().any(|u| divides(u, q))
}

/// Sum of the exponents.
pub fn degree(u: &Monomial) -> usize {
    u.iter().map(|&e| usize::from(e)).sum()
}

/// Rule 2 for all variables at once. A row `v` shares `u`'s group at each variable up to the first where they differ,
/// so that one alone can lose its mark through `v`.
pub fn marks_of(n: usize, rows: &[Monomial], u: &Monomial) -> u8 {
    let mut marks = all_variables(n);
    for v in rows {
        if let Some(place) = first_difference(u, v) {
            if v[place] > u[place] {
                marks &= !(1 << place);
            }
        }
    }
    marks
}

/// The marks of each row, in the order of the rows.
pub fn all_marks(n: usize, rows: &[Monomial]) -> Vec<u8> {
    rows.iter().map(|u| marks_of(n, rows, u)).collect()
}

/// The byte in which each of n variables is marked.
fn all_variables(n: usize) -> u8 {
    (1 << n) - 1
}

/// The first place where two monomials differ.
fn first_difference(u: &Monomial, v: &Monomial) -> Option<usize> {
    (0..VARIABLES).find(|&place| u[place] != v[place])
}

/// Rule 3: `u` divides `q`, and `q` exceeds it only where `u` has a mark.
pub fn janet_divides(u: &Monomial, marks: u8, q: &Monomial) -> bool {
    divides(u, q) && (0..VARIABLES).all(|place| q[place] == u[place] || marks >> place & 1 == 1)
}

/// Rule 4: each row times each variable without mark has a Janet divisor among the rows.
pub fn is_complete(n: usize, rows: &[Monomial]) -> bool {
    let marks = all_marks(n, rows);
    let has_divisor = |q: &Monomial| rows.iter().zip(&marks).any(|(u, &m)| janet_divides(u, m, q));
    rows.iter()
        .zip(&marks)
        .all(|(u, &m)| (0..n).filter(|place| m >> place & 1 == 0).all(|place| has_divisor(&times(u, place))))
}

/// `u` times the variable at a place.
pub fn times(u: &Monomial, place: usize) -> Monomial {
    let mut product = *u;
    product[place] += 1;
    product
}

/// Each row comes before the next: at the first place where they differ it is the smaller.
pub fn strictly_ascends(rows: &[Monomial]) -> bool {
    rows.windows(2).all(|pair| pair[0] < pair[1])
}

/// Some row stands there twice: it is in the set of the rows before it.
pub fn has_equal_rows(rows: &[Monomial]) -> bool {
    let mut before = BTreeSet::new();
    !rows.iter().all(|row| before.insert(row))
}

/// What find gives: the Janet divisor's row number, if there is one, and the exponents stepped on.
#[derive(Clone, Copy, Debug, PartialEq, Eq)]
pub struct Found {
    /// The row number, from 0.
    pub row: Option<usize>,
    /// How many exponents the descent stepped on.
    pub steps: usize,
}

/// The Janet divisor of `q` by rule 3 on each row in turn, with the steps of rule 6. Both rules name a row; they must
/// agree.
pub fn find(n: usize, rows: &[Monomial], q: &Monomial) -> Found {
    let row = rows.iter().position(|u| divides(u, q) && janet_divides(u, marks_of(n, rows, u), q));
    let (ended, steps) = descend(n, rows, q);
    assert_eq!(row, ended, "the scan and the descent name different rows for {q:?} in {rows:?}");
    Found { row, steps }
}

/// Rule 6 word for word: the row left, if any, and the number of exponents stepped on.
fn descend(n: usize, rows: &[Monomial], q: &Monomial) -> (Option<usize>, usize) {
    let mut group: Vec<usize> = (0..rows.len()).collect();
    let mut steps = 0;
    for place in 0..n {
        let exponents: BTreeSet<u8> = group.iter().map(|&row| rows[row][place]).collect();
        let stepped: Vec<u8> = exponents.iter().copied().filter(|&e| e <= q[place]).collect();
        steps += stepped.len();
        let last = match stepped.last() {
            Some(&last) => last,
            None => return (None, steps),
        };
        if last != q[place] && Some(&last) != exponents.iter().next_back() {
            return (None, steps);
        }
        group.retain(|&row| rows[row][place] == last);
    }
    (group.first().copied(), steps)
}
