//! Demand 3 on small boxes: a monomial that some given row divides has exactly one Janet divisor among the completed
//! rows, one that no given row divides has none; and counts by enumeration. The archive's completed rows, its marks and
//! its finds are held to the second program, and then to rules 1 and 3 on all monomials of the box.

use crate::report::Report;
use inputs::random::Random;
use inputs::tables::{self, Table};

/// Tables in turn for n from 1 to 4.
pub fn all(random: &mut Random, tables: usize, report: &mut Report) {
    for round in 0..tables {
        let n = 1 + round % 4;
        one_table(&small(random, n), report);
    }
}

/// A short table with entries up to 4.
fn small(random: &mut Random, n: usize) -> Table {
    let mut table = tables::short(random, n);
    table.bytes.iter_mut().for_each(|entry| *entry %= 5);
    tables::once_each(&table)
}

/// All monomials of n exponents up to `largest`.
fn monomials(n: usize, largest: u8) -> Vec<Vec<u8>> {
    let mut all = vec![Vec::new()];
    for _ in 0..n {
        let longer = |start: &Vec<u8>| (0..=largest).map(|e| [start.as_slice(), &[e]].concat()).collect::<Vec<_>>();
        all = all.iter().flat_map(longer).collect();
    }
    all
}

/// Rule 1.
fn divides(u: &[u8], q: &[u8]) -> bool {
    u.iter().zip(q).all(|(a, b)| a <= b)
}

/// Rule 3, with given marks.
fn janet_divides(u: &[u8], marks: u8, q: &[u8]) -> bool {
    divides(u, q) && (0..u.len()).all(|place| u[place] == q[place] || marks >> place & 1 == 1)
}

/// Every monomial of a box that is two larger than the rows, and the counts up to the box's edge.
fn one_table(given: &Table, report: &mut Report) {
    let n = given.n;
    let largest = given.bytes.iter().copied().max().unwrap_or(0) + 2;
    let full = rocaplanh::completed(n, &given.bytes).expect("small tables fit");
    let mut marks = vec![0; full.len() / n];
    rocaplanh::marks(n, &full, &mut marks).expect("the buffer is long enough");
    report.same("completed", &full, &tables::completion(given).bytes, given);
    let mut expected = vec![0; marks.len()];
    second::operations::marks(n, &full, &mut expected).expect("the buffer is long enough");
    report.same("marks", &marks, &expected, given);
    let cells = monomials(n, largest);
    let mut outside_by_degree = vec![0u64; usize::from(largest) + 1];
    for q in &cells {
        let inside = given.bytes.chunks(n).any(|u| divides(u, q));
        one_monomial(n, &full, &marks, q, inside, report);
        let degree: usize = q.iter().map(|&e| usize::from(e)).sum();
        if !inside && degree < outside_by_degree.len() {
            outside_by_degree[degree] += 1;
        }
    }
    for s in 0..outside_by_degree.len() {
        let counted: u64 = outside_by_degree[..=s].iter().sum();
        report.same("count by enumeration", &rocaplanh::count(n, &full, s as u32), &Ok(counted), &(given, s));
    }
}

/// The number of Janet divisors is 1 inside and 0 outside, find names it, and the steps are within their bound.
fn one_monomial(n: usize, full: &[u8], marks: &[u8], q: &[u8], inside: bool, report: &mut Report) {
    let divisors = full.chunks(n).zip(marks).filter(|(u, &marks)| janet_divides(u, marks, q)).count();
    report.same("number of Janet divisors", &divisors, &usize::from(inside), &(full, q));
    let found = rocaplanh::find(n, full, q).expect("completed rows ascend");
    let expected = second::operations::find(n, full, q).expect("completed rows ascend");
    report.same("find", &(found.row, found.steps), &(expected.row, expected.steps), &(full, q));
    report.same("find inside", &found.row.is_some(), &inside, &(full, q));
    let degree: usize = q.iter().map(|&e| usize::from(e)).sum();
    report.holds("steps are at most degree plus n", found.steps <= degree + n, &(full, q));
}
