//! Rules 7 to 9: counts by slicing the rows, the polynomial by differences of counts, the steady degree.
//!
//! - `outside_by_degree`: how many monomials of each degree lie outside the ideal.
//! - `count`: rule 7, those of degree at most s.
//! - `polynomial`: rule 8, continued from n + 1 counts at and above the steady degree, where both agree.
//! - `steady`: rule 9.

use crate::completion::minimal;
use crate::division::{degree, Monomial};

/// Rule 7: the number of monomials of degree at most `s` outside the ideal of the rows.
pub fn count(n: usize, rows: &[Monomial], s: usize) -> u64 {
    outside_by_degree(n, rows, s).iter().sum()
}

/// Rule 9: the largest total degree of a row, 0 for no rows.
pub fn steady(rows: &[Monomial]) -> usize {
    rows.iter().map(degree).max().unwrap_or(0)
}

/// Rule 8: from the steady degree on the polynomial is the count, and its degree is at most n; so n + 1 counts settle
/// it.
pub fn polynomial(n: usize, rows: &[Monomial], s: usize) -> i64 {
    let start = steady(rows);
    let counts = running_sums(&outside_by_degree(n, rows, start + n));
    let mut differences = differences(&counts[start..=start + n]);
    for _ in start..s {
        step_up(&mut differences);
    }
    for _ in s..start {
        step_down(&mut differences);
    }
    differences[0]
}

/// The number of monomials of each degree from 0 to `top` that lie outside the ideal of the rows.
pub fn outside_by_degree(n: usize, rows: &[Monomial], top: usize) -> Vec<u64> {
    outside_from(0, n, &minimal(rows), top)
}

/// The same for monomials in the variables from a place on; the rows are 0 before it.
fn outside_from(place: usize, n: usize, rows: &[Monomial], top: usize) -> Vec<u64> {
    let mut total = vec![0; top + 1];
    if place == n {
        total[0] = u64::from(rows.is_empty());
        return total;
    }
    let largest = rows.iter().map(|u| usize::from(u[place])).max().unwrap_or(0);
    let mut slice = outside_from(place + 1, n, &reached(place, rows, 0), top);
    for exponent in 0..largest {
        add_shifted(&mut total, &slice, exponent);
        if rows.iter().any(|u| usize::from(u[place]) == exponent + 1) {
            slice = outside_from(place + 1, n, &reached(place, rows, exponent + 1), top);
        }
    }
    // From the largest exponent on, each slice is the same: the slices at largest, largest + 1, .. are one sum.
    add_shifted(&mut total, &running_sums(&slice), largest);
    total
}

/// What must still divide once the exponent at a place is chosen.
fn reached(place: usize, rows: &[Monomial], exponent: usize) -> Vec<Monomial> {
    let mut slice: Vec<Monomial> = rows.iter().filter(|u| usize::from(u[place]) <= exponent).copied().collect();
    for row in &mut slice {
        row[place] = 0;
    }
    minimal(&slice)
}

/// Adds the numbers of a slice, each at a degree that is higher by the exponent.
fn add_shifted(total: &mut [u64], slice: &[u64], exponent: usize) {
    for (sum, part) in total.iter_mut().skip(exponent).zip(slice) {
        *sum += part;
    }
}

/// At each place the sum of all up to it.
fn running_sums(parts: &[u64]) -> Vec<u64> {
    parts
        .iter()
        .scan(0, |sum, part| {
            *sum += part;
            Some(*sum)
        })
        .collect()
}

/// The first value, the first difference, the second, and so on, at the first value's place.
fn differences(values: &[u64]) -> Vec<i64> {
    let mut row: Vec<i64> = values.iter().map(|&value| i64::try_from(value).expect("a count is below 2^63")).collect();
    let mut first = Vec::new();
    while let Some(&value) = row.first() {
        first.push(value);
        row = row.windows(2).map(|pair| pair[1] - pair[0]).collect();
    }
    first
}

/// The differences one place up; the last one never changes.
fn step_up(differences: &mut [i64]) {
    for order in 1..differences.len() {
        differences[order - 1] += differences[order];
    }
}

/// The differences one place down.
fn step_down(differences: &mut [i64]) {
    for order in (1..differences.len()).rev() {
        differences[order - 1] -= differences[order];
    }
}
