//! One count with all its checks: entries, order, completeness, then the sum over the cones.

use crate::division::{ascending_marks, find_by_descent};
use crate::packed::{ascends, entries_are_small};

/// The number of monomials of degree at most s outside the ideal; nothing for a table that is not complete and
/// ascending.
pub fn count(n: usize, table: &[u8], s: usize) -> Option<u64> {
    let mut marks = vec![0; table.len() / n];
    if !is_valid(n, table) {
        return None;
    }
    ascending_marks(n, table, &mut marks);
    is_complete(n, table, &marks).then(|| cone_sum(n, table, &marks, s))
}

/// The checks that find makes too: entries at most 50, and rows that ascend strictly.
pub fn is_valid(n: usize, table: &[u8]) -> bool {
    entries_are_small(table) && ascends(n, table)
}

/// Each row times each variable without mark has a Janet divisor.
fn is_complete(n: usize, table: &[u8], marks: &[u8]) -> bool {
    let mut product = [0u8; 8];
    table.chunks_exact(n).zip(marks).all(|(row, &mark)| {
        (0..n).filter(|place| mark >> place & 1 == 0).all(|place| {
            product[..n].copy_from_slice(row);
            product[place] += 1;
            find_by_descent(n, table, &product[..n]).0.is_some()
        })
    })
}

/// C(n + s, n) without the share of each cone that begins at degree s or below. Cones with the same degree and the same
/// number of marks have the same share, so they are counted first.
pub fn cone_sum(n: usize, table: &[u8], marks: &[u8], s: usize) -> u64 {
    let cones = match n {
        1 => cones_of::<1>(table, marks),
        2 => cones_of::<2>(table, marks),
        3 => cones_of::<3>(table, marks),
        4 => cones_of::<4>(table, marks),
        5 => cones_of::<5>(table, marks),
        _ => cones_of::<6>(table, marks),
    };
    let mut shares = 0;
    for (degree, by_marks) in cones.iter().enumerate().take(s + 1).filter(|(_, by_marks)| **by_marks != [0; 8]) {
        for (marked, &cones) in by_marks.iter().enumerate() {
            shares += u64::from(cones) * binomial(s - degree + marked, marked);
        }
    }
    binomial(n + s, n) - shares
}

/// How many cones there are for each degree and number of marks.
fn cones_of<const N: usize>(table: &[u8], marks: &[u8]) -> [[u16; 8]; 301] {
    let mut cones = [[0; 8]; 301];
    for (row, mark) in table.chunks_exact(N).zip(marks) {
        let degree: usize = row.iter().take(N).map(|&e| usize::from(e)).sum();
        cones[degree][mark.count_ones() as usize % 8] += 1;
    }
    cones
}

/// C(top, bottom) by its product; each partial product is itself a binomial.
fn binomial(top: usize, bottom: usize) -> u64 {
    (0..bottom as u64).fold(1, |value, k| value * (top as u64 - k) / (k + 1))
}
