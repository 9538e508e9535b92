//! The tables that are measured: large regular ones, random ones, and their smaller relatives. None has equal rows.

use std::collections::BTreeSet;

/// A small generator of numbers; the same seed gives the same tables.
pub struct Numbers(pub u64);

impl Numbers {
    /// A number below a bound.
    pub fn below(&mut self, bound: usize) -> usize {
        self.0 = self.0.wrapping_mul(6_364_136_223_846_793_005).wrapping_add(1_442_695_040_888_963_407);
        (self.0 >> 33) as usize % bound
    }

    /// So many bytes below a bound.
    pub fn bytes(&mut self, count: usize, bound: usize) -> Vec<u8> {
        (0..count).map(|_| self.below(bound) as u8).collect()
    }
}

/// All monomials in n variables of one total degree, ascending. They are complete.
pub fn of_degree(n: usize, degree: usize) -> Vec<u8> {
    let mut rows = Vec::new();
    append_of_degree(n, degree, &mut Vec::new(), &mut rows);
    rows
}

fn append_of_degree(n: usize, degree: usize, start: &mut Vec<u8>, rows: &mut Vec<u8>) {
    if start.len() + 1 == n {
        rows.extend(start.iter());
        rows.push(degree as u8);
        return;
    }
    for exponent in 0..=degree {
        start.push(exponent as u8);
        append_of_degree(n, degree - exponent, start, rows);
        start.pop();
    }
}

/// The same power of each variable alone.
pub fn powers(n: usize, exponent: u8) -> Vec<u8> {
    (0..n * n).map(|at| if at % (n + 1) == 0 { exponent } else { 0 }).collect()
}

/// The order of random rows.
#[derive(Clone, Copy, Debug)]
pub enum Order {
    /// Each below the next.
    Ascending,
    /// As they were drawn.
    Unsorted,
}

/// So many rows as they are drawn, each once, and then in order where that is wanted.
fn each_once(rows: usize, order: Order, mut draw: impl FnMut() -> Vec<u8>) -> Vec<u8> {
    let mut seen = BTreeSet::new();
    let mut kept = Vec::new();
    while kept.len() < rows {
        let row = draw();
        if seen.insert(row.clone()) {
            kept.push(row);
        }
    }
    match order {
        Order::Ascending => seen.into_iter().flatten().collect(),
        Order::Unsorted => kept.concat(),
    }
}

/// Random rows with entries 0 to 50, in no order.
pub fn random(n: usize, rows: usize) -> Vec<u8> {
    let mut numbers = Numbers(n as u64);
    each_once(rows, Order::Unsorted, || numbers.bytes(n, 51))
}

/// Random rows and a query that none of them divides: each row has to be looked at to its last exponent.
pub fn none_divides(n: usize, rows: usize) -> (Vec<u8>, Vec<u8>) {
    let mut numbers = Numbers(n as u64);
    let table = each_once(rows, Order::Unsorted, || {
        let mut row = numbers.bytes(n, 51);
        row[n - 1] = row[n - 1].max(1);
        row
    });
    let mut query = vec![50; n];
    query[n - 1] = 0;
    (table, query)
}

/// Random rows in ascending order.
pub fn ascending(n: usize, rows: usize) -> Vec<u8> {
    let mut numbers = Numbers(100 + n as u64);
    each_once(rows, Order::Ascending, || numbers.bytes(n, 51))
}

/// A completed table of about so many rows: of random tables with n - 1 to 8 rows, the one whose completion comes
/// nearest.
pub fn completed_near(n: usize, rows: usize) -> Vec<u8> {
    let mut numbers = Numbers(200 + n as u64);
    let mut buffer = vec![0; 4096 * n];
    let mut best: Vec<u8> = Vec::new();
    for _ in 0..4000 {
        let count = n - 1 + numbers.below(8);
        let bound = 3 + numbers.below(40);
        let table = numbers.bytes(n * count, bound);
        let found = baseline::completion::complete(n, &table, &mut buffer).unwrap_or(0);
        if found.abs_diff(rows) < (best.len() / n).abs_diff(rows) {
            best = buffer[..found * n].to_vec();
        }
    }
    best
}

/// A bundle of 16 tables of random rows with exactly so many bytes, or a few less where n does not divide them.
pub fn bundle(n: usize, bytes: usize, bound: usize, order: Order) -> Vec<u8> {
    let tables = 16;
    let rows = (bytes - 2 - 4 * tables) / n;
    let mut numbers = Numbers(7);
    let mut bundle = vec![n as u8, tables as u8];
    let mut bodies = Vec::new();
    for table in 0..tables {
        let count = rows / tables + usize::from(table < rows % tables);
        bundle.extend((count as u16).to_le_bytes());
        bundle.extend(((2 + 4 * tables + bodies.len()) as u16).to_le_bytes());
        bodies.extend(each_once(count, order, || numbers.bytes(n, bound)));
    }
    bundle.extend(bodies);
    bundle
}
