//! Random bundles: sound ones, full ones, and ones with the faults that the refusals name.
//!
//! - `pack`: the bundle of some tables. `several`: a sound bundle of several short tables.
//! - `full`: one of exactly 65,535 bytes. `repeated`: one with equal rows in a table.
//! - `damage`: a bundle with a fault or two. `noise`: random bytes.
//! - `at_limits`: bundles at each limit and just past it. `paper`: the paper's own.
//! - `several_tables`, `full_tables`, `repeated_tables`, `spread`: the tables alone.

use crate::random::Random;
use crate::tables::{self, Table};
use second::bundle::{MOST_BYTES, MOST_TABLES};
use second::operations::MOST_ROWS;

/// The bundle of some tables with the same n.
pub fn pack(n: usize, bodies: &[Vec<u8>]) -> Vec<u8> {
    let mut bundle = vec![n as u8, bodies.len() as u8];
    let mut offset = 2 + 4 * bodies.len();
    for body in bodies {
        bundle.extend(((body.len() / n) as u16).to_le_bytes());
        bundle.extend((offset as u16).to_le_bytes());
        offset += body.len();
    }
    bundle.extend(bodies.concat());
    bundle
}

/// The paper's bundle: one table with the rows 2 1 and 0 2.
pub fn paper() -> Vec<u8> {
    vec![2, 1, 2, 0, 6, 0, 2, 1, 0, 2]
}

/// A sound bundle of short tables, complete ones and others.
pub fn several(random: &mut Random, least: usize, most: usize) -> Vec<u8> {
    let (n, bodies) = several_tables(random, least, most);
    pack(n, &bodies)
}

/// The n and the tables of such a bundle, one sometimes at a second place; drawn again where they are too long for one,
/// as complete tables seldom are.
pub fn several_tables(random: &mut Random, least: usize, most: usize) -> (usize, Vec<Vec<u8>>) {
    let n = random.between(1, 6);
    let count = random.between(least, most);
    let mut bodies: Vec<Vec<u8>> = (0..count).map(|_| any_table(random, n).bytes).collect();
    if random.once_in(4) {
        bodies[random.below(count)] = bodies[random.below(count)].clone();
    }
    if 2 + 4 * count + bodies.iter().map(Vec::len).sum::<usize>() > MOST_BYTES {
        return several_tables(random, least, most);
    }
    (n, bodies)
}

/// A bundle of several tables, one of which has equal rows.
pub fn repeated(random: &mut Random, least: usize, most: usize) -> Vec<u8> {
    let (n, bodies) = repeated_tables(random, least, most);
    pack(n, &bodies)
}

/// The n and the tables of such a bundle, seldom of one of 65,535 bytes. The first, the last or any has equal rows.
pub fn repeated_tables(random: &mut Random, least: usize, most: usize) -> (usize, Vec<Vec<u8>>) {
    let longest = random.once_in(60);
    let (n, mut bodies) = if longest { full_tables(random) } else { several_tables(random, least, most) };
    let (any, last) = (random.below(bodies.len()), bodies.len() - 1);
    let body = &mut bodies[random.pick(&[0, any, last])];
    *body = tables::repeated(random, Table { n, bytes: body.clone() }).bytes;
    (n, bodies)
}

/// A short table, or a complete one, or one whose completion does not fit.
fn any_table(random: &mut Random, n: usize) -> Table {
    match random.below(24) {
        0 if n > 3 => powers(n),
        1 => tables::growing(random, n),
        2..=5 => tables::complete(random, n),
        _ => tables::short(random, n),
    }
}

/// The fiftieth powers of the variables; from n = 4 on their completion does not fit.
pub fn powers(n: usize) -> Table {
    Table { n, bytes: (0..n * n).map(|at| if at % (n + 1) == 0 { 50 } else { 0 }).collect() }
}

/// Bundles at a limit and past it, sound in all else: of n, of the tables, of their rows, of the bytes, of an entry.
pub fn at_limits() -> Vec<Vec<u8>> {
    let none = [0, 1, 0, 0, 6, 0].to_vec();
    let variables = [1, 6, 7].map(|n| pack(n, &[vec![1; n], vec![2; n]]));
    let tables = [0, 1, MOST_TABLES, MOST_TABLES + 1].map(|count| pack(3, &vec![Vec::new(); count]));
    let rows = [MOST_ROWS, MOST_ROWS + 1].map(|rows| pack(3, &[vec![7; 3], tables::counted(3, rows)]));
    let bytes = [(3, MOST_BYTES), (5, MOST_BYTES + 1)].map(|(n, bytes)| pack(n, &spread_counted(n, bytes)));
    let entries = [50, 51].map(|entry| pack(2, &[vec![1, 2], vec![3, entry]]));
    let all = [variables.as_slice(), &tables, &rows, &bytes, &entries].concat();
    [vec![none], all].concat()
}

/// The bodies of 16 tables that make a bundle of so many bytes, or a few less where n does not divide them. Each has a
/// number of rows, from which it is made.
pub fn spread(n: usize, bytes: usize, body: impl FnMut(usize) -> Vec<u8>) -> Vec<Vec<u8>> {
    let rows = (bytes - 2 - 4 * MOST_TABLES) / n;
    let rows_of = |table: usize| rows / MOST_TABLES + usize::from(table < rows % MOST_TABLES);
    (0..MOST_TABLES).map(rows_of).map(body).collect()
}

/// The same with the first rows of all in order, as many as each table has.
pub fn spread_counted(n: usize, bytes: usize) -> Vec<Vec<u8>> {
    spread(n, bytes, |rows| tables::counted(n, rows))
}

/// A sound bundle of exactly 65,535 bytes.
pub fn full(random: &mut Random) -> Vec<u8> {
    let (n, bodies) = full_tables(random);
    pack(n, &bodies)
}

/// The n and the tables of such a bundle: 16 of them, in order or not, and n such that the bodies fill what the header
/// leaves.
pub fn full_tables(random: &mut Random) -> (usize, Vec<Vec<u8>>) {
    let n = 3;
    let largest = random.pick(&[12, 20, 50]);
    let ordered = random.once_in(3);
    let body = |rows: usize| {
        let table = tables::rows(random, n, rows, largest);
        if ordered {
            tables::in_order(&table).bytes
        } else {
            table.bytes
        }
    };
    (n, spread(n, MOST_BYTES, body))
}

/// Random bytes, with a plausible beginning half of the time.
pub fn noise(random: &mut Random) -> Vec<u8> {
    let length = if random.once_in(10) { random.between(0, 70_000) } else { random.between(0, 60) };
    let mut bytes: Vec<u8> = (0..length).map(|_| random.byte(255)).collect();
    if length > 1 && random.once_in(2) {
        bytes[0] = random.byte(7);
        bytes[1] = random.byte(3);
    }
    bytes
}

/// A bundle with one fault or two.
pub fn damage(random: &mut Random, mut bundle: Vec<u8>) -> Vec<u8> {
    for _ in 0..random.between(1, 2) {
        spoil(random, &mut bundle);
    }
    bundle
}

/// One fault. A bundle that was cut short takes what its bytes allow.
fn spoil(random: &mut Random, bundle: &mut Vec<u8>) {
    let kind = random.below(9);
    if bundle.len() < 6 {
        bundle.push(random.byte(255));
        return;
    }
    match kind {
        0 => bundle[0] = random.pick(&[0, 7, 8, 255]),
        1 => bundle[1] = random.pick(&[0, 17, 16, 255]),
        2 => bundle.truncate(random.below(bundle.len())),
        3 => bundle.truncate(random.below(6)),
        4 => (0..random.between(1, 3)).for_each(|_| bundle.push(1)),
        5 => change_rows(random, bundle),
        6 => change_offset(random, bundle),
        7 => spoil_entry(random, bundle),
        _ => lengthen(random, bundle),
    }
}

/// Where the header's four bytes of some table begin.
fn some_entry(random: &mut Random, bundle: &[u8]) -> usize {
    let described = usize::from(bundle[1]).clamp(1, (bundle.len() - 2) / 4);
    2 + 4 * random.below(described)
}

/// Another row count: one more, one less, or more than 4,096.
fn change_rows(random: &mut Random, bundle: &mut [u8]) {
    let at = some_entry(random, bundle);
    let rows = u16::from_le_bytes([bundle[at], bundle[at + 1]]);
    let other = random.pick(&[rows.wrapping_add(1), rows.wrapping_sub(1), 4096, 4097, 4097, 65_535]);
    bundle[at..at + 2].copy_from_slice(&other.to_le_bytes());
}

/// Another offset: one beside, 0, or far away.
fn change_offset(random: &mut Random, bundle: &mut [u8]) {
    let at = some_entry(random, bundle) + 2;
    let offset = u16::from_le_bytes([bundle[at], bundle[at + 1]]);
    let other = random.pick(&[offset.wrapping_add(1), offset.wrapping_sub(1), offset ^ 256, 0, 65_535]);
    bundle[at..at + 2].copy_from_slice(&other.to_le_bytes());
}

/// An entry above 50 in a body; the last byte, or one anywhere behind the header.
fn spoil_entry(random: &mut Random, bundle: &mut [u8]) {
    let last = bundle.len() - 1;
    let header = (2 + 4 * usize::from(bundle[1])).min(last);
    let at = if random.once_in(2) { last } else { random.between(header, last) };
    bundle[at] = random.pick(&[51, 52, 255]);
}

/// Padded to 65,535 or 65,536 bytes.
fn lengthen(random: &mut Random, bundle: &mut Vec<u8>) {
    let length = random.pick(&[MOST_BYTES, MOST_BYTES + 1, MOST_BYTES + 1]);
    bundle.resize(length, 0);
}
