//! Random calls of every operation, each answered by the archive and by the second program.
//!
//! - `many`: calls on short tables, with long and damaged ones and such with equal rows among them.
//! - `fixed`: bundles and parts at the limits and past them, and all that has equal rows together with another fault.
//! - `large`: for n from 3 to 6, tables whose completion has more than 500 rows, under every operation.

use crate::call::{by_archive, by_second, Call};
use crate::report::Report;
use crate::tally::Tally;
use inputs::parts::{self, Parts};
use inputs::random::Random;
use inputs::tables::{self, Table};
use inputs::{bundles, equal};

/// Makes a call both ways, compares all that it leaves behind, and counts it.
fn compare(call: Call, report: &mut Report, tally: &mut Tally) {
    let expected = by_second(&call);
    report.same("call", &by_archive(&call), &expected, &call);
    tally.add(&call, &expected);
}

/// As many random calls as wanted.
pub fn many(random: &mut Random, calls: usize, report: &mut Report, tally: &mut Tally) {
    for _ in 0..calls {
        let call = any_call(random);
        compare(call, report, tally);
    }
}

/// A call of some operation, valid or damaged.
fn any_call(random: &mut Random) -> Call {
    match random.below(18) {
        0 | 1 => marks_call(random),
        2 | 3 => inside_call(random),
        4..=6 => complete_call(random),
        7..=9 => find_call(random),
        10 | 11 => count_call(random),
        12 => polynomial_call(random),
        13 => steady_call(random),
        14 | 15 => open_call(random),
        _ => write_call(random),
    }
}

/// A table of any kind for the operations that take rows in any order.
fn any_table(random: &mut Random) -> Table {
    let n = random.between(1, 6);
    let table = match random.below(300) {
        0 => tables::long(random, n),
        1..=30 => tables::complete(random, n),
        31..=60 => nearly_complete(random, n),
        61..=90 => tables::in_order(&tables::short(random, n)),
        _ => tables::short(random, n),
    };
    let table = if random.once_in(6) { tables::repeated(random, table) } else { table };
    perhaps_damaged(random, table, 5)
}

/// A table for the operations that want rows in order: mostly complete.
fn ordered_table(random: &mut Random) -> Table {
    let n = random.between(1, 6);
    let table = match random.below(20) {
        0 | 1 => tables::in_order(&tables::short(random, n)),
        2..=6 => nearly_complete(random, n),
        7 => tables::short(random, n),
        8 => {
            let complete = tables::complete(random, n);
            tables::repeated(random, complete)
        }
        _ => tables::complete(random, n),
    };
    perhaps_damaged(random, table, 12)
}

/// A complete table with a small change.
fn nearly_complete(random: &mut Random, n: usize) -> Table {
    let complete = tables::complete(random, n);
    tables::nearly(random, &complete)
}

/// The table, damaged once in `times`.
fn perhaps_damaged(random: &mut Random, table: Table, times: usize) -> Table {
    if random.once_in(times) {
        tables::damage(random, table)
    } else {
        table
    }
}

/// A buffer's length: exact, one short, longer, none, or any.
fn buffer(random: &mut Random, exact: usize) -> usize {
    match random.below(8) {
        0..=2 => exact,
        3 => exact.saturating_sub(1),
        4 => exact + 1,
        5 => exact + random.between(2, 300),
        6 => random.below(exact + 1),
        _ => random.pick(&[0, 4096, 24_576, 24_577]),
    }
}

/// A query: near a row, small, or anything; seldom of a wrong length.
fn query(random: &mut Random, table: &Table) -> Vec<u8> {
    let n = table.n.min(8);
    if random.once_in(12) {
        let length = random.below(9);
        return (0..length).map(|_| random.byte(9)).collect();
    }
    let most = random.pick(&[1, 3, 6, 60, 255]);
    if table.n > 6 || table.rows() == 0 || random.once_in(4) {
        return (0..n).map(|_| random.byte(most)).collect();
    }
    let row = table.row(random.below(table.rows())).to_vec();
    row.iter().map(|e| if random.once_in(2) { *e } else { near(random, *e, most) }).collect()
}

/// An exponent beside another: a little less, or more by up to `most`.
fn near(random: &mut Random, exponent: u8, most: u8) -> u8 {
    if random.once_in(3) {
        exponent.saturating_sub(1 + random.byte(1))
    } else {
        exponent.saturating_add(random.byte(most))
    }
}

/// A degree: mostly small, sometimes at or above the largest allowed.
fn degree(random: &mut Random) -> u32 {
    match random.below(10) {
        0 => random.pick(&[300, 301, 302, 65_536, u32::MAX]),
        1..=3 => random.below(301) as u32,
        _ => random.below(20) as u32,
    }
}

fn marks_call(random: &mut Random) -> Call {
    let table = any_table(random);
    let buffer = buffer(random, table.rows());
    Call::Marks { n: table.n, table: table.bytes, buffer }
}

fn inside_call(random: &mut Random) -> Call {
    let table = any_table(random);
    let query = query(random, &table);
    Call::Inside { n: table.n, table: table.bytes, query }
}

fn complete_call(random: &mut Random) -> Call {
    let table = any_table(random);
    let sound = second::operations::checked_rows(table.n, &table.bytes).is_ok();
    let exact = if sound { tables::completion(&table).bytes.len() } else { table.bytes.len() };
    let buffer = buffer(random, exact);
    Call::Complete { n: table.n, table: table.bytes, buffer }
}

fn find_call(random: &mut Random) -> Call {
    let table = ordered_table(random);
    let query = query(random, &table);
    Call::Find { n: table.n, table: table.bytes, query }
}

fn count_call(random: &mut Random) -> Call {
    let table = ordered_table(random);
    Call::Count { n: table.n, table: table.bytes, degree: degree(random) }
}

fn polynomial_call(random: &mut Random) -> Call {
    let table = ordered_table(random);
    Call::Polynomial { n: table.n, table: table.bytes, degree: degree(random) }
}

fn steady_call(random: &mut Random) -> Call {
    let table = ordered_table(random);
    Call::Steady { n: table.n, table: table.bytes }
}

fn open_call(random: &mut Random) -> Call {
    let bundle = match random.below(240) {
        0 => bundles::full(random),
        1..=24 => bundles::noise(random),
        25..=126 => {
            let sound = bundles::several(random, 1, 4);
            bundles::damage(random, sound)
        }
        127..=150 => {
            let equal = bundles::repeated(random, 1, 4);
            bundles::damage(random, equal)
        }
        151..=174 => bundles::repeated(random, 1, 16),
        _ => bundles::several(random, 1, 16),
    };
    let tables = bundle.get(1).map_or(0, |&count| usize::from(count));
    let table = match random.below(6) {
        0 => random.pick(&[tables, tables + 1, 16, 256, 65_536, usize::MAX]),
        _ => random.below(tables.max(1)),
    };
    Call::Open { bundle, table }
}

fn write_call(random: &mut Random) -> Call {
    let parts = any_parts(random);
    let exact = parts.length();
    let buffer = if random.once_in(16) { random.pick(&[65_535, 65_536, 70_000]) } else { buffer(random, exact) };
    write_of(&parts, buffer)
}

/// The parts of a sound bundle, ones with equal rows or other faults, or ones of a bundle at the limit of its bytes or
/// past it.
fn any_parts(random: &mut Random) -> Parts {
    match random.below(240) {
        0 => parts::longest(random),
        1 => parts::beyond(random),
        2 => {
            let long = parts::beyond(random);
            parts::damage(random, long)
        }
        3..=122 => {
            let sound = parts::several(random, 1, 4);
            parts::damage(random, sound)
        }
        123..=140 => {
            let equal = parts::repeated(random, 1, 4);
            parts::damage(random, equal)
        }
        141..=158 => parts::repeated(random, 1, 16),
        _ => parts::several(random, 1, 16),
    }
}

/// The call that writes these parts.
fn write_of(parts: &Parts, buffer: usize) -> Call {
    Call::Write { n: parts.n, counts: parts.counts.clone(), tables: parts.tables.clone(), buffer }
}

/// Opens tables of bundles at the limits and past them and of ones with equal rows, writes bundles from such parts into
/// buffers of all sizes, and makes every other call on tables with equal rows.
pub fn fixed(report: &mut Report, tally: &mut Tally) {
    equal::tables().iter().for_each(|table| with_equal_rows(table, report, tally));
    let apart = equal::apart();
    let shared = apart.iter().map(|(n, bodies)| bundles::pack(*n, bodies));
    for bundle in bundles::at_limits().into_iter().chain(equal::bundles()).chain(shared) {
        for table in [0, 1, 2, 15, 16, 17] {
            compare(Call::Open { bundle: bundle.clone(), table }, report, tally);
        }
    }
    let shared = apart.iter().map(|(n, bodies)| Parts::of(*n, bodies));
    for parts in parts::at_limits().into_iter().chain(equal::parts()).chain(shared) {
        let exact = parts.length();
        for buffer in [0, exact - 1, exact, exact + 1, exact + 70_000] {
            compare(write_of(&parts, buffer), report, tally);
        }
    }
}

/// A table under each operation, with buffers and queries of each length: right, too short, too long.
fn with_equal_rows(given: &Table, report: &mut Report, tally: &mut Tally) {
    let (n, rows, table) = (given.n, given.rows(), || given.bytes.clone());
    for buffer in [0, rows.saturating_sub(1), rows, rows + 1] {
        compare(Call::Marks { n, table: table(), buffer }, report, tally);
    }
    for length in [0, n.saturating_sub(1), n, n + 1] {
        compare(Call::Inside { n, table: table(), query: vec![1; length] }, report, tally);
        compare(Call::Find { n, table: table(), query: vec![1; length] }, report, tally);
    }
    for buffer in [0, n.saturating_sub(1), given.bytes.len(), 24_576] {
        compare(Call::Complete { n, table: table(), buffer }, report, tally);
    }
    for degree in [9, 301] {
        compare(Call::Count { n, table: table(), degree }, report, tally);
        compare(Call::Polynomial { n, table: table(), degree }, report, tally);
    }
    compare(Call::Steady { n, table: table() }, report, tally);
}

/// For each n from 3 to 6, tables until `wanted` of them have been completed to more than 500 rows.
pub fn large(random: &mut Random, wanted: usize, report: &mut Report, tally: &mut Tally) {
    for n in 3..=6 {
        let before = tally.large(n);
        for _ in 0..100 * wanted {
            if tally.large(n) >= before + wanted {
                break;
            }
            let given = tables::growing(random, n);
            every_operation(random, &given, report, tally);
        }
    }
}

/// A table's completion in an exact, a short and a long buffer, and then the other operations on it and near it.
fn every_operation(random: &mut Random, given: &Table, report: &mut Report, tally: &mut Tally) {
    let (n, full) = (given.n, tables::completion(given));
    let length = full.bytes.len();
    if length == 0 {
        return;
    }
    let long = length + random.between(1, 5000);
    compare(Call::Complete { n, table: given.bytes.clone(), buffer: long }, report, tally);
    if full.rows() <= 500 {
        return;
    }
    compare(Call::Complete { n, table: full.bytes.clone(), buffer: length }, report, tally);
    compare(Call::Complete { n, table: given.bytes.clone(), buffer: length - 1 }, report, tally);
    compare(Call::Marks { n, table: full.bytes.clone(), buffer: full.rows() }, report, tally);
    compare(Call::Steady { n, table: full.bytes.clone() }, report, tally);
    compare(Call::Count { n, table: full.bytes.clone(), degree: degree(random) }, report, tally);
    compare(Call::Polynomial { n, table: full.bytes.clone(), degree: degree(random) }, report, tally);
    compare(Call::Steady { n, table: tables::nearly(random, &full).bytes }, report, tally);
    for _ in 0..10 {
        let query = query(random, &full);
        compare(Call::Find { n, table: full.bytes.clone(), query: query.clone() }, report, tally);
        compare(Call::Inside { n, table: full.bytes.clone(), query }, report, tally);
    }
}
