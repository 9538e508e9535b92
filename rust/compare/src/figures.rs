//! The paper's examples A to M and the figures of document 002, through the wrapper.

use crate::report::Report;
use rocaplanh::{complete, completed, count, find, inside, marks, open, polynomial, steady, written, Found};

/// A table from rows written as digits.
fn digits(rows: &[&str]) -> Vec<u8> {
    rows.iter().flat_map(|row| row.bytes().map(|digit| digit - b'0')).collect()
}

/// The number of a refusal, 0 for an answer.
fn number<T>(result: Result<T, rocaplanh::Refusal>) -> u32 {
    result.map_or_else(|refusal| refusal.number(), |_| 0)
}

/// The marks of each row.
fn marked(n: usize, table: &[u8]) -> Vec<u8> {
    let mut buffer = vec![0; table.len() / n];
    marks(n, table, &mut buffer).expect("a sound table");
    buffer
}

const F: [&str; 5] = ["002", "011", "020", "101", "310"];
const LISTED: [u8; 4] = [2, 1, 0, 2];
const LISTED_COMPLETED: [u8; 6] = [0, 2, 1, 2, 2, 1];

/// All figures.
pub fn all(report: &mut Report) {
    a_to_e(report);
    f_to_j(report);
    k_to_m(report);
    document_002(report);
}

fn a_to_e(report: &mut Report) {
    report.same("A: completed", &completed(2, &[]), &Ok(vec![]), &"A");
    report.same("A: find", &find(2, &[], &[3, 4]), &Ok(Found { row: None, steps: 0 }), &"A");
    report.same("A: count", &count(2, &[], 1), &Ok(3), &"A");
    report.same("B: completed", &completed(2, &[0, 0]), &Ok(vec![0, 0]), &"B");
    report.same("B: marks", &marked(2, &[0, 0]), &vec![3], &"B");
    for s in 0..=300 {
        report.same("B: count", &count(2, &[0, 0], s), &Ok(0), &s);
        report.same("C: polynomial", &polynomial(1, &[3], s), &Ok(3), &s);
    }
    report.same("C: count", &count(1, &[3], 2), &Ok(3), &"C");
    report.same("D: completed", &completed(2, &LISTED), &Ok(LISTED_COMPLETED.to_vec()), &"D");
    report.same("D: marks", &marked(2, &LISTED_COMPLETED), &vec![2, 2, 3], &"D");
    report.same("D: count at 3", &count(2, &LISTED_COMPLETED, 3), &Ok(6), &"D");
    report.same("D: count at 0", &count(2, &LISTED_COMPLETED, 0), &Ok(1), &"D");
    report.same("D: polynomial at 0", &polynomial(2, &LISTED_COMPLETED, 0), &Ok(3), &"D");
    report.same("D: steady", &steady(2, &LISTED_COMPLETED), &Ok(3), &"D");
    let bundle = [2, 1, 2, 0, 6, 0, 2, 1, 0, 2];
    let opened = open(&bundle, 0).map(|table| (table.n, table.rows, table.body.to_vec()));
    report.same("D: open", &opened, &Ok((2, 2, LISTED.to_vec())), &"D");
    report.same("D: written", &written(2, &[2], &LISTED), &Ok(bundle.to_vec()), &"D");
    report.same("inside", &inside(2, &LISTED, &[1, 2]), &Ok(Some(1)), &"D");
    let twice = [1, 0, 1, 0];
    report.same("E: completed", &number(completed(2, &twice)), &12, &"E");
    report.same("E: marks", &number(marks(2, &twice, &mut [0; 2])), &12, &"E");
    report.same("E: inside", &number(inside(2, &twice, &[1, 0])), &12, &"E");
    report.same("E: open", &number(open(&[2, 1, 2, 0, 6, 0, 1, 0, 1, 0], 0)), &12, &"E");
    report.same("E: written", &number(written(2, &[2], &twice)), &12, &"E");
    report.same("E: find", &number(find(2, &twice, &[1, 0])), &6, &"E");
}

fn f_to_j(report: &mut Report) {
    let f = digits(&F);
    report.same("F: marks", &marked(3, &f), &vec![4, 4, 6, 6, 7], &"F");
    report.same("F: not complete", &number(steady(3, &f)), &7, &"F");
    report.same("G: 1 2 5", &find(3, &f, &[1, 2, 5]), &Ok(Found { row: Some(3), steps: 4 }), &"G");
    report.same("G: 2 0 1", &find(3, &f, &[2, 0, 1]), &Ok(Found { row: None, steps: 2 }), &"G");
    let h = ["002", "011", "020", "101", "111", "120", "201", "211", "220", "301", "310"];
    report.same("H: completed", &completed(3, &f), &Ok(digits(&h)), &"H");
    let i = ["011", "020", "110", "210", "300"];
    report.same("I: completed", &completed(3, &digits(&["011", "110", "020", "300"])), &Ok(digits(&i)), &"I");
    let mut room = [9; 6];
    report.same("J: 5 bytes", &number(complete(2, &LISTED, &mut room[..5])), &8, &"J");
    report.same("J: bytes stay", &room, &[9; 6], &"J");
    report.same("J: 6 bytes", &complete(2, &LISTED, &mut room), &Ok(3), &"J");
    report.same("J: rows", &room, &LISTED_COMPLETED, &"J");
}

fn k_to_m(report: &mut Report) {
    report.same("K: completed", &completed(6, &[50; 6]), &Ok(vec![50; 6]), &"K");
    report.same("K: marks", &marked(6, &[50; 6]), &vec![63], &"K");
    let powers = |n: usize| inputs::bundles::powers(n).bytes;
    report.same("L: n = 3", &completed(3, &powers(3)).map(|rows| rows.len() / 3), &Ok(2551), &"L");
    report.same("L: n = 4", &number(completed(4, &powers(4))), &8, &"L");
    report.same("M: degree 300", &count(1, &[50], 300), &Ok(50), &"M");
    report.same("M: degree 301", &number(count(1, &[50], 301)), &5, &"M");
    report.same("M: polynomial at 300", &polynomial(1, &[50], 300), &Ok(50), &"M");
    report.same("M: polynomial at 301", &number(polynomial(1, &[50], 301)), &5, &"M");
    report.same("M: entry 50", &completed(1, &[50]), &Ok(vec![50]), &"M");
    report.same("M: entry 51", &number(completed(1, &[51])), &4, &"M");
}

/// Document 002, Table 1: the Janet marks of x1²x3, x1x2, x1x3², in that order, and the completion given below it.
fn document_002(report: &mut Report) {
    let table = digits(&["201", "110", "102"]);
    report.same("002, Table 1: marks", &marked(3, &table), &vec![7, 6, 4], &"Table 1");
    let full = digits(&["102", "110", "201", "210"]);
    report.same("002, Table 1: Janet completion", &completed(3, &table), &Ok(full), &"Table 1");
}
