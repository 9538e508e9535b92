//! The paper's examples A to M, its listing, and the refusals of the reader.

use second::bundle::{open, Opened};
use second::division::Found;
use second::listing::listing;
use second::operations::{complete, count, find, inside, marks, polynomial, steady};

/// A table from rows written as digits, as `["002", "011"]`.
fn digits(rows: &[&str]) -> Vec<u8> {
    rows.iter().flat_map(|row| row.bytes().map(|digit| digit - b'0')).collect()
}

/// The completed table, or the refusal.
fn completed(n: usize, table: &[u8]) -> Result<Vec<u8>, u8> {
    let mut buffer = vec![255; 4096 * n];
    let rows = complete(n, table, &mut buffer)?;
    assert!(buffer[rows * n..].iter().all(|&byte| byte == 255), "bytes behind the rows stay");
    buffer.truncate(rows * n);
    Ok(buffer)
}

/// The marks, or the refusal.
fn marked(n: usize, table: &[u8]) -> Result<Vec<u8>, u8> {
    let mut buffer = vec![255; table.len() / n];
    marks(n, table, &mut buffer)?;
    Ok(buffer)
}

const LISTED: [u8; 4] = [2, 1, 0, 2];
const LISTED_COMPLETED: [u8; 6] = [0, 2, 1, 2, 2, 1];
const F: [&str; 5] = ["002", "011", "020", "101", "310"];

#[test]
fn a_no_rows() {
    assert_eq!(completed(2, &[]), Ok(vec![]));
    assert_eq!(find(2, &[], &[7, 7]), Ok(Found { row: None, steps: 0 }));
    assert_eq!(count(2, &[], 1), Ok(3));
}

#[test]
fn b_row_of_zeros() {
    assert_eq!(completed(2, &[0, 0]), Ok(vec![0, 0]));
    assert_eq!(marked(2, &[0, 0]), Ok(vec![3]));
    assert!((0..=300).all(|s| count(2, &[0, 0], s) == Ok(0)));
}

#[test]
fn c_one_variable() {
    assert_eq!(count(1, &[3], 2), Ok(3));
    assert!((0..=300).all(|s| polynomial(1, &[3], s) == Ok(3)));
}

#[test]
fn d_the_listing() {
    assert_eq!(completed(2, &LISTED), Ok(LISTED_COMPLETED.to_vec()));
    assert_eq!(marked(2, &LISTED_COMPLETED), Ok(vec![2, 2, 3]));
    assert_eq!(count(2, &LISTED_COMPLETED, 3), Ok(6));
    assert_eq!(polynomial(2, &LISTED_COMPLETED, 0), Ok(3));
    assert_eq!(count(2, &LISTED_COMPLETED, 0), Ok(1));
    assert_eq!(steady(2, &LISTED_COMPLETED), Ok(3));
    let bundle = [2, 1, 2, 0, 6, 0, 2, 1, 0, 2];
    assert_eq!(listing(&bundle), "T 0 2 3\n0 2 : 2\n1 2 : 2\n2 1 : 3\nS 3\n");
    assert_eq!(open(&bundle, 0), Ok(Opened { n: 2, rows: 2, offset: 6 }));
    assert_eq!(open(&bundle, 1), Err(5));
}

/// What marks, inside and complete give, in buffers of this length and with this query: the refusal, 0 for an answer.
fn refusals(n: usize, table: &[u8], length: usize, query: &[u8]) -> [u8; 3] {
    let (mut marked, mut rows) = (vec![255; length], vec![255; length]);
    let given = [
        marks(n, table, &mut marked).err(),
        inside(n, table, query).err(),
        complete(n, table, &mut rows).map(|_| ()).err(),
    ];
    assert!(given[0].is_none() || marked.iter().all(|&byte| byte == 255), "a refusal leaves the buffer");
    assert!(given[2].is_none() || rows.iter().all(|&byte| byte == 255), "a refusal leaves the buffer");
    given.map(|refusal| refusal.unwrap_or(0))
}

#[test]
fn e_equal_rows() {
    let twice = [1, 0, 1, 0];
    assert_eq!(refusals(2, &twice, 9, &[1, 0]), [12; 3]);
    assert_eq!((find(2, &twice, &[1, 0]), steady(2, &twice)), (Err(6), Err(6)));
    assert_eq!((count(2, &twice, 0), polynomial(2, &twice, 0)), (Err(6), Err(6)));
    assert_eq!(refusals(2, &[1, 0, 2, 7, 0, 3, 1, 0], 9, &[1, 0]), [12; 3]);
    assert_eq!(refusals(2, &[1, 0, 0, 1], 9, &[1, 0]), [0; 3]);
}

/// Together with another fault: 1 to 4 come before 12, 5 and 8 behind it.
#[test]
fn equal_rows_and_another_fault() {
    assert_eq!(refusals(0, &[1, 0, 1, 0], 9, &[]), [1; 3]);
    assert_eq!(refusals(7, &[1; 14], 9, &[1; 7]), [1; 3]);
    assert_eq!(refusals(2, &[1, 0, 1, 0, 2], 9, &[1, 0]), [2; 3]);
    assert_eq!(refusals(1, &[1; 4097], 5000, &[1]), [3; 3]);
    assert_eq!(refusals(1, &[1; 4096], 5000, &[1]), [12; 3]);
    assert_eq!(refusals(2, &[51, 0, 1, 0, 1, 0], 9, &[1, 0]), [4; 3]);
    assert_eq!(refusals(2, &[1, 0, 1, 0, 0, 51], 9, &[1, 0]), [4; 3]);
    assert_eq!(refusals(2, &[51, 0, 51, 0], 9, &[1, 0]), [4; 3]);
    assert_eq!(refusals(2, &[1, 0, 1, 0], 0, &[1, 0, 0]), [12; 3]);
    assert_eq!(refusals(2, &[1, 0, 1, 0], 1, &[]), [12; 3]);
    assert_eq!(refusals(2, &[1, 0, 0, 1], 1, &[]), [8, 5, 8]);
}

#[test]
fn f_marks_of_document_002() {
    assert_eq!(marked(3, &digits(&F)), Ok(vec![4, 4, 6, 6, 7]));
    assert_eq!(steady(3, &digits(&F)), Err(7));
}

#[test]
fn g_descents() {
    assert_eq!(find(3, &digits(&F), &[1, 2, 5]), Ok(Found { row: Some(3), steps: 4 }));
    assert_eq!(find(3, &digits(&F), &[2, 0, 1]), Ok(Found { row: None, steps: 2 }));
}

#[test]
fn h_completion_of_f() {
    let full = ["002", "011", "020", "101", "111", "120", "201", "211", "220", "301", "310"];
    assert_eq!(completed(3, &digits(&F)), Ok(digits(&full)));
}

#[test]
fn i_document_004() {
    let full = ["011", "020", "110", "210", "300"];
    assert_eq!(completed(3, &digits(&["011", "110", "020", "300"])), Ok(digits(&full)));
}

#[test]
fn j_room() {
    let mut buffer = [9; 6];
    assert_eq!(complete(2, &LISTED, &mut buffer[..5]), Err(8));
    assert_eq!(buffer, [9; 6]);
    assert_eq!(complete(2, &LISTED, &mut buffer), Ok(3));
    assert_eq!(buffer, LISTED_COMPLETED);
}

#[test]
fn k_six_fifties() {
    assert_eq!(completed(6, &[50; 6]), Ok(vec![50; 6]));
    assert_eq!(marked(6, &[50; 6]), Ok(vec![63]));
}

#[test]
fn l_fiftieth_powers() {
    let powers = |n: usize| (0..n * n).map(|at| if at % (n + 1) == 0 { 50 } else { 0 }).collect::<Vec<u8>>();
    assert_eq!(completed(3, &powers(3)).map(|rows| rows.len() / 3), Ok(2551));
    assert_eq!(completed(4, &powers(4)), Err(8));
}

#[test]
fn m_bounds() {
    assert!(count(1, &[50], 300).is_ok() && polynomial(1, &[50], 300).is_ok());
    assert_eq!((count(1, &[50], 301), polynomial(1, &[50], 301)), (Err(5), Err(5)));
    assert_eq!(completed(1, &[50]), Ok(vec![50]));
    assert_eq!(completed(1, &[51]), Err(4));
}

#[test]
fn inside_takes_the_first_row() {
    assert_eq!(inside(2, &[2, 1, 0, 2, 0, 0], &[255, 255]), Ok(Some(0)));
    assert_eq!(inside(2, &LISTED, &[1, 1]), Ok(None));
    assert_eq!(inside(2, &LISTED, &[1]), Err(5));
}

#[test]
fn bundles_are_refused_in_order() {
    let faults: [(&[u8], &str); 9] = [
        (&[], "R 9\n"),
        (&[2, 0], "R 9\n"),
        (&[2, 17], "R 9\n"),
        (&[9, 1, 0, 0], "R 9\n"),
        (&[9, 1, 0, 0, 6, 0], "R 1\n"),
        (&[2, 1, 1, 16, 6, 0], "R 3\n"),
        (&[2, 1, 1, 0, 7, 0, 1, 1], "R 10\n"),
        (&[2, 1, 1, 0, 6, 0, 1], "R 11\n"),
        (&[2, 1, 1, 0, 6, 0, 51, 1], "R 4\n"),
    ];
    for (bundle, text) in faults {
        assert_eq!(listing(bundle), text, "{bundle:?}");
    }
    assert_eq!(listing(&[2, 1, 1, 0, 6, 0, 51, 1, 1]), "R 11\n");
    assert_eq!(listing(&[2, 1, 0, 0, 6, 0]), "T 0 0 0\nS 0\n");
    assert_eq!(listing(&vec![0; 65_536]), "R 9\n");
}

/// Equal rows in the first, the middle and the last of three tables, alone and with each other fault of a bundle: 5
/// alone comes behind 12.
#[test]
fn bundles_with_equal_rows() {
    let with = |at: usize, byte: u8, bundle: &[u8]| {
        let mut other = bundle.to_vec();
        other[at] = byte;
        other
    };
    for place in 0..3 {
        let (mut bundle, mut second_row) = (vec![1, 3, 2, 0, 14, 0, 2, 0, 16, 0, 2, 0, 18, 0], [8; 3]);
        second_row[place] = 7;
        bundle.extend(second_row.iter().flat_map(|&row| [7, row]));
        assert_eq!((open(&bundle, 0), open(&bundle, 2), open(&bundle, 3)), (Err(12), Err(12), Err(12)));
        assert_eq!(listing(&bundle), "R 12\n");
        for at in 14..20 {
            assert_eq!(listing(&with(at, 51, &bundle)), "R 4\n");
        }
        assert_eq!(listing(&[&bundle[..], &[1]].concat()), "R 11\n");
        assert_eq!(listing(&bundle[..19]), "R 11\n");
        for table in 0..3 {
            assert_eq!(listing(&with(4 + 4 * table, 99, &bundle)), "R 10\n");
            assert_eq!(listing(&with(3 + 4 * table, 17, &bundle)), "R 3\n");
        }
        assert_eq!((listing(&with(0, 7, &bundle)), listing(&with(1, 17, &bundle))), ("R 1\n".into(), "R 9\n".into()));
    }
    let apart = [1, 2, 2, 0, 10, 0, 2, 0, 12, 0, 7, 8, 8, 7];
    assert_eq!((open(&apart, 1).map(|table| table.offset), open(&apart, 2)), (Ok(12), Err(5)));
}
