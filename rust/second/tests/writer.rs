//! The writer: bundles written out by hand, the refusals in their order, the longest bundle, and the reader on what was
//! written.

use second::bundle::{tables, Opened};
use second::writer::write;

/// What a buffer holds before a call.
const BEFORE: u8 = 200;

/// The bundle, or the refusal. The buffer is longer by some bytes: those behind the bundle stay, after a refusal all.
fn written(n: usize, counts: &[u16], tables: &[u8]) -> Result<Vec<u8>, u8> {
    let mut buffer = vec![BEFORE; 70_000];
    let result = write(n, counts, tables, &mut buffer);
    let length = *result.as_ref().unwrap_or(&0);
    assert!(buffer[length..].iter().all(|&byte| byte == BEFORE), "bytes behind the bundle stay");
    buffer.truncate(length);
    result.map(|_| buffer)
}

/// So many rows, no two equal.
fn different(n: usize, rows: usize) -> Vec<u8> {
    (0..rows).flat_map(|row| (0..n as u32).map(move |place| (row / 51_usize.pow(place) % 51) as u8)).collect()
}

#[test]
fn the_papers_bundle() {
    assert_eq!(written(2, &[2], &[2, 1, 0, 2]), Ok(vec![2, 1, 2, 0, 6, 0, 2, 1, 0, 2]));
}

#[test]
fn two_tables() {
    let bundle = [3, 2, 1, 0, 10, 0, 2, 0, 13, 0, 1, 2, 3, 4, 5, 6, 7, 8, 9];
    assert_eq!(written(3, &[1, 2], &[1, 2, 3, 4, 5, 6, 7, 8, 9]), Ok(bundle.to_vec()));
}

#[test]
fn tables_without_rows() {
    assert_eq!(written(6, &[0], &[]), Ok(vec![6, 1, 0, 0, 6, 0]));
    let bundle = [1, 3, 1, 0, 14, 0, 0, 0, 15, 0, 1, 0, 15, 0, 7, 9];
    assert_eq!(written(1, &[1, 0, 1], &[7, 9]), Ok(bundle.to_vec()));
}

/// 300 is 1 times 256 and 44; the second table begins at 10 + 2 times 300, and 610 is 2 times 256 and 98.
#[test]
fn low_byte_first() {
    let rows = different(2, 301);
    let bundle = written(2, &[300, 1], &rows).expect("a sound bundle");
    assert_eq!(bundle[..10], [2, 2, 44, 1, 10, 0, 1, 0, 98, 2]);
    assert_eq!(bundle[10..], rows);
}

#[test]
fn the_buffer() {
    let mut buffer = [BEFORE; 12];
    assert_eq!(write(2, &[2], &[2, 1, 0, 2], &mut buffer[..9]), Err(8));
    assert_eq!(write(2, &[2], &[2, 1, 0, 2], &mut []), Err(8));
    assert_eq!(buffer, [BEFORE; 12]);
    assert_eq!(write(2, &[2], &[2, 1, 0, 2], &mut buffer[..10]), Ok(10));
    assert_eq!(buffer, [2, 1, 2, 0, 6, 0, 2, 1, 0, 2, BEFORE, BEFORE]);
}

/// Each refusal alone: at its limit there is none.
#[test]
fn each_refusal() {
    for n in [0, 7, 255, 258, usize::MAX] {
        assert_eq!(written(n, &[0], &[]), Err(1), "n = {n}");
    }
    assert_eq!(written(7, &[1], &[1; 7]), Err(1));
    assert_eq!(written(6, &[1], &[1; 6]).map(|bundle| bundle.len()), Ok(12));
    assert_eq!((written(3, &[], &[]), written(3, &[0; 17], &[])), (Err(9), Err(9)));
    assert_eq!((written(3, &[0; 256], &[]), written(3, &[0; 257], &[])), (Err(9), Err(9)));
    assert_eq!(written(3, &[0; 16], &[]).map(|bundle| bundle.len()), Ok(66));
    assert_eq!((written(2, &[2], &[1; 3]), written(2, &[2], &[1; 5])), (Err(2), Err(2)));
    assert_eq!((written(2, &[2], &[1; 2]), written(2, &[1, 1], &[1; 6])), (Err(2), Err(2)));
    assert_eq!(written(1, &[4097], &[1; 4097]), Err(3));
    let rows = [different(3, 2), different(3, 4096)].concat();
    assert_eq!(written(3, &[2, 4096], &rows).map(|bundle| bundle.len()), Ok(12_304));
    assert_eq!((written(1, &[1], &[51]), written(1, &[1, 1], &[50, 255])), (Err(4), Err(4)));
    assert_eq!(written(1, &[1], &[50]), Ok(vec![1, 1, 1, 0, 6, 0, 50]));
}

/// Refusal 12 is for two rows of one table: the first, a middle or the last, the rows side by side or not.
#[test]
fn equal_rows() {
    assert_eq!(written(2, &[2], &[1, 0, 1, 0]), Err(12));
    assert_eq!(written(2, &[3], &[1, 0, 0, 1, 1, 0]), Err(12));
    for equal in [[7, 7, 7, 8, 7, 8], [7, 8, 7, 7, 7, 8], [7, 8, 7, 8, 7, 7]] {
        assert_eq!(written(1, &[2, 2, 2], &equal), Err(12));
    }
    assert!(written(1, &[2, 2, 2], &[7, 8, 7, 8, 8, 7]).is_ok());
}

/// Where two conditions hold, the first of 1, 9, 2, 3, 4, 12, 8 is given.
#[test]
fn refusals_in_order() {
    assert_eq!(write(0, &[], &[], &mut []), Err(1));
    assert_eq!(write(7, &[1], &[1; 3], &mut [0; 20]), Err(1));
    assert_eq!(write(2, &[], &[1], &mut [0; 20]), Err(9));
    assert_eq!(write(2, &[0; 17], &[], &mut []), Err(9));
    assert_eq!(write(2, &[4097], &[1; 2], &mut [0; 20]), Err(2));
    assert_eq!(write(2, &[1], &[51], &mut [0; 20]), Err(2));
    assert_eq!(write(2, &[1], &[1], &mut []), Err(2));
    assert_eq!(write(1, &[4097], &[51; 4097], &mut [0; 5000]), Err(3));
    assert_eq!(write(1, &[4097], &[1; 4097], &mut []), Err(3));
    assert_eq!(write(1, &[1], &[51], &mut []), Err(4));
    assert_eq!(write(1, &[1], &[1], &mut []), Err(8));
}

/// The same for two conditions of which one is 12: only 8 comes behind it.
#[test]
fn equal_rows_and_another_fault() {
    assert_eq!(written(7, &[2], &[1; 14]), Err(1));
    assert_eq!(written(1, &[1; 17], &[1; 17]), Err(9));
    assert_eq!((written(1, &[2], &[1; 3]), written(1, &[3], &[1; 2])), (Err(2), Err(2)));
    assert_eq!((written(1, &[2, 4097], &[1; 4099]), written(1, &[4097, 1], &[1; 4098])), (Err(3), Err(3)));
    assert_eq!((written(1, &[2, 1], &[1, 1, 51]), written(1, &[1, 2], &[51, 1, 1])), (Err(4), Err(4)));
    assert_eq!((written(1, &[3], &[51, 1, 1]), written(1, &[2], &[51, 51])), (Err(4), Err(4)));
    assert_eq!(write(1, &[2], &[1, 1], &mut [0; 7]), Err(12));
    assert_eq!(write(1, &[2], &[1, 1], &mut []), Err(12));
    assert_eq!(written(1, &[4096; 16], &[7; 65_536]), Err(12));
}

/// Sixteen tables have a header of 66 bytes. With 15 tables of 1,364 rows, 5 times 256 and 84, and n = 3 the second
/// begins at 66 + 4,092, which is 16 times 256 and 62, and the last at 66 + 61,380, which is 240 times 256 and 6; its
/// 1,363 rows end at 65,535. With n = 2 the same number of tables can end at 65,536.
#[test]
fn the_longest_bundle() {
    let mut counts = [1364; 16];
    counts[15] = 1363;
    let rows = different(3, 21_824);
    let bundle = written(3, &counts, &rows[..65_469]).expect("it is not too long");
    assert_eq!(bundle.len(), 65_535);
    assert_eq!(bundle[..10], [3, 16, 84, 5, 66, 0, 84, 5, 62, 16]);
    assert_eq!(bundle[62..66], [83, 5, 6, 240]);
    assert_eq!(bundle[66..], rows[..65_469]);
    assert_eq!(written(3, &[1364; 16], &rows), Err(8));
    counts = [2046; 16];
    counts[15] = 2045;
    let rows = different(2, 2046).repeat(16);
    assert_eq!(written(2, &counts, &rows[..65_470]), Err(8));
    assert_eq!(written(1, &[4096; 16], &[]), Err(2));
}

/// What was written opens as the tables that were given.
#[test]
fn the_reader_gives_the_tables() {
    let given = [1, 1, 1, 2, 2, 2, 3, 3, 3, 0, 50, 0, 4, 4, 4];
    let bundle = written(3, &[2, 0, 3], &given).expect("a sound bundle");
    let opened = tables(&bundle).expect("a sound bundle");
    let place = |rows, offset| Opened { n: 3, rows, offset };
    assert_eq!(opened, [place(2, 14), place(0, 20), place(3, 20)]);
    let bodies: Vec<&[u8]> = opened.iter().map(|table| table.body(&bundle)).collect();
    assert_eq!(bodies, [&given[..6], &[], &given[6..]]);
    for n in 1..=6 {
        let rows: Vec<usize> = (0..16).map(|table| (table * 41 + n) % 47).collect();
        let counts: Vec<u16> = rows.iter().map(|&count| count as u16).collect();
        let given: Vec<u8> = rows.iter().flat_map(|&count| different(n, count)).collect();
        let bundle = written(n, &counts, &given).expect("a sound bundle");
        let opened = tables(&bundle).expect("a sound bundle");
        assert_eq!(opened.iter().map(|table| table.rows).collect::<Vec<usize>>(), rows);
        assert_eq!(opened.iter().map(|table| table.body(&bundle)).collect::<Vec<&[u8]>>().concat(), given);
    }
}
