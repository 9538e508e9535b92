//! The quick programs on tables against the second program: what the benchmarks measure with must itself be right.

use baseline::{completion, counting, division, packed, slices};
use inputs::equal;
use inputs::random::Random;
use inputs::tables::{self, Table};
use second::division::has_equal_rows;
use second::operations::{self, checked_rows, rows_of, MOST_ROWS};

/// A sound table with rows in any order: mostly short, some of thousands of rows.
fn sound(random: &mut Random, n: usize) -> Table {
    match random.below(40) {
        0 => tables::long(random, n),
        1 | 2 => tables::growing(random, n),
        3..=9 => tables::complete(random, n),
        _ => tables::short(random, n),
    }
}

/// A query: small, or with any exponents.
fn query(random: &mut Random, n: usize) -> Vec<u8> {
    let most = random.pick(&[1, 3, 12, 60, 255]);
    (0..n).map(|_| random.byte(most)).collect()
}

/// The table with an entry above 50 once in `times`.
fn perhaps_spoiled(random: &mut Random, mut table: Table, times: usize) -> Table {
    if !table.bytes.is_empty() && random.once_in(times) {
        let at = random.below(table.bytes.len());
        table.bytes[at] = random.pick(&[51, 52, 128, 255]);
    }
    table
}

#[test]
fn completions_agree() {
    let mut random = Random::new(1);
    for round in 0..6000 {
        let n = 1 + round % 6;
        let given = sound(&mut random, n).bytes;
        let room = if random.once_in(4) { random.below(30) } else { MOST_ROWS };
        let mut wanted = vec![9; room * n];
        let rows = operations::complete(n, &given, &mut wanted).ok();
        for program in [completion::complete, slices::complete] {
            let mut buffer = vec![9; room * n];
            assert_eq!(program(n, &given, &mut buffer), rows, "n = {n}, room {room}, {given:?}");
            assert_eq!(buffer, wanted, "n = {n}, room {room}, {given:?}");
        }
    }
}

#[test]
fn marks_of_ascending_rows_agree() {
    let mut random = Random::new(2);
    for round in 0..3000 {
        let table = tables::in_order(&sound(&mut random, 1 + round % 6));
        let (mut marks, mut wanted) = (vec![9; table.rows()], vec![9; table.rows()]);
        division::ascending_marks(table.n, &table.bytes, &mut marks);
        operations::marks(table.n, &table.bytes, &mut wanted).expect("a sound table");
        assert_eq!(marks, wanted, "{table:?}");
    }
}

/// A table in order or not, perhaps with equal rows or with an entry above 50.
fn perhaps_faulty(random: &mut Random, n: usize) -> Table {
    let table = sound(random, n);
    let table = match random.below(4) {
        0 => tables::in_order(&table),
        1 => tables::repeated(random, table),
        _ => table,
    };
    perhaps_spoiled(random, table, 12)
}

#[test]
fn marks_agree() {
    let mut random = Random::new(7);
    for round in 0..3000 {
        let table = perhaps_faulty(&mut random, 1 + round % 6);
        let (mut marks, mut wanted) = (vec![9; table.rows()], vec![9; table.rows()]);
        let answer = operations::marks(table.n, &table.bytes, &mut wanted).ok();
        assert_eq!(division::marks(table.n, &table.bytes, &mut marks), answer, "{table:?}");
        assert_eq!(marks, wanted, "{table:?}");
    }
}

#[test]
fn equal_rows_agree() {
    let mut random = Random::new(8);
    let others = (0..3000).map(|round| perhaps_faulty(&mut random, 1 + round % 6));
    for Table { n, bytes } in equal::tables().into_iter().chain(others).filter(|table| (1..=6).contains(&table.n)) {
        assert_eq!(packed::is_distinct(n, &bytes), !has_equal_rows(&rows_of(n, &bytes)), "n = {n}, {bytes:?}");
    }
}

#[test]
fn finds_agree() {
    let mut random = Random::new(3);
    for round in 0..3000 {
        let n = 1 + round % 6;
        let given = sound(&mut random, n);
        let table = tables::in_order(&given).bytes;
        let mut marks = vec![0; table.len() / n];
        division::ascending_marks(n, &table, &mut marks);
        for _ in 0..10 {
            let q = query(&mut random, n);
            let found = operations::find(n, &table, &q).expect("the rows ascend");
            assert_eq!(division::find_by_descent(n, &table, &q), (found.row, found.steps), "{table:?} {q:?}");
            assert_eq!(division::find_by_scan(n, &table, &marks, &q), found.row, "{table:?} {q:?}");
            if n == 4 {
                assert_eq!(division::find_by_scan_of::<4>(&table, &marks, &q), found.row, "{table:?} {q:?}");
            }
        }
    }
}

#[test]
fn insides_agree() {
    let mut random = Random::new(4);
    for round in 0..6000 {
        let n = 1 + round % 6;
        let table = sound(&mut random, n).bytes;
        for _ in 0..5 {
            let q = query(&mut random, n);
            let wanted = operations::inside(n, &table, &q).expect("a sound table");
            assert_eq!(packed::first_divisor(n, &table, &q), wanted, "{table:?} {q:?}");
            assert_eq!(division::first_divisor(n, &table, &q), wanted, "{table:?} {q:?}");
        }
    }
}

/// A table that is complete, nearly so, only in order, or in no order; and perhaps with an entry above 50.
fn perhaps_complete(random: &mut Random, n: usize) -> Table {
    let table = match random.below(8) {
        0 => tables::short(random, n),
        1 => tables::in_order(&tables::short(random, n)),
        2..=4 => {
            let complete = tables::complete(random, n);
            tables::nearly(random, &complete)
        }
        5 => tables::completion(&tables::growing(random, n)),
        _ => tables::complete(random, n),
    };
    perhaps_spoiled(random, table, 12)
}

#[test]
fn counts_agree() {
    let mut random = Random::new(5);
    for round in 0..3000 {
        let n = 1 + round % 6;
        let table = perhaps_complete(&mut random, n).bytes;
        let most = random.pick(&[20, 300]);
        let s = random.between(0, most);
        let wanted = operations::count(n, &table, s).ok();
        assert_eq!(counting::count(n, &table, s), wanted, "{table:?} at {s}");
        if wanted.is_some() {
            let mut marks = vec![0; table.len() / n];
            operations::marks(n, &table, &mut marks).expect("a sound table");
            assert_eq!(Some(counting::cone_sum(n, &table, &marks, s)), wanted, "{table:?} at {s}");
        }
    }
}

#[test]
fn validity_agrees() {
    let mut random = Random::new(6);
    for round in 0..6000 {
        let n = 1 + round % 6;
        let table = perhaps_complete(&mut random, n).bytes;
        let ascends = operations::find(n, &table, &vec![0; n]).is_ok();
        assert_eq!(counting::is_valid(n, &table), ascends, "{table:?}");
        assert_eq!(packed::entries_are_small(&table), checked_rows(n, &table).is_ok(), "{table:?}");
    }
}
