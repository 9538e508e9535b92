//! The parts of the report on tables. Before a job is timed its results are compared, so that only right programs are
//! measured. Plain programs make the checks that the library makes, but where a line says other.

use measure::print::{head, line, time, Limit};
use measure::tables::{ascending, completed_near, none_divides, of_degree, powers, random, Numbers};
use measure::turns::{hidden, keep, side_by_side, Job};

/// What is checked of rows in any order: entries at most 50, and no two rows equal.
fn check(n: usize, table: &[u8]) {
    assert!(baseline::packed::entries_are_small(table) && baseline::packed::is_distinct(n, table));
}

/// Completion: the large tables, the same smaller, and small ones.
pub fn completion() -> bool {
    head("completion, entries and equal rows checked", &["packed", "slices", "second"]);
    let mut kept = true;
    for (n, degrees) in [(4, [16, 21, 27]), (6, [7, 8, 10]), (5, [9, 11, 14])] {
        for degree in degrees {
            kept &= one_completion(&format!("n={n}, all of degree {degree}"), n, &of_degree(n, degree));
        }
    }
    for exponent in [25, 35, 50] {
        kept &= one_completion(&format!("n=3, powers {exponent}"), 3, &powers(3, exponent));
    }
    for n in 3..=6 {
        for rows in [1024, 2048, 4096] {
            kept &= one_completion(&format!("n={n}, random rows"), n, &random(n, rows));
        }
    }
    kept &= one_completion("n=4, powers 50 (refused by 8)", 4, &powers(4, 50));
    kept &= one_completion("n=2, the listing", 2, &[2, 1, 0, 2]);
    kept &= one_completion("n=3, example F", 3, &[0, 0, 2, 0, 1, 1, 0, 2, 0, 1, 0, 1, 3, 1, 0]);
    kept & one_completion("n=4, small random", 4, &Numbers(1).bytes(40, 4))
}

fn one_completion(name: &str, n: usize, table: &[u8]) -> bool {
    let mut rows = [vec![0; 4096 * n], vec![0; 4096 * n], vec![0; 4096 * n], vec![0; 4096 * n]];
    let [ours, packed, slices, naive] = &mut rows;
    let counts = [
        rocaplanh::complete(n, table, ours).ok(),
        baseline::completion::complete(n, table, packed),
        baseline::slices::complete(n, table, slices),
        second::operations::complete(n, table, naive).ok(),
    ];
    assert!(counts.iter().all(|count| *count == counts[0]) && ours == naive && packed == naive && slices == naive);
    let mut jobs: Vec<Job> = vec![
        Box::new(|| keep(rocaplanh::complete(n, hidden(table), ours))),
        Box::new(|| {
            check(n, hidden(table));
            keep(baseline::completion::complete(n, hidden(table), packed));
        }),
        Box::new(|| {
            check(n, hidden(table));
            keep(baseline::slices::complete(n, hidden(table), slices));
        }),
        Box::new(|| keep(second::operations::complete(n, hidden(table), naive))),
    ];
    let times = side_by_side(&mut jobs);
    let sizes = counts[0].map_or("refused".into(), |count| count.to_string());
    line(&format!("{name}: {} to {sizes}", table.len() / n), &times, 1, Limit::Completion(6.0))
}

/// Find: 10,000 queries on tables of about 1,024, 2,048 and 4,096 rows.
pub fn find() -> bool {
    head("find, 10,000 queries", &["checked", "descent", "scan"]);
    for n in [3, 4, 6] {
        for (rows, largest) in [(1024, &[60][..]), (2048, &[60]), (4096, &[60, 255])] {
            one_find(&format!("n={n}, random"), n, &ascending(n, rows), largest);
        }
    }
    for n in [4, 6] {
        one_find(&format!("n={n}, completed"), n, &completed_near(n, 4096), &[60, 255]);
    }
    println!("ours checks the table at each call; so does 'checked', while 'descent' and 'scan' do not");
    true
}

fn one_find(name: &str, n: usize, table: &[u8], largest: &[usize]) {
    let mut marks = vec![0; table.len() / n];
    baseline::division::ascending_marks(n, table, &mut marks);
    for most in largest {
        let queries = Numbers(3).bytes(10_000 * n, most + 1);
        compare_finds(n, table, &marks, &queries);
        let each = |job: &dyn Fn(&[u8])| queries.chunks_exact(n).for_each(|query| job(hidden(query)));
        let ours = |query: &[u8]| keep(rocaplanh::find(n, table, query));
        let checked = |query: &[u8]| {
            assert!(baseline::counting::is_valid(n, hidden(table)));
            keep(baseline::division::find_by_descent(n, table, query));
        };
        let descent = |query: &[u8]| keep(baseline::division::find_by_descent(n, table, query));
        let scan = |query: &[u8]| keep(baseline::division::find_by_scan(n, table, &marks, query));
        let mut jobs: Vec<Job> = vec![
            Box::new(|| each(&ours)),
            Box::new(|| each(&checked)),
            Box::new(|| each(&descent)),
            Box::new(|| each(&scan)),
            Box::new(|| (0..10_000).for_each(|_| ours(&[0; 6][..n]))),
        ];
        let times = side_by_side(&mut jobs);
        line(&format!("{name}, {} rows, 0..{most}", table.len() / n), &times[..4], 2, Limit::None);
        println!("    {}", without_checks(times[0], times[4], times[3]));
    }
}

/// Our descent without its checks: what is left when the time of queries that end at once is taken away.
fn without_checks(ours: f64, checks: f64, scan: f64) -> String {
    let alone = ours - checks;
    if alone < ours / 50.0 {
        return format!(
            "of ours the checks take {}, the descent too little to tell; the scan takes {}",
            time(checks),
            time(scan)
        );
    }
    format!(
        "of ours the checks take {}, the descent {}; the scan takes {:.1} times that",
        time(checks),
        time(alone),
        scan / alone
    )
}

fn compare_finds(n: usize, table: &[u8], marks: &[u8], queries: &[u8]) {
    for query in queries.chunks_exact(n) {
        let ours = rocaplanh::find(n, table, query).expect("the rows ascend");
        assert_eq!((ours.row, ours.steps), baseline::division::find_by_descent(n, table, query));
        assert_eq!(ours.row, baseline::division::find_by_scan(n, table, marks, query));
    }
}

/// Marks of ascending and of unsorted rows.
pub fn marks() -> bool {
    head("marks", &["plain", "second"]);
    let mut kept = true;
    for degree in [16, 21, 27] {
        let table = of_degree(4, degree);
        kept &= one_marks(&format!("n=4, ascending, {} rows", table.len() / 4), 4, &table, Limit::Times(5.0));
    }
    for (n, rows) in [(3, 4096), (6, 4096)] {
        kept &= one_marks(&format!("n={n}, ascending random, {rows} rows"), n, &ascending(n, rows), Limit::Times(5.0));
    }
    for (n, rows) in [(4, 1024), (4, 2048), (4, 4096), (6, 4096)] {
        kept &= one_marks(&format!("n={n}, unsorted, {rows} rows"), n, &random(n, rows), Limit::Times(3.0));
    }
    kept
}

fn one_marks(name: &str, n: usize, table: &[u8], limit: Limit) -> bool {
    let mut buffers = [vec![0; table.len() / n], vec![0; table.len() / n], vec![0; table.len() / n]];
    let [ours, plain, naive] = &mut buffers;
    let mut jobs: Vec<Job> = vec![
        Box::new(|| rocaplanh::marks(n, hidden(table), ours).expect("a sound table")),
        Box::new(|| baseline::division::marks(n, hidden(table), plain).expect("a sound table")),
        Box::new(|| second::operations::marks(n, hidden(table), naive).expect("a sound table")),
    ];
    let times = side_by_side(&mut jobs);
    drop(jobs);
    assert!(buffers[0] == buffers[2] && buffers[1] == buffers[2]);
    line(name, &times, 1, limit)
}

/// The check for equal rows. The library shows it in `inside` with a query that is too long: that is refused by 5,
/// right behind the checks of the table.
pub fn equal() -> bool {
    head("entries and equal rows, nothing else", &["plain", "second"]);
    let mut kept = true;
    for n in [3, 4, 6] {
        kept &= one_check(&format!("n={n}, unsorted, 4096 rows"), n, &random(n, 4096), Limit::Times(1.0));
    }
    for n in [3, 4, 6] {
        kept &= one_check(&format!("n={n}, ascending, 4096 rows"), n, &ascending(n, 4096), Limit::None);
    }
    kept
}

fn one_check(name: &str, n: usize, table: &[u8], limit: Limit) -> bool {
    let query = vec![0; n + 1];
    assert_eq!(rocaplanh::inside(n, table, &query).map_err(|refusal| refusal.number()), Err(5));
    assert_eq!(second::operations::inside(n, table, &query), Err(5));
    let mut jobs: Vec<Job> = vec![
        Box::new(|| keep(rocaplanh::inside(n, hidden(table), &query))),
        Box::new(|| check(n, hidden(table))),
        Box::new(|| keep(second::operations::inside(n, hidden(table), &query))),
    ];
    let times = side_by_side(&mut jobs);
    line(name, &times, 1, limit)
}

/// Inside, where no row divides the query and each row is looked at to its last exponent. The rows are unsorted.
pub fn inside() -> bool {
    head("inside, none divides, checks included", &["packed", "rows", "second"]);
    for (n, rows) in [(4, 1024), (4, 2048), (4, 4096), (6, 4096)] {
        let (table, query) = none_divides(n, rows);
        assert_eq!(rocaplanh::inside(n, &table, &query), Ok(None));
        assert_eq!(baseline::packed::first_divisor(n, &table, &query), None);
        assert_eq!(baseline::division::first_divisor(n, &table, &query), None);
        let mut jobs: Vec<Job> = vec![
            Box::new(|| keep(rocaplanh::inside(n, hidden(&table), hidden(&query)))),
            Box::new(|| {
                check(n, hidden(&table));
                keep(baseline::packed::first_divisor(n, hidden(&table), hidden(&query)));
            }),
            Box::new(|| {
                check(n, hidden(&table));
                keep(baseline::division::first_divisor(n, hidden(&table), hidden(&query)));
            }),
            Box::new(|| keep(second::operations::inside(n, hidden(&table), hidden(&query)))),
        ];
        let times = side_by_side(&mut jobs);
        line(&format!("n={n}, {rows} rows"), &times, 1, Limit::None);
    }
    true
}

/// One count with all its checks.
pub fn count() -> bool {
    head("one count, checks included", &["plain", "second"]);
    let mut kept = true;
    for (n, degrees) in [(4, [16, 21, 27]), (6, [7, 8, 10])] {
        for degree in degrees {
            let table = of_degree(n, degree);
            let rows = table.len() / n;
            assert_eq!(rocaplanh::count(n, &table, 300).ok(), baseline::counting::count(n, &table, 300));
            let mut jobs: Vec<Job> = vec![
                Box::new(|| keep(rocaplanh::count(n, hidden(&table), 300))),
                Box::new(|| keep(baseline::counting::count(n, hidden(&table), 300))),
                Box::new(|| keep(second::operations::count(n, hidden(&table), 300))),
            ];
            let times = side_by_side(&mut jobs);
            kept &= line(&format!("n={n}, {rows} rows, s = 300"), &times, 1, Limit::Times(20.0));
        }
    }
    kept
}
