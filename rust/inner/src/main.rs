//! Times of two inner functions without the checks of the operations that call them, beside plain Rust: the descent of
//! `find`, and the sum of `count`. Run by tools/inner.py. Results are compared before they are timed; each time is the
//! median of several rounds in which all programs take turns, in processor time.

mod declarations;

use baseline::counting::cone_sum;
use baseline::division::{ascending_marks, find_by_descent, find_by_scan, find_by_scan_of};
use declarations::{Checked, Marked};
use measure::print::time;
use measure::tables::{ascending, of_degree, Numbers};
use measure::turns::{hidden, keep, side_by_side, Job};

/// How many queries are asked of each table.
const QUERIES: usize = 10_000;
/// The degree of the counts.
const DEGREE: usize = 300;

fn main() {
    println!("| table | rows | a descent | a scan | times as quick | a scan for n = 4 alone | times as quick |");
    println!("|---|---|---|---|---|---|---|");
    descents("all of degree 27", &of_degree(4, 27));
    descents("the box 0 to 7", &boxed(&[8, 8, 8, 8]));
    descents("random", &ascending(4, 4096));
    descents("the last two variables only", &boxed(&[1, 1, 51, 51]));
    println!("\n| the count's sum alone | ours | plain Rust | ratio |");
    println!("|---|---|---|---|");
    for (n, degree) in [(4, 27), (6, 10), (4, 16)] {
        sum(n, &of_degree(n, degree));
    }
}

/// All rows whose entries are below these bounds, ascending.
fn boxed(bounds: &[u8]) -> Vec<u8> {
    let longer = |rows: Vec<Vec<u8>>, bound: &u8| -> Vec<Vec<u8>> {
        rows.iter().flat_map(|row| (0..*bound).map(move |e| [row.as_slice(), &[e]].concat())).collect()
    };
    bounds.iter().fold(vec![Vec::new()], longer).concat()
}

/// Queries whose entries go from 0 to a fifth above the table's largest.
fn queries(table: &[u8]) -> Vec<u8> {
    let largest = table.iter().copied().max().map_or(0, usize::from);
    Numbers(3).bytes(4 * QUERIES, largest * 6 / 5 + 1)
}

/// A descent beside two scans, on a table of four variables.
fn descents(name: &str, bytes: &[u8]) {
    let table = Checked::new(4, bytes);
    let mut marks = vec![0; table.rows()];
    ascending_marks(4, bytes, &mut marks);
    let queries = queries(bytes);
    for query in queries.chunks_exact(4) {
        let found = find_by_descent(4, bytes, query);
        assert_eq!(table.descend(query), found);
        assert_eq!(find_by_scan(4, bytes, &marks, query), found.0);
        assert_eq!(find_by_scan_of::<4>(bytes, &marks, query), found.0);
    }
    let each = |job: &dyn Fn(&[u8])| queries.chunks_exact(4).for_each(|query| job(hidden(query)));
    let mut jobs: Vec<Job> = vec![
        Box::new(|| each(&|query| keep(table.descend(query)))),
        Box::new(|| each(&|query| keep(find_by_scan(hidden(4), bytes, &marks, query)))),
        Box::new(|| each(&|query| keep(find_by_scan_of::<4>(bytes, &marks, query)))),
    ];
    let times: Vec<f64> = side_by_side(&mut jobs).iter().map(|seconds| seconds / QUERIES as f64).collect();
    let [ours, any, four] = [times[0], times[1], times[2]];
    let scans = [any, four].map(|scan| format!("{} | {:.1}", time(scan), scan / ours));
    println!("| {name} | {} | {} | {} |", table.rows(), time(ours), scans.join(" | "));
}

/// The count's sum without the checks, on a complete table.
fn sum(n: usize, bytes: &[u8]) {
    let table = Marked::new(Checked::new(n, bytes));
    for degree in 0..=DEGREE {
        assert_eq!(table.count_sum(degree), cone_sum(n, bytes, &table.marks, degree));
    }
    let mut jobs: Vec<Job> = vec![
        Box::new(|| keep(table.count_sum(hidden(DEGREE)))),
        Box::new(|| keep(cone_sum(n, hidden(bytes), &table.marks, hidden(DEGREE)))),
    ];
    let times = side_by_side(&mut jobs);
    let name = format!("{} rows, n = {n}", bytes.len() / n);
    println!("| {name} | {} | {} | {:.1} |", time(times[0]), time(times[1]), times[0] / times[1]);
}
