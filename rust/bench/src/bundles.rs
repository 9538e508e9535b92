//! The parts of the report on bundles. Before a job is timed its results are compared, so that only right programs are
//! measured.

use measure::print::{head, line, Limit};
use measure::tables::{bundle, Order};
use measure::turns::{hidden, keep, side_by_side, side_by_side_on_the_wall, Job};
use std::io::Write;
use std::path::Path;
use std::process::{Command, Stdio};

/// Lengths of bundles.
const BYTES: [usize; 3] = [16_384, 32_768, 65_535];

/// Bundles of 16 tables with n = 3 and what is said of each: their rows ascend, or they are in no order.
fn bundles() -> Vec<(String, Vec<u8>)> {
    let mut all = Vec::new();
    for (order, words) in [(Order::Ascending, "ascending"), (Order::Unsorted, "unsorted")] {
        for bytes in BYTES {
            let bundle = bundle(3, bytes, 51, order);
            all.push((format!("{words}, {} bytes", bundle.len()), bundle));
        }
    }
    all
}

/// Opening the last table of a bundle.
pub fn open() -> bool {
    head("open the last of 16 tables", &["plain", "second"]);
    let mut kept = true;
    for (name, bytes) in bundles() {
        let ours = rocaplanh::open(&bytes, 15).expect("a sound bundle");
        assert_eq!(Some((ours.n, ours.body)), baseline::bundle::open(&bytes, 15));
        let mut jobs: Vec<Job> = vec![
            Box::new(|| keep(rocaplanh::open(hidden(&bytes), 15))),
            Box::new(|| keep(baseline::bundle::open(hidden(&bytes), 15))),
            Box::new(|| keep(second::bundle::open(hidden(&bytes), 15))),
        ];
        let times = side_by_side(&mut jobs);
        kept &= line(&name, &times, 1, Limit::Times(2.0));
    }
    kept
}

/// Writing a bundle of 16 tables.
pub fn write() -> bool {
    head("write a bundle of 16 tables", &["plain", "second"]);
    bundles().iter().fold(true, |kept, (name, bundle)| kept & one_write(name, bundle))
}

/// A bundle, taken apart and written again.
fn one_write(name: &str, bundle: &[u8]) -> bool {
    let (n, bodies) = baseline::bundle::tables(bundle).expect("a sound bundle");
    let counts: Vec<u16> = bodies.iter().map(|body| (body.len() / n) as u16).collect();
    let (counts, tables) = (&counts[..], &bodies.concat()[..]);
    let mut buffers = [vec![0; bundle.len()], vec![0; bundle.len()], vec![0; bundle.len()]];
    let [ours, plain, naive] = &mut buffers;
    let lengths = [
        rocaplanh::write(n, counts, tables, ours).ok(),
        baseline::bundle::write(n, counts, tables, plain),
        second::writer::write(n, counts, tables, naive).ok(),
    ];
    assert!(lengths == [Some(bundle.len()); 3] && ours == bundle && plain == bundle && naive == bundle);
    let mut jobs: Vec<Job> = vec![
        Box::new(|| keep(rocaplanh::write(n, hidden(counts), hidden(tables), ours))),
        Box::new(|| keep(baseline::bundle::write(n, hidden(counts), hidden(tables), plain))),
        Box::new(|| keep(second::writer::write(n, hidden(counts), hidden(tables), naive))),
    ];
    let times = side_by_side(&mut jobs);
    line(name, &times, 1, Limit::Times(3.0))
}

/// The program `janet` whole, with the start of a process, beside the programs `baseline` and `second`.
pub fn janet(programs: [&Path; 3]) -> bool {
    head("janet, whole runs", &["plain", "second"]);
    let mut kept = true;
    let listing: &[u8] = &[2, 1, 2, 0, 6, 0, 2, 1, 0, 2];
    let others = BYTES.map(|bytes| ("16 tables", bundle(3, bytes, 51, Order::Unsorted)));
    let small = [("16 tables, n=4, entries to 20", bundle(4, 600, 21, Order::Unsorted))];
    for (name, bytes) in [("the listing", listing.to_vec())].into_iter().chain(small).chain(others) {
        let written = programs.map(|program| run(program, &bytes));
        assert!(written.iter().all(|text| *text == written[0]), "the programs write different listings");
        let mut jobs: Vec<Job> =
            programs.iter().map(|program| Box::new(|| drop(run(program, &bytes))) as Job).collect();
        let times = side_by_side_on_the_wall(&mut jobs);
        let name = format!("{name}, {} to {} bytes", bytes.len(), written[0].len());
        kept &= line(&name, &times, 1, Limit::Seconds(1.0));
    }
    kept
}

/// What a program writes for a bundle; the programs read all before they write.
fn run(program: &Path, bundle: &[u8]) -> Vec<u8> {
    let mut child = Command::new(program).stdin(Stdio::piped()).stdout(Stdio::piped()).spawn().expect("it can be run");
    child.stdin.take().expect("standard input is piped").write_all(bundle).expect("it reads its input");
    child.wait_with_output().expect("it ends").stdout
}
