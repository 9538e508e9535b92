//! Round trips through the archive, each way on many bundles.
//!
//! - Tables that it writes as a bundle are opened by it: the same n, as many tables, each as it was given.
//! - A bundle that it accepts is opened by it and written again: the same length and the same bytes.

use crate::report::Report;
use inputs::parts::Parts;
use inputs::random::Random;
use inputs::{bundles, equal};
use rocaplanh::{open, write, written, Opened, MOST_BUNDLE_BYTES};

/// How many trips each way a run must make.
const LEAST: usize = 1000;
/// How many of these with a bundle of 65,535 bytes.
const LEAST_LONGEST: usize = 10;
/// What a buffer holds before a call; it is no entry, so that a table's byte behind the bundle shows.
const BEFORE: u8 = 200;

/// The trips made one way.
#[derive(Default)]
struct Trips {
    all: usize,
    longest: usize,
}

/// At least `wanted` trips each way; fails where too few bundles made them.
pub fn all(random: &mut Random, wanted: usize, report: &mut Report) {
    let (mut from_tables, mut from_bundles) = (Trips::default(), Trips::default());
    let others = (0..wanted).map(|_| any_tables(random));
    for (n, bodies) in equal::apart().into_iter().chain(others) {
        from_tables.add(written_and_opened(n, &bodies, report));
    }
    let fixed = [vec![bundles::paper()], bundles::at_limits()].concat();
    let others = (0..wanted).map(|_| any_bundle(random));
    for bundle in fixed.into_iter().chain(others).filter(|bundle| open(bundle, 0).is_ok()) {
        opened_and_written(&bundle, report);
        from_bundles.add(bundle.len());
    }
    println!("written and opened: {}; opened and written: {}", from_tables.words(), from_bundles.words());
    if from_tables.are_few() || from_bundles.are_few() {
        println!("the round trips lack: 1,000 bundles each way, 10 of them of 65,535 bytes");
        report.fail();
    }
}

/// The tables of a sound bundle, seldom of one of 65,535 bytes.
fn any_tables(random: &mut Random) -> (usize, Vec<Vec<u8>>) {
    if random.once_in(40) {
        bundles::full_tables(random)
    } else {
        bundles::several_tables(random, 1, 16)
    }
}

/// A sound bundle, seldom of 65,535 bytes.
fn any_bundle(random: &mut Random) -> Vec<u8> {
    let (n, bodies) = any_tables(random);
    bundles::pack(n, &bodies)
}

/// Tables are written and opened; gives the bundle's length. The table number behind the last is refused by 5.
fn written_and_opened(n: usize, bodies: &[Vec<u8>], report: &mut Report) -> usize {
    let parts = Parts::of(n, bodies);
    let result = written(n, &parts.counts, &parts.tables);
    report.same("length of what is written", &result.as_ref().map(Vec::len), &Ok(parts.length()), &parts);
    let bundle = result.expect("its length was compared");
    for (table, body) in bodies.iter().enumerate() {
        let expected = Opened { n, rows: body.len() / n, body };
        report.same("written and opened", &open(&bundle, table), &Ok(expected), &(&parts, table));
    }
    let behind = open(&bundle, bodies.len()).map_err(|refusal| refusal.number());
    report.same("behind the last table", &behind, &Err(5), &parts);
    bundle.len()
}

/// A bundle is opened and written, into a buffer that holds it exactly and into longer ones.
fn opened_and_written(bundle: &[u8], report: &mut Report) {
    let opened: Vec<Opened> = (0..=16).map_while(|table| open(bundle, table).ok()).collect();
    let counts: Vec<u16> = opened.iter().map(|table| table.rows as u16).collect();
    let tables = opened.iter().map(|table| table.body).collect::<Vec<&[u8]>>().concat();
    for behind in [0, 1, 300] {
        let mut buffer = vec![BEFORE; bundle.len() + behind];
        let length = write(opened[0].n, &counts, &tables, &mut buffer);
        report.same("length of a bundle opened and written", &length, &Ok(bundle.len()), &bundle);
        report.same("opened and written", &buffer, &[bundle, &vec![BEFORE; behind]].concat(), &bundle);
    }
}

impl Trips {
    /// Counts the trip of a bundle of so many bytes.
    fn add(&mut self, length: usize) {
        self.all += 1;
        self.longest += usize::from(length == MOST_BUNDLE_BYTES);
    }

    fn words(&self) -> String {
        format!("{} bundles, {} of 65,535 bytes", self.all, self.longest)
    }

    fn are_few(&self) -> bool {
        self.all < LEAST || self.longest < LEAST_LONGEST
    }
}
