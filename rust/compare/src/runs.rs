//! Whole runs of the program `janet`: a bundle on standard input, every byte of the listing compared; nothing may stand
//! on standard error.

use crate::process::{at_once, run, Left};
use crate::report::Report;
use inputs::random::Random;
use inputs::{bundles, equal};
use second::listing::listing;
use std::collections::BTreeMap;
use std::path::Path;

/// What a bundle must give at least once, apart from listings: refusals of bundles and of single tables.
const REFUSALS: [&str; 8] = ["R 1", "R 3", "R 4", "R 9", "R 10", "R 11", "R 12", "T R 8"];

/// What the runs were about.
#[derive(Default)]
struct Seen {
    bundles: usize,
    several: usize,
    completing_later: usize,
    refusals: BTreeMap<String, usize>,
}

/// Runs the program on many bundles; at least `wanted` random ones besides the fixed ones.
pub fn all(program: &Path, random: &mut Random, wanted: usize, report: &mut Report) {
    let mut seen = Seen::default();
    let fixed = fixed(random);
    let others: Vec<Vec<u8>> = (0..wanted).map(|_| any_bundle(random)).collect();
    for bundle in fixed.iter().chain(&others) {
        let expected = listing(bundle);
        let left = run(program, at_once(bundle.clone())).unwrap_or_else(|fault| {
            println!("{} cannot be run: {fault}", program.display());
            report.fail()
        });
        report.same("janet", &left, &Left::ended(&expected, ""), bundle);
        seen.add(bundle, &expected);
    }
    seen.print();
    let lacking = seen.lacks();
    if !lacking.is_empty() {
        println!("the runs lack: {}", lacking.join("; "));
        report.fail();
    }
}

/// Bundles at the limits and past them, the paper's own with every beginning of it, one with tables refused by 8; ones
/// with equal rows and each other fault, and ones where equal rows are no fault.
fn fixed(random: &mut Random) -> Vec<Vec<u8>> {
    let full = bundles::full(random);
    let mut beyond = full.clone();
    beyond.push(0);
    let paper = bundles::paper();
    let cut: Vec<Vec<u8>> = (0..paper.len()).map(|length| paper[..length].to_vec()).collect();
    let refused_by_8 = bundles::powers(4).bytes;
    let [powers, twice] = [[1, 2, 3, 4, 4, 3, 2, 1], [1, 2, 3, 4, 1, 2, 3, 4]]
        .map(|rows| bundles::pack(4, &[refused_by_8.clone(), rows.to_vec(), refused_by_8.clone()]));
    assert!(full.len() == second::bundle::MOST_BYTES && second::bundle::tables(&full).is_ok());
    let apart = equal::apart().iter().map(|(n, bodies)| bundles::pack(*n, bodies)).collect();
    [vec![full, beyond, paper, powers, twice], cut, bundles::at_limits(), equal::few_bundles(), apart].concat()
}

/// A sound bundle of several tables, a damaged one, one with equal rows, or noise.
fn any_bundle(random: &mut Random) -> Vec<u8> {
    match random.below(11) {
        0 => bundles::noise(random),
        1..=3 => {
            let sound = bundles::several(random, 2, 6);
            bundles::damage(random, sound)
        }
        4 => bundles::repeated(random, 2, 16),
        _ => bundles::several(random, 2, 16),
    }
}

impl Seen {
    /// Counts a run by the second program's listing.
    fn add(&mut self, bundle: &[u8], expected: &str) {
        self.bundles += 1;
        if let Some(refusal) = expected.lines().next().filter(|line| line.starts_with("R ")) {
            *self.refusals.entry(refusal.into()).or_default() += 1;
            return;
        }
        self.several += usize::from(bundle[1] > 1);
        let heads: Vec<Vec<&str>> =
            expected.lines().filter(|line| line.starts_with("T ")).map(|line| line.split(' ').collect()).collect();
        if heads.iter().any(|head| head[2] == "R") {
            *self.refusals.entry("T R 8".into()).or_default() += 1;
        }
        self.completing_later += usize::from(heads.iter().skip(1).any(|head| adds_rows(head)));
    }

    fn print(&self) {
        println!(
            "janet: {} bundles, {} accepted with several tables, {} with a later table that needs completing",
            self.bundles, self.several, self.completing_later
        );
        println!("janet: refusals {:?}", self.refusals);
    }

    /// What the runs lack, one line each.
    fn lacks(&self) -> Vec<String> {
        let mut lacking: Vec<String> = REFUSALS
            .iter()
            .filter(|refusal| !self.refusals.contains_key(**refusal))
            .map(|refusal| format!("a bundle that gives {refusal}"))
            .collect();
        if self.bundles < 200 {
            lacking.push("200 bundles".into());
        }
        if self.completing_later < 100 {
            lacking.push("100 bundles with a table after the first that needs completing".into());
        }
        lacking
    }
}

/// A head `T j given completed` of a table with more completed than given rows.
fn adds_rows(head: &[&str]) -> bool {
    let rows = |field: &str| field.parse::<usize>().unwrap_or(0);
    head[2] != "R" && rows(head[3]) > rows(head[2])
}
