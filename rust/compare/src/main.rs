//! Compares the proved library, through its archive, and the program `janet` with the second program.
//!
//! `compare --janet PATH` runs all comparisons; the last line is `N passed, 0 failed`. A difference prints its input
//! and ends the run with a failure, and so does a run that was not varied enough to say anything.
//!
//! - `--seed NUMBER`: another run; the seed is printed first.
//! - `--long`: ten times as many calls, tables and bundles.
//! - `--without-janet`: the archive only.

mod boxes;
mod call;
mod calls;
mod figures;
mod process;
mod report;
mod rounds;
mod runs;
mod streams;
mod tally;

use inputs::random::Random;
use report::Report;
use std::path::PathBuf;
use std::process::exit;
use std::time::Instant;
use tally::Tally;

/// What the command line asks for.
struct Wishes {
    seed: u64,
    times: usize,
    janet: Option<PathBuf>,
}

fn main() {
    let wishes = wishes().unwrap_or_else(|fault| {
        eprintln!("{fault}\nusage: compare (--janet PATH | --without-janet) [--seed NUMBER] [--long]");
        exit(2)
    });
    println!("seed {}", wishes.seed);
    let (mut report, mut tally) = (Report::default(), Tally::default());
    let begun = Instant::now();
    let part = |name: &str| println!("{name}: done at {:.1} s", begun.elapsed().as_secs_f64());
    figures::all(&mut report);
    part("examples and figures");
    boxes::all(&mut Random::new(wishes.seed ^ 1), 400 * wishes.times, &mut report);
    part("small boxes");
    calls::many(&mut Random::new(wishes.seed ^ 2), 270_000 * wishes.times, &mut report, &mut tally);
    part("random calls");
    calls::fixed(&mut report, &mut tally);
    part("limits and equal rows");
    calls::large(&mut Random::new(wishes.seed ^ 3), 110 * wishes.times, &mut report, &mut tally);
    part("large tables");
    rounds::all(&mut Random::new(wishes.seed ^ 6), 1500 * wishes.times, &mut report);
    part("round trips");
    if let Some(program) = &wishes.janet {
        runs::all(program, &mut Random::new(wishes.seed ^ 4), 300 * wishes.times, &mut report);
        part("runs of janet");
        streams::all(program, &mut Random::new(wishes.seed ^ 5), &mut report);
        part("runs with other streams");
    }
    tally.print();
    let lacking = tally.lacks();
    if !lacking.is_empty() {
        println!("the calls lack variety: {}", lacking.join("; "));
        report.fail();
    }
    report.finish();
}

/// Reads the command line.
fn wishes() -> Result<Wishes, String> {
    let mut wishes = Wishes { seed: 20_240_229, times: 1, janet: None };
    let mut without = false;
    let mut words = std::env::args().skip(1);
    while let Some(word) = words.next() {
        match word.as_str() {
            "--long" => wishes.times = 10,
            "--without-janet" => without = true,
            "--janet" => wishes.janet = Some(words.next().ok_or("--janet wants a path")?.into()),
            "--seed" => {
                let seed = words.next().ok_or("--seed wants a number")?;
                wishes.seed = seed.parse().map_err(|_| format!("{seed} is no number"))?;
            }
            other => return Err(format!("{other} is not known")),
        }
    }
    if wishes.janet.is_none() && !without {
        return Err("the path of the program janet is wanted".into());
    }
    Ok(wishes)
}
