//! Times of the library, through its archive, beside quick plain Rust (`baseline`) and a naive program (`second`).
//!
//! `bench [--janet PATH] [PART ..]`, a part being completion, find, marks, equal, inside, count, open or write; all of
//! them where none is named. Each time is the median of several rounds in which all programs take turns, in processor
//! time. The ratio is ours to the quickest plain program's; a line that ends in OVER breaks its limit. With `--janet`
//! the program is run whole, timed by the wall, beside the programs `baseline` and `second`, which are looked for
//! beside `bench` itself.

mod bundles;
mod parts;

use std::env;
use std::path::PathBuf;
use std::process::exit;

/// A part of the report; it says whether its limits are kept.
type Part = fn() -> bool;

/// The parts that can be named, in the order in which they are run.
const PARTS: [(&str, Part); 8] = [
    ("completion", parts::completion),
    ("find", parts::find),
    ("marks", parts::marks),
    ("equal", parts::equal),
    ("inside", parts::inside),
    ("count", parts::count),
    ("open", bundles::open),
    ("write", bundles::write),
];

fn main() {
    let mut words: Vec<String> = env::args().skip(1).collect();
    let janet = (words.len() > 1 && words[0] == "--janet").then(|| PathBuf::from(words.drain(..2).nth(1).unwrap()));
    if let Some(unknown) = words.iter().find(|word| PARTS.iter().all(|(name, _)| name != word)) {
        let parts: String = PARTS.iter().map(|(name, _)| format!(" [{name}]")).collect();
        eprintln!("{unknown} is not known\nusage: bench [--janet PATH]{parts}");
        exit(2);
    }
    let mut kept = true;
    for (name, part) in PARTS {
        if words.is_empty() || words.iter().any(|word| word == name) {
            kept &= part();
        }
    }
    if let Some(program) = janet {
        let own = env::current_exe().expect("the path of this program is known");
        kept &= bundles::janet([&program, &own.with_file_name("baseline"), &own.with_file_name("second")]);
    }
    println!("\n{}", if kept { "all limits are kept" } else { "a limit is broken: see the lines that end in OVER" });
}
