//! Runs of the program `janet` whose standard input or output is not as usual. Standard output, standard error and the
//! end of each run are compared.
//!
//! - The listing cannot be written: the disk is full, at once or later; standard output is closed; its reader is gone.
//! - There is nothing to read: standard input is a directory, closed, or empty. No bytes are a bundle refused by 9.
//! - The input comes byte by byte with pauses, or ends within a bundle.

use crate::process::{at_once, byte_by_byte, finish, run, start, Left};
use crate::report::Report;
use inputs::bundles;
use inputs::random::Random;
use second::listing::listing;
use std::fs::{self, File};
use std::io;
use std::path::Path;
use std::process::{Command, Stdio};
use std::time::Duration;

/// What `janet` says on standard error when a write fails.
const NOT_WRITTEN: &str = "janet: the listing could not be written\n";
/// The listing where there was nothing to read.
const NOTHING_READ: &str = "R 9\n";
/// The pause behind each byte.
const PAUSE: Duration = Duration::from_millis(2);

/// All such runs.
pub fn all(program: &Path, random: &mut Random, report: &mut Report) {
    if let Err(fault) = each(program, random, report) {
        println!("{} cannot be run: {fault}", program.display());
        report.fail();
    }
}

fn each(program: &Path, random: &mut Random, report: &mut Report) -> io::Result<()> {
    failed_writes(program, report)?;
    failed_later(program, report)?;
    gone_readers(program, report)?;
    nothing_to_read(program, report)?;
    slow_input(program, random, report)?;
    early_end(program, random, report)
}

/// A bundle whose listing is longer than a pipe holds: each of its tables is completed to 2,551 rows.
fn long_listing() -> Vec<u8> {
    bundles::pack(3, &vec![bundles::powers(3).bytes; 8])
}

/// The program, behind some words of the shell that open and close its streams.
fn in_shell(program: &Path, words: &str) -> Command {
    let mut command = Command::new("sh");
    command.arg("-c").arg(words).arg(program).stdin(Stdio::piped()).stdout(Stdio::piped());
    command
}

/// A full disk (Linux's /dev/full), and a closed standard output: nothing is written, and the program tells it, unless
/// standard error fails too.
fn failed_writes(program: &Path, report: &mut Report) -> io::Result<()> {
    let told = Left::ended("", NOT_WRITTEN);
    for bundle in [bundles::paper(), Vec::new(), long_listing()] {
        for words in [r#"exec "$0" >/dev/full"#, r#"exec "$0" >&-"#, r#"exec "$0" <&- >&-"#] {
            let left = finish(start(&mut in_shell(program, words))?, at_once(bundle.clone()))?;
            report.same("janet that cannot write", &left, &told, &(words, &bundle));
        }
        for words in [r#"exec "$0" >/dev/full 2>/dev/full"#, r#"exec "$0" >&- 2>&-"#] {
            let left = finish(start(&mut in_shell(program, words))?, at_once(bundle.clone()))?;
            report.same("janet that cannot tell", &left, &Left::ended("", ""), &(words, &bundle));
        }
    }
    Ok(())
}

/// A file that may not grow past some thousand bytes, as on a disk that fills up: the listing's beginning stands there,
/// and the program tells that it could not write all.
fn failed_later(program: &Path, report: &mut Report) -> io::Result<()> {
    let bundle = long_listing();
    let path = std::env::temp_dir().join(format!("rocaplanh-listing-{}", std::process::id()));
    let mut command = in_shell(program, r#"trap "" XFSZ; ulimit -f 8; exec "$0""#);
    let left = finish(start(command.stdout(File::create(&path)?))?, at_once(bundle.clone()))?;
    let written = fs::read_to_string(&path)?;
    fs::remove_file(&path)?;
    report.same("janet on a disk that fills up", &left, &Left::ended("", NOT_WRITTEN), &"a long listing");
    let expected = listing(&bundle);
    let cut = !written.is_empty() && written.len() < expected.len();
    report.holds("what is written begins the listing", cut && expected.starts_with(&written), &written.len());
    Ok(())
}

/// A pipe whose reader is gone before the first byte: the program tells that it could not write. A program of today's
/// Rattle ignores the signal of such a pipe from its start, so it does not matter whether the signal was ignored before.
fn gone_readers(program: &Path, report: &mut Report) -> io::Result<()> {
    let expected = Left::ended("", NOT_WRITTEN);
    for words in [r#"exec "$0""#, r#"trap "" PIPE; exec "$0""#] {
        for bundle in [bundles::paper(), long_listing()] {
            let mut child = start(&mut in_shell(program, words))?;
            drop(child.stdout.take());
            let left = finish(child, at_once(bundle.clone()))?;
            report.same("janet without a reader", &left, &expected, &(words, &bundle));
        }
    }
    Ok(())
}

/// A directory, a closed standard input, and an empty one.
fn nothing_to_read(program: &Path, report: &mut Report) -> io::Result<()> {
    let expected = Left::ended(NOTHING_READ, "");
    for path in ["/", "/dev/null"] {
        let mut command = Command::new(program);
        let left = finish(start(command.stdin(File::open(path)?).stdout(Stdio::piped()))?, at_once(Vec::new()))?;
        report.same("janet with nothing to read", &left, &expected, &path);
    }
    let left = finish(start(&mut in_shell(program, r#"exec "$0" <&-"#))?, at_once(bundles::paper()))?;
    report.same("janet with its input closed", &left, &expected, &"closed");
    Ok(())
}

/// One byte after the other: with pauses, and for the longest bundle without.
fn slow_input(program: &Path, random: &mut Random, report: &mut Report) -> io::Result<()> {
    let several = bundles::pack(3, &[vec![2, 0, 1, 1, 1, 0], vec![1, 0, 2], vec![0, 0, 5, 4, 0, 0, 0, 3, 0]]);
    let full = bundles::full(random);
    for (bundle, pause) in [(bundles::paper(), PAUSE), (several, PAUSE), (full, Duration::ZERO)] {
        let left = run(program, byte_by_byte(bundle.clone(), pause))?;
        report.same("janet fed byte by byte", &left, &Left::ended(&listing(&bundle), ""), &bundle);
    }
    Ok(())
}

/// Every beginning of a bundle of several tables, at once; and some beginnings byte by byte.
fn early_end(program: &Path, random: &mut Random, report: &mut Report) -> io::Result<()> {
    let bundle = bundles::pack(2, &[vec![2, 1, 0, 2], vec![1, 1], vec![3, 0, 0, 3]]);
    for length in 0..bundle.len() {
        let part = bundle[..length].to_vec();
        let expected = Left::ended(&listing(&part), "");
        report.same("janet with an early end", &run(program, at_once(part.clone()))?, &expected, &part);
        if random.once_in(4) {
            let left = run(program, byte_by_byte(part.clone(), PAUSE))?;
            report.same("janet with a slow, early end", &left, &expected, &part);
        }
    }
    Ok(())
}
