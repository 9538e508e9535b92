//! A run of a program: what it is fed on standard input, and all that it leaves behind.
//!
//! - `run`: a usual run. `start`, `finish`: one in two steps, with other streams or with something between them.
//! - `at_once`, `byte_by_byte`: ways to feed it. `Left`: what it left.

use std::io::{self, Write};
use std::os::unix::process::ExitStatusExt;
use std::path::Path;
use std::process::{Child, ChildStdin, Command, Stdio};
use std::thread;
use std::time::Duration;

/// What a run left: both outputs where they are caught, and the exit status or else the signal that ended it.
#[derive(Debug, PartialEq, Eq)]
pub struct Left {
    /// Standard output.
    pub output: String,
    /// Standard error.
    pub errors: String,
    /// The exit status.
    pub status: Option<i32>,
    /// The number of the signal.
    pub signal: Option<i32>,
}

impl Left {
    /// A run that went to its end.
    pub fn ended(output: &str, errors: &str) -> Self {
        Left { output: output.into(), errors: errors.into(), status: Some(0), signal: None }
    }
}

/// A run with standard input and both outputs through pipes.
pub fn run(program: &Path, feed: impl FnOnce(ChildStdin) + Send + 'static) -> io::Result<Left> {
    finish(start(Command::new(program).stdin(Stdio::piped()).stdout(Stdio::piped()))?, feed)
}

/// Starts a program with standard error caught.
pub fn start(command: &mut Command) -> io::Result<Child> {
    command.stderr(Stdio::piped()).spawn()
}

/// Feeds a program whose standard input is a pipe, in a thread of its own, and waits for its end.
pub fn finish(mut child: Child, feed: impl FnOnce(ChildStdin) + Send + 'static) -> io::Result<Left> {
    let feeder = child.stdin.take().map(|input| thread::spawn(|| feed(input)));
    let output = child.wait_with_output()?;
    if let Some(feeder) = feeder {
        feeder.join().expect("feeding never panics");
    }
    Ok(Left {
        output: String::from_utf8_lossy(&output.stdout).into(),
        errors: String::from_utf8_lossy(&output.stderr).into(),
        status: output.status.code(),
        signal: output.status.signal(),
    })
}

/// All bytes at once. A program may stop reading where it has seen enough, so a broken pipe is no fault.
pub fn at_once(bytes: Vec<u8>) -> impl FnOnce(ChildStdin) + Send {
    move |mut input| drop(input.write_all(&bytes))
}

/// One byte after the other, with a pause after each.
pub fn byte_by_byte(bytes: Vec<u8>, pause: Duration) -> impl FnOnce(ChildStdin) + Send {
    move |mut input| {
        for byte in bytes {
            if input.write_all(&[byte]).and_then(|()| input.flush()).is_err() {
                return;
            }
            if !pause.is_zero() {
                thread::sleep(pause);
            }
        }
    }
}
