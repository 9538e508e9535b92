//! Comparisons made, and the end of a run: on the first difference, or with the number that passed.

use std::fmt::Debug;
use std::process::exit;

/// The comparisons that passed so far.
#[derive(Default)]
pub struct Report {
    passed: usize,
}

impl Report {
    /// Two values must be equal; else the input is printed and the run fails.
    pub fn same<T: PartialEq + Debug>(&mut self, what: &str, ours: &T, expected: &T, input: &dyn Debug) {
        if ours != expected {
            println!("{what}: different\ninput: {input:?}\nours: {ours:?}\nexpected: {expected:?}");
            self.fail();
        }
        self.passed += 1;
    }

    /// A condition must hold; else what it was about is printed and the run fails.
    pub fn holds(&mut self, what: &str, condition: bool, input: &dyn Debug) {
        self.same(what, &condition, &true, input);
    }

    /// Ends a run that failed.
    pub fn fail(&self) -> ! {
        println!("{} passed, 1 failed", self.passed);
        exit(1)
    }

    /// Ends a run that passed.
    pub fn finish(&self) {
        println!("{} passed, 0 failed", self.passed);
    }
}
