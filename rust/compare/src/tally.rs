//! What was compared: how often each operation gave each number, and whether the run was varied enough to say anything.

use crate::call::{Answer, Call, OPERATIONS};
use rocaplanh::NO_ROW;

/// Refusal numbers run from 0 (an answer) to 12.
const NUMBERS: usize = 13;

/// The refusals that each of the operations may give.
const REFUSALS: [&[usize]; OPERATIONS.len()] = [
    &[1, 2, 3, 4, 12, 8],
    &[1, 2, 3, 4, 12, 5],
    &[1, 2, 3, 4, 12, 8],
    &[1, 2, 3, 4, 5, 6],
    &[1, 2, 3, 4, 5, 6, 7],
    &[1, 2, 3, 4, 5, 6, 7],
    &[1, 2, 3, 4, 6, 7],
    &[9, 1, 3, 10, 11, 4, 12, 5],
    &[1, 9, 2, 3, 4, 12, 8],
];

/// Counts of what the calls gave.
#[derive(Default)]
pub struct Tally {
    answers: [[usize; NUMBERS]; OPERATIONS.len()],
    adding: usize,
    large: [usize; 7],
    found: usize,
    nothing: usize,
    negative: usize,
}

impl Tally {
    /// Counts one call by the second program's answer.
    pub fn add(&mut self, call: &Call, answer: &Answer) {
        self.answers[call.operation()][answer.refusal as usize] += 1;
        if answer.refusal != 0 {
            return;
        }
        match call {
            Call::Complete { n, table, .. } => self.add_completion(*n, table, answer),
            Call::Find { .. } if answer.numbers[0] == u64::from(NO_ROW) => self.nothing += 1,
            Call::Find { .. } => self.found += 1,
            Call::Polynomial { .. } => self.negative += usize::from(answer.signed() < 0),
            _ => {}
        }
    }

    /// A completion adds rows when it has more rows than the given table has minimal ones: those it always keeps.
    fn add_completion(&mut self, n: usize, table: &[u8], answer: &Answer) {
        let given = second::operations::checked_rows(n, table).expect("the call was answered");
        let completed = answer.numbers[0] as usize;
        self.adding += usize::from(completed > second::completion::minimal(&given).len());
        self.large[n] += usize::from(completed > 500);
    }

    /// How many completions of more than 500 rows there were for n.
    pub fn large(&self, n: usize) -> usize {
        self.large[n]
    }

    /// All calls.
    pub fn calls(&self) -> usize {
        self.answers.iter().flatten().sum()
    }

    /// How often an operation gave each number.
    fn answers(&self, operation: &str) -> &[usize; NUMBERS] {
        let place = OPERATIONS.iter().position(|name| *name == operation).expect("a known operation");
        &self.answers[place]
    }

    /// How often an operation was called.
    fn called(&self, operation: &str) -> usize {
        self.answers(operation).iter().sum()
    }

    /// How often a number was given.
    fn given(&self, number: usize) -> usize {
        self.answers.iter().map(|row| row[number]).sum()
    }

    /// The histogram.
    pub fn print(&self) {
        println!("calls by operation and refusal (0: answered)");
        let heads: Vec<String> = (0..NUMBERS).map(|number| format!("{number:>7}")).collect();
        println!("{:<11}{}", "", heads.concat());
        for (name, row) in OPERATIONS.iter().zip(&self.answers) {
            let fields: Vec<String> = row.iter().map(|count| format!("{count:>7}")).collect();
            println!("{name:<11}{}", fields.concat());
        }
        let sums: Vec<String> = (0..NUMBERS).map(|number| format!("{:>7}", self.given(number))).collect();
        println!("{:<11}{}   {} calls", "all", sums.concat(), self.calls());
        println!("completions: {}, adding rows: {}", self.called("complete"), self.adding);
        let large: Vec<String> = (1..=6).map(|n| format!("n={n}: {}", self.large[n])).collect();
        println!("completions to more than 500 rows: {}", large.join(", "));
        println!("find: {} rows, {} none; negative polynomial values: {}", self.found, self.nothing, self.negative);
    }

    /// What the run lacks, one line each; nothing when it was varied enough.
    pub fn lacks(&self) -> Vec<String> {
        let mut lacking = Vec::new();
        let mut demand = |enough: bool, what: String| {
            if !enough {
                lacking.push(what);
            }
        };
        demand(self.calls() >= 200_000, "fewer than 200,000 calls".into());
        for number in 1..NUMBERS {
            demand(self.given(number) >= 1000, format!("refusal {number} was given fewer than 1,000 times"));
        }
        for ((name, row), numbers) in OPERATIONS.iter().zip(&self.answers).zip(REFUSALS) {
            demand(row[0] >= 1000, format!("{name} answered fewer than 1,000 times"));
            for &number in numbers {
                let least = if *name == "write" || number == 12 { 1000 } else { 100 };
                demand(row[number] >= least, format!("{name} was refused by {number} fewer than {least} times"));
            }
        }
        demand(self.adding * 5 >= self.called("complete"), "fewer than a fifth of the completions add rows".into());
        for n in 3..=6 {
            demand(self.large[n] >= 100, format!("fewer than 100 completions to more than 500 rows for n = {n}"));
        }
        demand(self.found >= 1000, "find gave a row fewer than 1,000 times".into());
        demand(self.nothing >= 1000, "find gave none fewer than 1,000 times".into());
        demand(self.negative >= 100, "fewer than 100 negative polynomial values".into());
        lacking
    }
}
