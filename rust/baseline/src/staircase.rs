//! An ideal in the last three variables as a staircase: for each pair of exponents (b, c) the least d with which b c d
//! is inside. Entering a row and asking for one are quick, and the completed rows can be read off.

use crate::completion::Rows;
use crate::packed::byte;

/// Exponents run from 0 to 50.
const SIDE: usize = 51;
/// Bytes from one line of the staircase to the next.
const STRIDE: usize = 64;
/// No exponent is enough.
const NEVER: u8 = 255;

/// The least last exponent for each pair; it never rises along a line or from line to line. Only as many lines and as
/// much of each are kept as the rows that enter need.
pub struct Staircase {
    least: [u8; SIDE * STRIDE],
    lines: usize,
    width: usize,
}

impl Staircase {
    /// The empty ideal, with place for these rows (their three lowest bytes).
    pub fn new(words: &[u64]) -> Self {
        let largest = |place: usize| words.iter().map(|&word| byte(word, place)).max().unwrap_or(0);
        let (lines, width) = (largest(2) + 1, largest(1) + 1);
        let mut least = [0; SIDE * STRIDE];
        least[..lines * STRIDE].fill(NEVER);
        Staircase { least, lines, width }
    }

    /// Enters b c d (the three lowest bytes of a word); says whether the ideal grew. What is at most d already stays so
    /// further right and further down, so only what changes is visited.
    pub fn enter(&mut self, word: u64) -> bool {
        let [.., b, c, d] = word.to_be_bytes();
        let (first, from) = (usize::from(b), usize::from(c));
        let mut line = first;
        while line < self.lines && self.least[line * STRIDE + from] > d {
            for step in &mut self.least[line * STRIDE + from..line * STRIDE + self.width] {
                if *step <= d {
                    break;
                }
                *step = d;
            }
            line += 1;
        }
        line > first
    }

    /// The exponents of one line.
    fn line(&self, b: usize) -> &[u8] {
        &self.least[b * STRIDE..b * STRIDE + self.width]
    }

    /// Appends the completed rows, each behind `head`.
    pub fn write(&self, head: u64, rows: &mut Rows) {
        let never = [NEVER; SIDE];
        let mut before = &never[..self.width];
        let mut block = rows.len()..rows.len();
        let mut last = 0;
        for b in 0..self.lines {
            let line = self.line(b);
            if line == before {
                continue;
            }
            rows.repeat(block, 16, b.saturating_sub(last + 1));
            let start = rows.len();
            self.write_line(line, head | (b as u64) << 16, rows);
            if rows.is_refused() {
                return;
            }
            (block, before, last) = (start..rows.len(), line, b);
        }
    }

    /// The rows of one line: from the first pair that can be inside to the first with the least exponent of all.
    fn write_line(&self, line: &[u8], head: u64, rows: &mut Rows) {
        let lowest = line[self.width - 1];
        let first = line.iter().position(|&d| d != NEVER).unwrap_or(0);
        let last = line.iter().position(|&d| d == lowest).unwrap_or(0);
        let steps = (first..last + 1).map(|c| head | (c as u64) << 8 | u64::from(line[c]));
        rows.append(steps);
    }
}
