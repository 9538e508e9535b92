//! All that the program `janet` writes for a sound bundle, by the quick programs of this crate.

use crate::{bundle, completion, division};

/// The listing; nothing for a bundle with a fault.
pub fn listing(bytes: &[u8]) -> Option<Vec<u8>> {
    let mut text = Vec::new();
    let mut buffer = vec![0; 6 * 4096];
    let (n, tables) = bundle::tables(bytes)?;
    for (number, table) in tables.into_iter().enumerate() {
        match completion::complete(n, table, &mut buffer) {
            None => line(&mut text, &["T", &number.to_string(), "R", "8"]),
            Some(rows) => {
                line(&mut text, &["T", &number.to_string(), &(table.len() / n).to_string(), &rows.to_string()]);
                table_lines(&mut text, n, &buffer[..rows * n]);
            }
        }
    }
    Some(text)
}

/// A line for each row with its marks, and the steady degree.
fn table_lines(text: &mut Vec<u8>, n: usize, rows: &[u8]) {
    let mut marks = vec![0; rows.len() / n];
    division::ascending_marks(n, rows, &mut marks);
    let mut steady = 0;
    for (row, &mark) in rows.chunks_exact(n).zip(&marks) {
        for &exponent in row {
            number(text, exponent);
            text.push(b' ');
        }
        text.extend(b": ");
        number(text, mark);
        text.push(b'\n');
        steady = steady.max(row.iter().map(|&e| u32::from(e)).sum());
    }
    line(text, &["S", &steady.to_string()]);
}

/// A byte in decimal digits.
fn number(text: &mut Vec<u8>, value: u8) {
    if value >= 100 {
        text.push(b'0' + value / 100);
    }
    if value >= 10 {
        text.push(b'0' + value / 10 % 10);
    }
    text.push(b'0' + value % 10);
}

/// Fields parted by one space, and a line feed.
fn line(text: &mut Vec<u8>, fields: &[&str]) {
    text.extend(fields.join(" ").bytes());
    text.push(b'\n');
}
