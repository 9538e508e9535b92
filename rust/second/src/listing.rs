//! All that the program `janet` writes for a bundle.

use std::fmt::Write;

use crate::bundle::{tables, Opened};
use crate::completion::completed;
use crate::counting::steady;
use crate::division::{all_marks, Monomial};
use crate::operations::{checked_rows, MOST_ROWS};
use crate::Refusal;

/// The whole output: each table's listing, or one line with the refusal of the bundle.
pub fn listing(bundle: &[u8]) -> String {
    match all_tables(bundle) {
        Ok(text) => text,
        Err(refusal) => format!("R {refusal}\n"),
    }
}

/// The listing of each table in turn.
fn all_tables(bundle: &[u8]) -> Result<String, Refusal> {
    let mut text = String::new();
    for (j, table) in tables(bundle)?.iter().enumerate() {
        let given = checked_rows(table.n, table.body(bundle))?;
        match completed(table.n, &given, MOST_ROWS) {
            Some(rows) => write_table(&mut text, j, table, &rows),
            None => write_line(&mut text, &format!("T {j} R 8")),
        }
    }
    Ok(text)
}

/// The first line, one line for each completed row, and the last line.
fn write_table(text: &mut String, j: usize, table: &Opened, rows: &[Monomial]) {
    write_line(text, &format!("T {j} {} {}", table.rows, rows.len()));
    for (row, marks) in rows.iter().zip(all_marks(table.n, rows)) {
        let exponents: Vec<String> = row[..table.n].iter().map(u8::to_string).collect();
        write_line(text, &format!("{} : {marks}", exponents.join(" ")));
    }
    write_line(text, &format!("S {}", steady(rows)));
}

/// A line with its line feed.
fn write_line(text: &mut String, line: &str) {
    writeln!(text, "{line}").expect("text can grow");
}
