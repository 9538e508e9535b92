//! Completes the paper's table 2 1, 0 2 and prints the completed rows; writes its bundle, opens it and prints both.

/// Prints rows of n bytes that stand end to end, a line each.
fn print_rows(n: usize, rows: &[u8]) {
    for row in rows.chunks(n) {
        let words: Vec<String> = row.iter().map(u8::to_string).collect();
        println!("{}", words.join(" "));
    }
}

fn main() -> Result<(), rocaplanh::Refusal> {
    let table = [2, 1, 0, 2];
    print_rows(2, &rocaplanh::completed(2, &table)?);

    let bundle = rocaplanh::written(2, &[2], &table)?;
    print_rows(bundle.len(), &bundle);

    let opened = rocaplanh::open(&bundle, 0)?;
    print_rows(opened.n, opened.body);
    Ok(())
}
