//! The quick plain program: a bundle on standard input, its listing on standard output; a faulty bundle gives nothing.

use std::io::{self, Read, Write};

fn main() -> io::Result<()> {
    let mut bundle = Vec::new();
    io::stdin().read_to_end(&mut bundle)?;
    io::stdout().write_all(&baseline::listing::listing(&bundle).unwrap_or_default())
}
