//! The second program: a bundle on standard input, its listing on standard output.

use std::io::{self, Read, Write};

fn main() -> io::Result<()> {
    let mut bundle = Vec::new();
    io::stdin().read_to_end(&mut bundle)?;
    io::stdout().write_all(second::listing::listing(&bundle).as_bytes())
}
