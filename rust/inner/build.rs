//! Links libinner.a, which tools/inner.py writes below the repository's target/inner.

use std::env;
use std::path::PathBuf;

fn main() {
    let own = PathBuf::from(env::var_os("CARGO_MANIFEST_DIR").expect("cargo names the crate's folder"));
    let folder = own.join("../../target/inner/target/staticlib");
    let archive = folder.join("libinner.a");
    println!("cargo:rerun-if-changed={}", archive.display());
    if !archive.is_file() {
        eprintln!("{} is missing: run python3 tools/inner.py", archive.display());
        std::process::exit(1);
    }
    println!("cargo:rustc-link-search=native={}", folder.display());
    println!("cargo:rustc-link-lib=static=inner");
}
