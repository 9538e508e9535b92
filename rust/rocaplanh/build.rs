//! Links libinterface.a: from the folder that ROCAPLANH_ARCHIVE names, else from the repository's target/staticlib.

use std::env;
use std::path::PathBuf;

fn main() {
    println!("cargo:rerun-if-env-changed=ROCAPLANH_ARCHIVE");
    let own = PathBuf::from(env::var_os("CARGO_MANIFEST_DIR").expect("cargo names the crate's folder"));
    let usual = own.join("../../target/staticlib");
    let folder = env::var_os("ROCAPLANH_ARCHIVE").map_or(usual, PathBuf::from);
    let archive = folder.join("libinterface.a");
    println!("cargo:rerun-if-changed={}", archive.display());
    if !archive.is_file() {
        eprintln!(
            "{} is missing: run `tools/build archive`, or set ROCAPLANH_ARCHIVE to its folder",
            archive.display()
        );
        std::process::exit(1);
    }
    println!("cargo:rustc-link-search=native={}", folder.display());
    println!("cargo:rustc-link-lib=static=interface");
}
