//! Links the archive that holds the functions of include/finder.h.

use std::env;
use std::path::Path;

const ARCHIVE: &str = "libfinder_c.a";

fn main() {
    let manifest = env::var("CARGO_MANIFEST_DIR").expect("cargo sets CARGO_MANIFEST_DIR");
    let directory = Path::new(&manifest).join("../../target/staticlib");
    let archive = directory.join(ARCHIVE);

    println!("cargo::rerun-if-changed={}", archive.display());
    if !archive.is_file() {
        println!(
            "cargo::error=target/staticlib/{ARCHIVE} is missing at the repository root: \
             run `tools/build` there first"
        );
        return;
    }
    println!("cargo::rustc-link-search=native={}", directory.display());
    println!("cargo::rustc-link-lib=static=finder_c");
}
