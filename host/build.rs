//! Says where the static library of the proved functions is: `make library` puts it under the repository's `target/`.
//! `LIVUKOE_LIB_DIR` names another directory.

use std::env;
use std::path::PathBuf;

fn main() {
    let directory = env::var_os("LIVUKOE_LIB_DIR").map_or_else(built_here, PathBuf::from);
    let archive = directory.join("liblivukoe.a");
    if !archive.is_file() {
        println!(
            "cargo:warning={} is missing: run `make library` first",
            archive.display()
        );
    }
    // the tests compile C programs with the same archive
    println!("cargo:rustc-env=LIVUKOE_LIB_DIR={}", directory.display());
    println!("cargo:rustc-link-search=native={}", directory.display());
    println!("cargo:rustc-link-lib=static=livukoe");
    println!("cargo:rerun-if-changed={}", archive.display());
    // the benchmarks alone link a second archive, of the crate test_tree
    let second = directory.join("libtest_tree.a");
    if second.is_file() {
        println!("cargo:rerun-if-changed={}", second.display());
    }
    println!("cargo:rerun-if-env-changed=LIVUKOE_LIB_DIR");
}

/// Where `make library` puts it, seen from this crate.
fn built_here() -> PathBuf {
    PathBuf::from(env!("CARGO_MANIFEST_DIR")).join("../target/staticlib")
}
