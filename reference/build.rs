//! With the feature `lookup` the program of that name gets the other implementation's library.

use std::{env, fs};

/// Seen from the folder of the package, where cargo runs this.
const LIBRARY: &str = "../crates/lookup_bench/out/liblookup_bench.a";

fn main() {
    println!("cargo::rerun-if-changed=build.rs");
    if env::var_os("CARGO_FEATURE_LOOKUP").is_none() {
        return;
    }
    println!("cargo::rerun-if-changed={LIBRARY}");
    // As an argument for that program alone: a library of the package would go to all others too.
    match fs::canonicalize(LIBRARY) {
        Ok(path) => println!("cargo::rustc-link-arg-bin=lookup={}", path.display()),
        Err(error) => println!("cargo::error=the feature lookup needs the library {LIBRARY}: {error}"),
    }
}
