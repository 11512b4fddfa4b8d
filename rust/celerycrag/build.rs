//! Links the static library that holds the proved code, libcelerycrag.a: from
//! the directory that CELERYCRAG_LIB_DIR names, else from target/staticlib at
//! the root of the repository, where `tools/build` puts it.

use std::env;
use std::path::PathBuf;

fn main() {
    println!("cargo:rerun-if-env-changed=CELERYCRAG_LIB_DIR");
    let directory = match env::var_os("CELERYCRAG_LIB_DIR") {
        Some(directory) => PathBuf::from(directory),
        None => PathBuf::from(env::var_os("CARGO_MANIFEST_DIR").unwrap_or_default())
            .join("../../target/staticlib"),
    };
    // The compiler may run in another directory than this script.
    let directory = directory.canonicalize().unwrap_or(directory);
    let archive = directory.join("libcelerycrag.a");
    if !archive.is_file() {
        println!(
            "cargo:warning=there is no archive at {}: run `tools/build` at the root of \
             the repository, or set CELERYCRAG_LIB_DIR to the directory that has it",
            archive.display()
        );
    }
    println!("cargo:rerun-if-changed={}", archive.display());
    println!("cargo:rustc-link-search=native={}", directory.display());
    println!("cargo:rustc-link-lib=static=celerycrag");
}
