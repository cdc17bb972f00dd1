//! Links the exported library: libcapi.a in the directory that FAMILIES_LIB_DIR names, or else where
//! `make library` writes it.

use std::path::PathBuf;

const VARIABLE: &str = "FAMILIES_LIB_DIR";
const WRITTEN: &str = concat!(env!("CARGO_MANIFEST_DIR"), "/../../target/staticlib");

fn main() {
    let directory = PathBuf::from(std::env::var_os(VARIABLE).unwrap_or(WRITTEN.into()));
    let library = directory.join("libcapi.a");
    println!("cargo:rerun-if-env-changed={VARIABLE}");
    println!("cargo:rerun-if-changed={}", library.display());
    if !library.is_file() {
        eprintln!("there is no {}", library.display());
        eprintln!("`make library` writes it; {VARIABLE} can name another directory");
        std::process::exit(1);
    }
    println!("cargo:rustc-link-search=native={}", directory.display());
    println!("cargo:rustc-link-lib=static=capi");
}
