//! Links the static library of the crate `bleiwurzel`, which `rt lib` in crates/bleiwurzel writes.

use std::path::PathBuf;

fn main() {
    let folder = PathBuf::from(std::env::var("CARGO_MANIFEST_DIR").unwrap()).join("../../crates/bleiwurzel/out");
    let archive = folder.join("libbleiwurzel.a");
    if !archive.exists() {
        panic!("{} is missing: run 'rt lib' in crates/bleiwurzel first", archive.display());
    }
    println!("cargo:rustc-link-search=native={}", folder.display());
    println!("cargo:rustc-link-lib=static=bleiwurzel");
    println!("cargo:rerun-if-changed={}", archive.display());
}
