//! Links libexports.a from the directory SEGTRACE_LIB_DIR, or from target/staticlib of the repository where that is not set.

use std::path::Path;

fn main() {
    println!("cargo:rerun-if-changed=build.rs");
    println!("cargo:rerun-if-env-changed=SEGTRACE_LIB_DIR");
    let directory = std::env::var("SEGTRACE_LIB_DIR")
        .unwrap_or_else(|_| concat!(env!("CARGO_MANIFEST_DIR"), "/../target/staticlib").to_string());
    let archive = Path::new(&directory).join("libexports.a");
    println!("cargo:rerun-if-changed={}", archive.display());
    if !archive.exists() {
        eprintln!("{} is missing: run `tools/build archive`, or set SEGTRACE_LIB_DIR", archive.display());
        std::process::exit(1);
    }
    println!("cargo:rustc-link-search=native={directory}");
    println!("cargo:rustc-link-lib=static=exports");
}
