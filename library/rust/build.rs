//! Links libmegzhoi_c.a from MEGZHOI_LIB_DIR, else from the repository's target/staticlib (make library).
use std::env;
use std::path::PathBuf;

fn main() {
    let package = env::var("CARGO_MANIFEST_DIR").expect("cargo sets CARGO_MANIFEST_DIR");
    let default = PathBuf::from(package).join("../../target/staticlib");
    let dir = env::var("MEGZHOI_LIB_DIR").map(PathBuf::from).unwrap_or(default);
    let archive = dir.join("libmegzhoi_c.a");
    assert!(archive.is_file(), "{} is missing: run `make library`", archive.display());
    println!("cargo:rerun-if-env-changed=MEGZHOI_LIB_DIR");
    println!("cargo:rerun-if-changed={}", archive.display());
    println!("cargo:rustc-link-search=native={}", dir.display());
    println!("cargo:rustc-link-lib=static=megzhoi_c");
}
