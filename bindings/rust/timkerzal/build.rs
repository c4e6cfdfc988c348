//! Links the proved static library that `sh tools/staticlib` writes; TIMKERZAL_LIB names another folder for it.
use std::{env, path::PathBuf};

fn main() {
    let here = PathBuf::from(env::var("CARGO_MANIFEST_DIR").expect("cargo names the folder"));
    let folder =
        env::var("TIMKERZAL_LIB").map(PathBuf::from).unwrap_or_else(|_| here.join("../../../target/staticlib"));
    let archive = folder.join("libtimkerzal.a");
    println!("cargo:rerun-if-env-changed=TIMKERZAL_LIB");
    println!("cargo:rerun-if-changed={}", archive.display());
    assert!(archive.exists(), "{} is missing: run `sh tools/staticlib` first", archive.display());
    println!("cargo:rustc-link-search=native={}", folder.display());
    println!("cargo:rustc-link-lib=static=timkerzal");
}
