//! Links libkumolendi.a, from the folder that KUMOLENDI_LIB names or from the repository's target/staticlib.
use std::env;
use std::path::PathBuf;

fn main() {
    let here = PathBuf::from(env::var("CARGO_MANIFEST_DIR").expect("set by cargo"));
    let folder = env::var("KUMOLENDI_LIB").map_or_else(|_| here.join("../../target/staticlib"), PathBuf::from);
    let archive = folder.join("libkumolendi.a");

    // A missing archive would otherwise show as a linker error that names no remedy.
    assert!(
        archive.is_file(),
        "no libkumolendi.a in {}: run rust/test, or name its folder in KUMOLENDI_LIB",
        folder.display()
    );

    println!("cargo::rustc-link-search=native={}", folder.display());
    println!("cargo::rustc-link-lib=static=kumolendi");
    println!("cargo::rerun-if-changed={}", archive.display());
    println!("cargo::rerun-if-env-changed=KUMOLENDI_LIB");
}
