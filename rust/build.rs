//! Links the static library that `tools/staticlib` writes: from YOLTHUGEN_LIB_DIR, or target/staticlib beside this crate's folder.
use std::{env, path::PathBuf, process};

fn main() {
    println!("cargo:rerun-if-env-changed=YOLTHUGEN_LIB_DIR");
    let here = PathBuf::from(env::var("CARGO_MANIFEST_DIR").expect("cargo sets CARGO_MANIFEST_DIR"));
    let folder = env::var("YOLTHUGEN_LIB_DIR").map(PathBuf::from).unwrap_or_else(|_| here.join("../target/staticlib"));
    let archive = folder.join("libcapi.a");
    if !archive.exists() {
        eprintln!("no {}: run `tools/staticlib`, or set YOLTHUGEN_LIB_DIR", archive.display());
        process::exit(1);
    }
    println!("cargo:rerun-if-changed={}", archive.display());
    println!("cargo:rustc-link-search=native={}", folder.display());
    println!("cargo:rustc-link-lib=static=capi");
}
