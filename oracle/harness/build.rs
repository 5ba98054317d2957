// Links this library's archive, if YOLTHUGEN_LIB names it; without it the harness has the original and the scan alone.
use std::{env, fs, path::Path};

fn main() {
    println!("cargo:rerun-if-env-changed=YOLTHUGEN_LIB");
    println!("cargo:rustc-check-cfg=cfg(ours)");
    let Ok(archive) = env::var("YOLTHUGEN_LIB") else {
        return;
    };
    let archive = fs::canonicalize(&archive).unwrap_or_else(|e| panic!("{archive}: {e}"));
    println!("cargo:rerun-if-changed={}", archive.display());
    println!("cargo:rustc-link-search=native={}", archive.parent().unwrap_or(Path::new(".")).display());
    println!("cargo:rustc-link-lib=static={}", archive.file_stem().unwrap().to_str().unwrap().trim_start_matches("lib"));
    println!("cargo:rustc-cfg=ours");
}
