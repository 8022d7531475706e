//! Links libquangevit.a, which `.ci/archive` builds, from QUANGEVIT_DIR (a whole path) or else from target/staticlib.

use std::env;
use std::path::PathBuf;
use std::process;

fn main() {
    let here = PathBuf::from(env::var("CARGO_MANIFEST_DIR").unwrap());
    let folder = match env::var("QUANGEVIT_DIR") {
        Ok(named) => PathBuf::from(named),
        Err(_) => here.join("../../target/staticlib"),
    };
    let archive = folder.join("libquangevit.a");
    println!("cargo:rerun-if-env-changed=QUANGEVIT_DIR");
    println!("cargo:rerun-if-changed={}", archive.display());
    if !archive.exists() {
        eprintln!("no {}: run .ci/archive first", archive.display());
        process::exit(1);
    }
    println!("cargo:rustc-link-search=native={}", folder.display());
    println!("cargo:rustc-link-lib=static=quangevit");
}
