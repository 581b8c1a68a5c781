//! Finds `libhawkmortar.a`, which `make lib` writes to the repository's target/staticlib.
//! `HAWKMORTAR_LIB_DIR` names another folder.

use std::path::PathBuf;
use std::{env, process};

fn main() {
    println!("cargo:rerun-if-env-changed=HAWKMORTAR_LIB_DIR");
    let folder = match env::var_os("HAWKMORTAR_LIB_DIR") {
        Some(folder) => PathBuf::from(folder),
        None => PathBuf::from(env::var_os("CARGO_MANIFEST_DIR").expect("cargo sets it")).join("../../target/staticlib"),
    };
    let archive = folder.join("libhawkmortar.a");
    println!("cargo:rerun-if-changed={}", archive.display());
    if !archive.is_file() {
        eprintln!("{} is missing: run `make lib` in the repository", archive.display());
        process::exit(1);
    }
    println!("cargo:rustc-link-search=native={}", folder.display());
    println!("cargo:rustc-link-lib=static=hawkmortar");
}
