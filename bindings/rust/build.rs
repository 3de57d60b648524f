//! Finds or builds the static library libfinder_c.a, and says where it is.
//!
//! With FINDER_LIB_DIR set it is taken from there. Otherwise `bindings/native-lib` proves the crates, as far as they are
//! not proved yet, and compiles it for an x86-64 processor.

use std::path::PathBuf;
use std::process::Command;
use std::{env, fs};

fn main() {
    println!("cargo:rerun-if-env-changed=FINDER_LIB_DIR");
    let dir = match env::var_os("FINDER_LIB_DIR") {
        Some(dir) => fs::canonicalize(dir).expect("FINDER_LIB_DIR is a folder"),
        None => build(),
    };
    println!("cargo:rerun-if-changed={}", dir.join("libfinder_c.a").display());
    println!("cargo:rustc-link-search=native={}", dir.display());
    println!("cargo:rustc-link-lib=static=finder_c");
}

fn build() -> PathBuf {
    let top = PathBuf::from(env::var_os("CARGO_MANIFEST_DIR").unwrap()).join("../..");
    let dir = PathBuf::from(env::var_os("OUT_DIR").unwrap());
    for part in ["crates", "crates.txt", "bindings/native-lib"] {
        println!("cargo:rerun-if-changed={}", top.join(part).display());
    }
    let status = Command::new(top.join("bindings/native-lib"))
        .arg(dir.join("libfinder_c.a"))
        .status()
        .expect("bindings/native-lib runs");
    assert!(status.success(), "bindings/native-lib built no library");
    dir
}
