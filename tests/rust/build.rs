//! Links crates/nizumokage/out/libnizumokage.a of the repository.

use std::env;
use std::path::{Path, PathBuf};

fn main() {
    println!("cargo::rerun-if-changed=build.rs");
    if env::var_os("CARGO_FEATURE_PRODUCT").is_none() {
        return;
    }
    let folder = repository().join("crates/nizumokage/out");
    let archive = folder.join("libnizumokage.a");
    println!("cargo::rerun-if-changed={}", archive.display());
    if !archive.is_file() {
        println!(
            "cargo::error=crates/nizumokage/out/libnizumokage.a is missing: \
             run `rt lib` in crates/nizumokage first"
        );
        return;
    }
    println!("cargo::rustc-link-search=native={}", folder.display());
    println!("cargo::rustc-link-lib=static=nizumokage");
}

/// This project lies in tests/rust of the repository.
fn repository() -> PathBuf {
    let here = env::var_os("CARGO_MANIFEST_DIR").expect("cargo names the project's folder");
    Path::new(&here).join("..").join("..")
}
