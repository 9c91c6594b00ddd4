//! Proves and builds crates/capi, and links its archive.
use std::path::PathBuf;
use std::process::Command;
use std::{env, fs};

fn main() {
    let here = PathBuf::from(env::var_os("CARGO_MANIFEST_DIR").unwrap());
    let root = here.join("../..");
    println!("cargo::rerun-if-changed=build.rs");
    println!("cargo::rerun-if-changed={}", root.join("crates.txt").display());
    // not the crates' folders as a whole: `rt` writes what it makes into them
    for built in ["base", "bflan", "edit", "capi"] {
        for watched in ["src", "specs", "proofs"] {
            println!("cargo::rerun-if-changed={}", root.join("crates").join(built).join(watched).display());
        }
    }
    let capi = root.join("crates/capi");
    let status = Command::new("rt")
        .arg("lib")
        .current_dir(&capi)
        .status()
        .expect("rt, the kit's command, is not on the path");
    assert!(status.success(), "rt lib in crates/capi: {status}");
    // a copy, since the next `rt lib` writes it anew
    let copy = PathBuf::from(env::var_os("OUT_DIR").unwrap());
    fs::copy(capi.join("out/libcapi.a"), copy.join("libcapi.a")).unwrap();
    println!("cargo::rustc-link-search=native={}", copy.display());
    println!("cargo::rustc-link-lib=static=capi");
}
