//! Links crates/flaskbloom/out/libflaskbloom.a of the repository (or that of FLASKBLOOM_ARCHIVE_DIR), made by `rt lib` there.

use std::path::PathBuf;

fn main() {
    println!("cargo:rerun-if-env-changed=FLASKBLOOM_ARCHIVE_DIR");
    let here = PathBuf::from(std::env::var_os("CARGO_MANIFEST_DIR").expect("cargo sets it"));
    let dir = match std::env::var_os("FLASKBLOOM_ARCHIVE_DIR") {
        Some(dir) => PathBuf::from(dir),
        None => here.join("../../crates/flaskbloom/out"),
    };
    let archive = dir.join("libflaskbloom.a");
    println!("cargo:rerun-if-changed={}", archive.display());
    if !archive.exists() {
        panic!("{} is missing: make it with outside/make-archive", archive.display());
    }
    println!("cargo:rustc-link-search=native={}", dir.display());
    println!("cargo:rustc-link-lib=static=flaskbloom");
}
