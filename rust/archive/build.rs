//! Links the proved static library, if it can be found.

use std::env;
use std::path::{Path, PathBuf};

const ARCHIVE: &str = "libdeodarsieve.a";

fn main() {
    println!("cargo:rerun-if-env-changed=DEODARSIEVE_LIB_DIR");
    println!("cargo:rerun-if-changed=build.rs");
    let folder = archive_folder();
    let archive = folder.join(ARCHIVE);
    println!("cargo:rerun-if-changed={}", archive.display());
    println!("cargo:rustc-link-search=native={}", folder.display());
    // With the modifier, a missing archive is an error when a program is linked, and not here. So
    // `cargo check`, `cargo clippy` and `cargo doc` need no archive.
    println!("cargo:rustc-link-lib=static:-bundle=deodarsieve");
    if !archive.is_file() {
        println!(
            "cargo:warning=there is no {}: `rt lib` in crates/deodarsieve makes it, and \
             DEODARSIEVE_LIB_DIR is the absolute path of the folder of another",
            archive.display()
        );
    }
}

/// Returns the folder of the archive: the one that the environment names, or else the one that the
/// repository's build writes.
fn archive_folder() -> PathBuf {
    env::var_os("DEODARSIEVE_LIB_DIR").map_or_else(
        || Path::new(env!("CARGO_MANIFEST_DIR")).join("../../crates/deodarsieve/out"),
        PathBuf::from,
    )
}
