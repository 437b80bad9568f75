//! With the feature `proved`, links the proved static library: the archive named by the environment
//! variable DIVANEGRET_LIB, or crates/divanegret/out/libdivanegret.a of the repository.

use std::env;
use std::path::{Path, PathBuf};

const ARCHIVE: &str = "../../crates/divanegret/out/libdivanegret.a";

fn main() {
    println!("cargo:rerun-if-changed=build.rs");
    println!("cargo:rerun-if-env-changed=DIVANEGRET_LIB");
    if env::var_os("CARGO_FEATURE_PROVED").is_some() {
        link(&archive());
    }
}

fn archive() -> PathBuf {
    let named = env::var_os("DIVANEGRET_LIB").map_or_else(|| ARCHIVE.into(), PathBuf::from);
    named
        .canonicalize()
        .unwrap_or_else(|error| panic!("no archive at {}: {error}", named.display()))
}

fn link(archive: &Path) {
    let directory = archive.parent().expect("an archive stands in a directory");
    let name = archive.file_name().expect("an archive has a name");
    println!("cargo:rerun-if-changed={}", archive.display());
    println!("cargo:rustc-link-search=native={}", directory.display());
    println!("cargo:rustc-link-lib=static:+verbatim={}", name.to_string_lossy());
}
