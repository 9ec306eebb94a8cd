//! With the feature `engine`: links the archive of the engine under test.

use std::env;
use std::path::{Path, PathBuf};

/// Names the archive; without it, the one that tools/archive writes is taken.
const VARIABLE: &str = "OR1K_ARCHIVE";
const BUILT: &str = "../target/staticlib/libhost.a";

fn main() {
    println!("cargo:rerun-if-env-changed={VARIABLE}");
    if env::var_os("CARGO_FEATURE_ENGINE").is_some() {
        link(&archive());
    }
}

fn archive() -> PathBuf {
    let root = PathBuf::from(env::var_os("CARGO_MANIFEST_DIR").expect("cargo sets it"));
    let path = root.join(env::var_os(VARIABLE).unwrap_or(BUILT.into()));
    if !path.is_file() {
        let path = path.display();
        panic!("no archive at {path}: run `tools/archive` at the top of the repository, or name one in {VARIABLE}");
    }
    path
}

fn link(archive: &Path) {
    let folder = archive.parent().expect("a file stands in a folder");
    let stem = archive.file_stem().and_then(|stem| stem.to_str()).unwrap_or_default();
    let name = stem.strip_prefix("lib").expect("an archive is called libNAME.a");
    println!("cargo:rerun-if-changed={}", archive.display());
    println!("cargo:rustc-link-search=native={}", folder.display());
    println!("cargo:rustc-link-lib=static={name}");
}
