//! Says where `libpanel.a` is: in the folder `PANEL_LIB_DIR`, which must be an absolute path, or
//! else in `target/staticlib` of the repository that this crate is part of.

use std::env;
use std::path::{Path, PathBuf};

const FOLDER: &str = "PANEL_LIB_DIR";

fn main() {
    println!("cargo::rerun-if-env-changed={FOLDER}");
    let folder = named().unwrap_or_else(in_repository);
    // The linker starts in another folder than the caller, so that a relative path would name
    // another one.
    if folder.is_relative() {
        println!(
            "cargo::error={FOLDER} must be an absolute path, and {} is relative",
            folder.display()
        );
        return;
    }
    let library = folder.join("libpanel.a");
    if !library.is_file() {
        println!(
            "cargo::warning={} is not there: build it, or set {FOLDER} to its folder, as an \
             absolute path",
            library.display()
        );
    }
    println!("cargo::rerun-if-changed={}", library.display());
    println!("cargo::rustc-link-search=native={}", folder.display());
    println!("cargo::rustc-link-lib=static=panel");
}

/// The folder that the environment names; set to nothing, it is as if it were not set.
fn named() -> Option<PathBuf> {
    let folder = env::var_os(FOLDER).filter(|folder| !folder.is_empty());
    folder.map(PathBuf::from)
}

fn in_repository() -> PathBuf {
    let crate_folder = env::var_os("CARGO_MANIFEST_DIR").expect("cargo sets CARGO_MANIFEST_DIR");
    let bindings = Path::new(&crate_folder).parent();
    let root = bindings.and_then(Path::parent);
    let root = root.expect("the crate is two folders below the repository's root");
    root.join("target/staticlib")
}
