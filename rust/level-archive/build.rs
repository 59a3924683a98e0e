//! Links the proved static library, `libarchive.a`: from the folder that
//! LEVEL_ARCHIVE_LIB_DIR names, or else from target/staticlib of the repository.

use std::env;
use std::path::{Path, PathBuf};

const VARIABLE: &str = "LEVEL_ARCHIVE_LIB_DIR";

fn folder() -> PathBuf {
    match env::var_os(VARIABLE) {
        Some(folder) => PathBuf::from(folder),
        None => Path::new(env!("CARGO_MANIFEST_DIR")).join("../../target/staticlib"),
    }
}

/// The library is machine code of x86_64 Linux.
fn is_served() -> bool {
    let target = |part: &str| env::var(format!("CARGO_CFG_TARGET_{part}")).unwrap_or_default();
    target("ARCH") == "x86_64" && target("OS") == "linux"
}

fn main() {
    let library = folder().join("libarchive.a");
    println!("cargo::rerun-if-env-changed={VARIABLE}");
    println!("cargo::rerun-if-changed={}", library.display());
    if !is_served() {
        let target = env::var("TARGET").unwrap_or_default();
        println!("cargo::error=libarchive.a is for x86_64 Linux alone, not for {target}");
        return;
    }
    let Ok(library) = library.canonicalize() else {
        println!("cargo::error=there is no {}", library.display());
        println!(
            "cargo::error=run `make library` in the repository's folder, or set {VARIABLE} to the folder that has it"
        );
        return;
    };
    let folder = library.parent().unwrap_or(&library);
    println!("cargo::rustc-link-search=native={}", folder.display());
    println!("cargo::rustc-link-lib=static=archive");
    // for the tests that compile C
    println!("cargo::rustc-env=LEVEL_ARCHIVE_LIBRARY={}", library.display());
}
