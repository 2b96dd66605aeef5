//! Links the static library of the proved runner. Its code is
//! position-independent and calls only `memset` and the like, which every Rust
//! program has, so no flag is needed besides.
//!
//! Where there is no library, nothing is linked and `src/missing.rs` is compiled
//! too: `cargo check` and `cargo doc`, which need no library, pass; what is to be
//! linked fails there, in these words.

use std::env;
use std::path::{Path, PathBuf};

/// Where the library is, if not in the repository's own build folder.
const FOLDER_VARIABLE: &str = "MUNTYZHAP_LIB_DIR";
const FOLDER: &str = "../../target/staticlib";
const LIBRARY: &str = "capi";

fn main() {
    let folder = folder();
    let file = folder.join(format!("lib{LIBRARY}.a"));
    println!("cargo::rerun-if-env-changed={FOLDER_VARIABLE}");
    println!("cargo::rerun-if-changed={}", file.display());
    println!("cargo::rustc-check-cfg=cfg(library_missing)");
    if file.exists() {
        println!("cargo::rustc-link-search=native={}", folder.display());
        println!("cargo::rustc-link-lib=static={LIBRARY}");
    } else {
        let words = missing(&file);
        println!("cargo::warning={words}");
        println!("cargo::rustc-cfg=library_missing");
        println!("cargo::rustc-env=MUNTYZHAP_LIBRARY_MISSING={words}");
    }
}

fn missing(file: &Path) -> String {
    format!(
        "the library {} is missing: `make static` in muntyzhap's repository writes it to \
         target/staticlib, and {FOLDER_VARIABLE} may name another folder",
        file.display()
    )
}

fn folder() -> PathBuf {
    let own = || PathBuf::from(env!("CARGO_MANIFEST_DIR")).join(FOLDER);
    let folder = env::var_os(FOLDER_VARIABLE).map_or_else(own, PathBuf::from);
    folder.canonicalize().unwrap_or(folder)
}
