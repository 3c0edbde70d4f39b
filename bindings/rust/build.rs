//! Links the archive that `rt lib --cpu x86-64` writes in the crate `capi`.

use std::env;
use std::path::{Path, PathBuf};

/// Names the folder of the archive where it isn't the repository's own.
const FOLDER: &str = "ZONEFS_LIB_DIR";

fn main() {
    println!("cargo::rerun-if-env-changed={FOLDER}");
    let folder = match env::var_os(FOLDER) {
        Some(folder) => PathBuf::from(folder),
        None => Path::new(env!("CARGO_MANIFEST_DIR")).join("../../crates/capi/out"),
    };
    let archive = folder.join("libcapi.a");
    println!("cargo::rerun-if-changed={}", archive.display());
    if !archive.is_file() {
        println!(
            "cargo::error=there is no {}: run `rt lib --cpu x86-64` in the folder crates/capi of the repository of the library, \
             or set {FOLDER} to the folder that has libcapi.a",
            archive.display()
        );
        return;
    }
    println!("cargo::rustc-link-search=native={}", folder.display());
    println!("cargo::rustc-link-lib=static=capi");
}
