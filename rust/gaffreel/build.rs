//! Links libgaffreel.a, which `tools/archive.sh` writes to target/staticlib at the repository's top.
//! GAFFREEL_STATICLIB_DIR names another folder to take it from.

use std::env;
use std::path::PathBuf;

const FOLDER_VARIABLE: &str = "GAFFREEL_STATICLIB_DIR";

fn main() {
    let folder = match env::var_os(FOLDER_VARIABLE) {
        Some(folder) => PathBuf::from(folder),
        None => repository().join("target/staticlib"),
    };
    let library = folder.join("libgaffreel.a");

    println!("cargo::rerun-if-env-changed={FOLDER_VARIABLE}");
    println!("cargo::rerun-if-changed={}", library.display());
    if !library.is_file() {
        println!(
            "cargo::error=there is no {}: run tools/archive.sh first",
            library.display()
        );
        return;
    }
    println!("cargo::rustc-link-search=native={}", folder.display());
    println!("cargo::rustc-link-lib=static=gaffreel");
}

/// The repository's top: this crate's folder is rust/gaffreel there.
fn repository() -> PathBuf {
    let mut folder = PathBuf::from(env::var_os("CARGO_MANIFEST_DIR").expect("cargo sets it"));
    folder.pop();
    folder.pop();
    folder
}
