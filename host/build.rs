//! Links the static library of the crate `bowunte_c`, which `tools/archive bowunte_c` makes.

use std::env;
use std::path::{Path, PathBuf};

const ARCHIVE: &str = "libbowunte.a";

fn main() {
    println!("cargo:rerun-if-env-changed=BOWUNTE_LIB_DIR");
    let folder = folder();
    let archive = folder.join(ARCHIVE);
    println!("cargo:rerun-if-changed={}", archive.display());
    if !archive.is_file() {
        eprintln!(
            "{} is missing: run 'tools/archive bowunte_c' first, or let BOWUNTE_LIB_DIR name its folder",
            archive.display()
        );
        std::process::exit(1);
    }
    println!("cargo:rustc-link-search=native={}", folder.display());
    println!("cargo:rustc-link-lib=static=bowunte");
    // The test in C links the same archive.
    println!("cargo:rustc-env=BOWUNTE_ARCHIVE={}", archive.display());
}

/// Where the archive is looked for.
fn folder() -> PathBuf {
    match env::var_os("BOWUNTE_LIB_DIR") {
        Some(folder) => folder.into(),
        None => {
            let package = env::var_os("CARGO_MANIFEST_DIR").expect("cargo names the package");
            Path::new(&package).join("../target/staticlib")
        }
    }
}
