//! Links the static library: the archive that SAB_STATICLIB names, else the
//! one that the repository's build leaves.

use std::env;
use std::path::{Path, PathBuf};

fn main() {
    println!("cargo::rerun-if-env-changed=SAB_STATICLIB");
    let here = PathBuf::from(env::var_os("CARGO_MANIFEST_DIR").unwrap());
    let archive = match env::var_os("SAB_STATICLIB") {
        Some(path) => PathBuf::from(path),
        None => here.join("../../../target/staticlib/libsab.a"),
    };
    let Ok(archive) = archive.canonicalize() else {
        println!("cargo::error=no static library at {}", archive.display());
        return;
    };
    let name = archive.file_stem().unwrap().to_str().unwrap();
    println!("cargo::rerun-if-changed={}", archive.display());
    println!(
        "cargo::rustc-link-search=native={}",
        archive.parent().unwrap_or(Path::new(".")).display()
    );
    println!(
        "cargo::rustc-link-lib=static={}",
        name.trim_start_matches("lib")
    );
}
