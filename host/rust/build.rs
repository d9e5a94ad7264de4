//! Links the archive of the proved register, `libhost.a`.
//!
//! It is looked for in the folder that the variable `YLGRANDI_LIB` names, else
//! where `tools/archive` writes it. The tests link C programs with it and are
//! told where it was found.

use std::env;
use std::path::{Path, PathBuf};

fn main() {
    let package = env::var("CARGO_MANIFEST_DIR").expect("cargo sets it");
    let folder = env::var_os("YLGRANDI_LIB").map_or_else(
        || Path::new(&package).join("../../target/staticlib"),
        PathBuf::from,
    );
    let archive = folder.join("libhost.a");
    assert!(
        archive.is_file(),
        "there is no {}: run `tools/archive` in the repository first",
        archive.display()
    );
    println!("cargo:rustc-link-search=native={}", folder.display());
    println!("cargo:rustc-link-lib=static=host");
    println!("cargo:rustc-env=YLGRANDI_ARCHIVE={}", archive.display());
    println!("cargo:rerun-if-changed={}", archive.display());
    println!("cargo:rerun-if-env-changed=YLGRANDI_LIB");
}
