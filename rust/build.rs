//! Finds the archive `libetagere.a` and links it.

use std::env;
use std::path::{Path, PathBuf};

const ARCHIVE: &str = "libetagere.a";

/// Where the archive is: in `ETAGERE_LIB_DIR` if that is set, else in the package, else in the repository's release.
fn folders() -> Vec<PathBuf> {
    if let Some(folder) = env::var_os("ETAGERE_LIB_DIR") {
        return vec![PathBuf::from(folder)];
    }
    let package = env::var_os("CARGO_MANIFEST_DIR").map(PathBuf::from).unwrap_or_default();
    vec![package.join("lib"), package.join("../dist/lib")]
}

fn is_supported() -> bool {
    let target = |name: &str| env::var(format!("CARGO_CFG_TARGET_{name}")).unwrap_or_default();
    target("ARCH") == "x86_64" && target("OS") == "linux"
}

fn main() {
    println!("cargo:rerun-if-env-changed=ETAGERE_LIB_DIR");
    if env::var_os("DOCS_RS").is_some() {
        return;
    }
    assert!(is_supported(), "{ARCHIVE} is for x86-64 Linux only");

    let folders = folders();
    for folder in &folders {
        println!("cargo:rerun-if-changed={}", folder.join(ARCHIVE).display());
    }
    let Some(folder) = folders.iter().find(|folder| Path::new(folder).join(ARCHIVE).is_file()) else {
        panic!("{ARCHIVE} is in none of {folders:?}: set ETAGERE_LIB_DIR to the folder that has it");
    };
    println!("cargo:rustc-link-search=native={}", folder.display());
    println!("cargo:rustc-link-lib=static=etagere");
}
