//! Links the proved library's archive: libc_api.a from the directory that NUMFMT_LIB_DIR names (relative to the top of the
//! repository, or absolute), else from target/staticlib.

use std::path::{Path, PathBuf};

const VARIABLE: &str = "NUMFMT_LIB_DIR";
const DEFAULT: &str = "target/staticlib";
const ARCHIVE: &str = "libc_api.a";

fn main() {
    println!("cargo::rerun-if-env-changed={VARIABLE}");
    let directory = directory();
    let archive = directory.join(ARCHIVE);
    println!("cargo::rerun-if-changed={}", archive.display());
    if archive.is_file() {
        println!("cargo::rustc-link-search=native={}", directory.display());
        println!("cargo::rustc-link-lib=static=c_api");
    } else {
        println!(
            "cargo::error={} is missing: tools/archive makes it",
            archive.display()
        );
    }
}

fn directory() -> PathBuf {
    let package = std::env::var("CARGO_MANIFEST_DIR").unwrap_or_default();
    let top = Path::new(&package)
        .ancestors()
        .nth(2)
        .unwrap_or(Path::new("/"));
    let named = std::env::var(VARIABLE).ok().filter(|name| !name.is_empty());
    top.join(named.as_deref().unwrap_or(DEFAULT))
}
