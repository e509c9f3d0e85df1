//! With the feature `archive`: links the proved archive libnoferkash.a.

use std::env;
use std::path::Path;

const FOLDER: &str = "NOFERKASH_ARCHIVE_DIR";

fn main() {
    println!("cargo:rerun-if-changed=build.rs");
    if env::var_os("CARGO_FEATURE_ARCHIVE").is_none() {
        return;
    }
    println!("cargo:rerun-if-env-changed={FOLDER}");
    let folder = env::var(FOLDER)
        .unwrap_or_else(|_| panic!("set {FOLDER} to the folder that has libnoferkash.a"));
    let archive = Path::new(&folder).join("libnoferkash.a");
    let archive = archive.canonicalize().unwrap_or_else(|error| {
        panic!("{}: {error} (.ci/prove staticlib noferkash makes it)", archive.display())
    });
    let folder = archive.parent().expect("a file stands in a folder");
    println!("cargo:rerun-if-changed={}", archive.display());
    println!("cargo:rustc-link-search=native={}", folder.display());
    println!("cargo:rustc-link-lib=static=noferkash");
}
