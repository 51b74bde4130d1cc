//! Links the static library: from the folder that SENDOSHI_LIB_DIR names, or from the repository's target/staticlib.

use std::env;
use std::path::PathBuf;

fn main() {
    println!("cargo:rerun-if-env-changed=SENDOSHI_LIB_DIR");
    let folder = env::var_os("SENDOSHI_LIB_DIR").map_or_else(repository_folder, PathBuf::from);
    let archive = folder.join("libsendoshi.a");
    println!("cargo:rerun-if-changed={}", archive.display());
    if !archive.is_file() {
        panic!("{} is missing: run `./staticlib` at the top of the repository, or set SENDOSHI_LIB_DIR to its folder", archive.display());
    }
    println!("cargo:rustc-link-search=native={}", folder.display());
    println!("cargo:rustc-link-lib=static=sendoshi");
}

fn repository_folder() -> PathBuf {
    let package = env::var_os("CARGO_MANIFEST_DIR").expect("cargo names the package's folder");
    PathBuf::from(package).join("../../target/staticlib")
}
