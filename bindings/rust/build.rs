//! Links libinp.a from the folder that INP_LIB_DIR names, or from the repository's target/native, where `bindings/library
//! inp` puts it.

use std::env::var_os;
use std::path::{Path, PathBuf};

fn main() {
    println!("cargo:rerun-if-env-changed=INP_LIB_DIR");
    let folder = var_os("INP_LIB_DIR").map_or_else(usual_folder, PathBuf::from);
    let library = folder.join("libinp.a");
    println!("cargo:rerun-if-changed={}", library.display());
    if !library.is_file() {
        println!("cargo:warning={} is not there: bindings/library inp makes it", library.display());
    }
    println!("cargo:rustc-link-search=native={}", folder.display());
    println!("cargo:rustc-link-lib=static=inp");
}

fn usual_folder() -> PathBuf {
    Path::new(&var_os("CARGO_MANIFEST_DIR").expect("cargo names it")).join("../../target/native")
}
