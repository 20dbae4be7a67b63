//! Links libleaves.a from the repository's target/native, where `bindings/library leaves` puts it.

fn main() {
    let folder = std::env::var("CARGO_MANIFEST_DIR").expect("cargo names it") + "/../../target/native";
    println!("cargo:rerun-if-changed={folder}/libleaves.a");
    println!("cargo:rustc-link-search=native={folder}");
    println!("cargo:rustc-link-lib=static=leaves");
}
