//! Links libtamburelvi.a, which `bindings/library` writes. TAMBURELVI_LIB names another folder for it.

use std::path::PathBuf;

fn main() {
    println!("cargo::rerun-if-env-changed=TAMBURELVI_LIB");
    let beside =
        PathBuf::from(std::env::var("CARGO_MANIFEST_DIR").unwrap()).join("../../crates/tamburelvi/out");
    let folder = std::env::var("TAMBURELVI_LIB").map_or(beside, PathBuf::from);
    let library = folder.join("libtamburelvi.a");
    println!("cargo::rerun-if-changed={}", library.display());
    if library.exists() {
        println!("cargo::rustc-link-search=native={}", folder.display());
        println!("cargo::rustc-link-lib=static=tamburelvi");
    } else {
        println!(
            "cargo::error={} is missing: run `bindings/library` in the root of the repository, or name its folder by TAMBURELVI_LIB",
            library.display()
        );
    }
}
