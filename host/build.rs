//! Links the proved library, which `rt` makes from the crate `fallowcart`.

use std::path::PathBuf;

fn main() {
    let host = PathBuf::from(std::env::var_os("CARGO_MANIFEST_DIR").expect("cargo sets it"));
    // `tools/host --native` names another folder.
    let folder = std::env::var_os("FALLOWCART_LIBRARY")
        .map_or_else(|| host.join("../crates/fallowcart/out"), PathBuf::from);
    let archive = folder.join("libfallowcart.a");
    println!("cargo::rerun-if-changed=build.rs");
    println!("cargo::rerun-if-env-changed=FALLOWCART_LIBRARY");
    println!("cargo::rerun-if-changed={}", archive.display());
    if !archive.is_file() {
        println!(
            "cargo::error=the proved library {} is missing: run `rt lib` in crates/fallowcart",
            archive.display()
        );
        return;
    }
    println!("cargo::rustc-link-search=native={}", folder.display());
    println!("cargo::rustc-link-lib=static=fallowcart");
    println!("cargo::rustc-env=FALLOWCART_LIBRARY={}", folder.display());
}
