//! Tells the linker where `tools/library bench` puts the proved functions that are measured.

use std::env;
use std::path::Path;

fn main() {
    let manifest = env::var_os("CARGO_MANIFEST_DIR").expect("cargo sets CARGO_MANIFEST_DIR");
    let folder = Path::new(&manifest).join("../../target/staticlib");
    let library = folder.join("libbench.a");
    println!("cargo::rerun-if-changed={}", library.display());
    if library.exists() {
        println!("cargo::rustc-link-search=native={}", folder.display());
    } else {
        println!(
            "cargo::error=target/staticlib/libbench.a is missing: run `tools/library bench` at the repository's root"
        );
    }
}
