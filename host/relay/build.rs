//! Tells the linker where the proved library is: in the folder that RELAY_LIB_DIR names, or else where
//! `make library` puts it.

use std::env;
use std::path::PathBuf;

const FOLDER_VARIABLE: &str = "RELAY_LIB_DIR";
const LIBRARY: &str = "librelay.a";

fn main() {
    println!("cargo::rerun-if-env-changed={FOLDER_VARIABLE}");
    match folder() {
        Ok(folder) => println!("cargo::rustc-link-search=native={}", folder.display()),
        Err(message) => println!("cargo::error={message}"),
    }
}

/// The folder that holds the library, or what a user is to do about it.
fn folder() -> Result<PathBuf, String> {
    let named = env::var_os(FOLDER_VARIABLE).map(PathBuf::from);
    // A relative path would be taken from this package's folder, and not from the user's.
    if let Some(folder) = named.as_ref().filter(|folder| !folder.is_absolute()) {
        let folder = folder.display();
        return Err(format!(
            "{FOLDER_VARIABLE} is to be an absolute path, not {folder:?}"
        ));
    }
    let is_named = named.is_some();
    let folder = named.unwrap_or_else(built_here);
    let library = folder.join(LIBRARY);
    println!("cargo::rerun-if-changed={}", library.display());
    if library.exists() {
        Ok(folder)
    } else if is_named {
        Err(format!(
            "{FOLDER_VARIABLE} names {}, which has no {LIBRARY}",
            folder.display()
        ))
    } else {
        Err(format!(
            "target/staticlib/{LIBRARY} is missing: run `make library` at the repository's root, \
             or set {FOLDER_VARIABLE} to the folder that has it"
        ))
    }
}

fn built_here() -> PathBuf {
    let manifest = env::var_os("CARGO_MANIFEST_DIR").expect("cargo sets CARGO_MANIFEST_DIR");
    PathBuf::from(manifest).join("../../target/staticlib")
}
