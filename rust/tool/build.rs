//! Tells the linker where the proved static library stands.

use std::env;
use std::path::{Path, PathBuf};
use std::process::exit;

fn main() {
    println!("cargo:rerun-if-changed=build.rs");
    println!("cargo:rerun-if-env-changed=FLORUMEJA_LIB");
    let folder = folder();
    let library = folder.join("libflorumeja.a");
    if !library.exists() {
        let library = library.display();
        eprintln!(
            "there is no {library}; './florumeja --version' at the repository's root makes it"
        );
        exit(1);
    }
    println!("cargo:rustc-link-search=native={}", folder.display());
    println!("cargo:rustc-link-lib=static=florumeja");
    // A newly proved library has to be linked again.
    println!("cargo:rerun-if-changed={}", library.display());
}

// The repository's own library, or the one in the folder that FLORUMEJA_LIB names.
fn folder() -> PathBuf {
    match env::var_os("FLORUMEJA_LIB") {
        Some(folder) => folder.into(),
        None => Path::new(env!("CARGO_MANIFEST_DIR")).join("../../target/staticlib"),
    }
}
