//! Links the proved library, and the C side of the libm4ri measurement where it was built.

use std::env;

/// Links a static library from the folder that an environment variable names.
fn link(folder_variable: &str, library: &str) {
    println!("cargo:rerun-if-env-changed={folder_variable}");
    let folder = env::var(folder_variable)
        .unwrap_or_else(|_| panic!("{folder_variable} has to name the folder of lib{library}.a"));
    println!("cargo:rerun-if-changed={folder}/lib{library}.a");
    println!("cargo:rustc-link-search=native={folder}");
    println!("cargo:rustc-link-lib=static={library}");
}

fn main() {
    link("FLORUMEJA_LIB", "florumeja");
    if env::var_os("CARGO_FEATURE_M4RI").is_some() {
        link("ECHELON_LIB", "echelon");
        println!("cargo:rustc-link-lib=dylib=m4ri");
    }
}
