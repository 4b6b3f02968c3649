//! Erases the crates of the library for C into the folder of the build.

#[allow(dead_code)]
#[path = "../erase/lib.rs"]
mod erase;

use std::path::Path;
use std::process::exit;

fn main() {
    // Cargo runs this in the folder of the package.
    let crates = Path::new("../../crates");
    let names: Vec<&str> = erase::LIBRARY.iter().chain(erase::FOR_C).copied().collect();
    println!("cargo::rerun-if-changed=../erase");
    println!("cargo::rerun-if-changed=build.rs");
    for name in &names {
        println!("cargo::rerun-if-changed={}", crates.join(name).join("src").display());
    }
    if let Err(refusal) = erase::erase(crates, &names, Path::new(&variable("OUT_DIR"))) {
        println!("cargo::error={refusal}");
        exit(1);
    }
    // A program that is linked with the shared library asks for this name when it runs.
    if variable("CARGO_CFG_TARGET_FAMILY") == "unix" && variable("CARGO_CFG_TARGET_VENDOR") != "apple" {
        let major = variable("CARGO_PKG_VERSION_MAJOR");
        println!("cargo::rustc-cdylib-link-arg=-Wl,-soname,libapfloat.so.{major}");
    }
}

fn variable(name: &str) -> String {
    std::env::var(name).unwrap_or_default()
}
