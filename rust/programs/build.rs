//! Erases the crates of the programs into the folder of the build.

#[allow(dead_code)]
#[path = "../erase/lib.rs"]
mod erase;

use std::path::Path;
use std::process::exit;

fn main() {
    // Cargo runs this in the folder of the package.
    let crates = Path::new("../../crates");
    let names: Vec<&str> = [erase::LIBRARY, &["commands"]].concat();
    println!("cargo::rerun-if-changed=../erase");
    println!("cargo::rerun-if-changed=build.rs");
    for name in &names {
        println!("cargo::rerun-if-changed={}", crates.join(name).join("src").display());
    }
    let out = std::env::var("OUT_DIR").unwrap_or_default();
    if let Err(refusal) = erase::erase(crates, &names, Path::new(&out)) {
        println!("cargo::error={refusal}");
        exit(1);
    }
}
