//! Erases the crates of the library into the folder of the build, and into a folder there those of the program `vectors`.

#[allow(dead_code)]
#[path = "../erase/lib.rs"]
mod erase;

use erase::{LIBRARY, VECTORS};
use std::path::Path;
use std::process::exit;

fn main() {
    // The folder of the package, in which cargo runs this.
    let crates = Path::new("crates");
    let out = std::env::var("OUT_DIR").unwrap_or_default();
    println!("cargo::rerun-if-changed=rust/erase");
    println!("cargo::rerun-if-changed=rust/rustc_apfloat/build.rs");
    let of_vectors = VECTORS.concat();
    for name in LIBRARY.iter().chain(&of_vectors) {
        println!("cargo::rerun-if-changed={}", crates.join(name).join("src").display());
    }
    let vectors = Path::new(&out).join("vectors");
    let erased =
        erase::erase(crates, LIBRARY, Path::new(&out)).and_then(|()| erase::erase(crates, &of_vectors, &vectors));
    if let Err(refusal) = erased {
        println!("cargo::error={refusal}");
        exit(1);
    }
}
