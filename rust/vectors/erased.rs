//! The crates that the program is made of, without their contracts, a module each. The build script makes them.
// What only other crates of the repository use is unused here, and so is a parameter that only contracts name.
#![allow(dead_code, unused_imports, unused_macros, unused_variables, clippy::all)]

#[path = "../rustc_apfloat/src/erased/bitflags.rs"]
mod bitflags;

include!(concat!(env!("OUT_DIR"), "/vectors/erased.rs"));
