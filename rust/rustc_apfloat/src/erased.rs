//! The library's crates without their contracts, a module each. `build.rs` makes them.
// What only other crates of the repository use is unused here, and so is a parameter that only contracts name.
#![allow(dead_code, unused_imports, unused_macros, unused_variables, clippy::all)]

pub(crate) mod bitflags;

include!(concat!(env!("OUT_DIR"), "/erased.rs"));
