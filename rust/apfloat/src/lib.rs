//! The library for C programs, declared in `include/apfloat.h`: the text of a proved library, with its contracts left
//! out. `docs/C.md` says how it differs from the proved one, and what is trusted in each.
#![cfg_attr(not(debug_assertions), no_std)]
#![deny(unsafe_code)]

mod erased;
mod from_c;
