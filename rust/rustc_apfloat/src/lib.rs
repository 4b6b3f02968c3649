//! Software floating point: arithmetic in the binary formats of compilers and processors, correctly rounded, in whole
//! numbers alone.
//!
//! The interface is that of the crate `rustc_apfloat` 0.2.3. The arithmetic is the text of a library that is proved
//! against a mathematical model, with its contracts left out; `docs/RUST.md` of the repository says how it is made,
//! what differs from that crate, and what is trusted.
//!
//! ```
//! use rustc_apfloat::ieee::Double;
//! use rustc_apfloat::{Float, Round, Status};
//!
//! let third = Double::from_u128(1).value.div_r(Double::from_u128(3).value, Round::TowardPositive);
//! assert_eq!(third.status, Status::INEXACT);
//! assert_eq!(third.value.to_bits(), 0x3fd5_5555_5555_5556);
//! assert_eq!(third.value.to_string(), "0.33333333333333337");
//! ```
#![no_std]
#![forbid(unsafe_code)]
#![warn(missing_docs)]

extern crate alloc;

#[macro_use]
mod calls;
#[macro_use]
mod copied;
#[macro_use]
mod float;

mod composed;
mod digits;
mod doubles;
mod erased;
mod far;
mod law;
#[cfg(test)]
mod layers;
mod status;
mod widths;

pub mod ieee;
pub mod ppc;

// Beyond the crate `rustc_apfloat`: traits that are imported by name, and a module for each crate of the library.
pub mod arrays;
pub mod augmented;
pub mod blocks;
pub mod comparisons;
pub mod conversion_modes;
pub mod decimal_digits;
pub mod format_of;
pub mod hex_digits;
pub mod machines;
pub mod more;
pub mod odd;
pub mod p3109;
pub mod reductions;
pub mod run_time;
pub mod storage_formats;

pub use erased::apfloat_decimals::{Decimal, DecimalError};
pub use erased::apfloat_model::{Category, ExpInt, IEK_INF, IEK_NAN, IEK_ZERO, ParseError, Round};
pub use float::{Float, FloatConvert};
pub use status::{Status, StatusAnd};
