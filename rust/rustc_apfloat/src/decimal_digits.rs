//! Values written in decimal digits, any number of them, into a buffer of the caller (IEEE 754-2019 5.12.2). The crate
//! `rustc_apfloat` has none of these.
//!
//! In a format with exponents past those of [`Quad`](crate::ieee::Quad), which only a user declares, these calls do not
//! compile.
//!
//! ```
//! use rustc_apfloat::decimal_digits::{Written, digit_count, write_digits};
//! use rustc_apfloat::ieee::Double;
//! use rustc_apfloat::{Category, Float, Round, Status};
//!
//! let tenth: Double = "0.1".parse().unwrap();
//! let mut digits = [0; 55];
//! assert_eq!(digit_count(tenth), Some(55));
//! // The first digit has the exponent -1 of ten.
//! assert_eq!(write_digits(tenth, Round::TowardZero, &mut digits), Written::Digits(Status::OK.and(-1)));
//! assert_eq!(&digits, b"1000000000000000055511151231257827021181583404541015625");
//!
//! let upward = write_digits(tenth, Round::TowardPositive, &mut digits[..18]);
//! assert_eq!((upward, &digits[..18]), (Written::Digits(Status::INEXACT.and(-1)), b"100000000000000006".as_slice()));
//! assert_eq!(write_digits(Double::ZERO, Round::TowardZero, &mut digits), Written::WithoutDigits(Category::Zero));
//! assert_eq!(write_digits(tenth, Round::TowardZero, &mut []), Written::NoRoom);
//! ```

use crate::erased::apfloat_digits::decimal as library;
use crate::ieee::{IeeeFloat, Semantics};
use crate::status::answered;
use crate::{Category, ExpInt, Round, StatusAnd};

/// What `write_digits` has written.
#[must_use]
#[derive(Clone, Copy, PartialEq, Eq, Debug)]
pub enum Written {
    /// The digits: the exponent of ten of the first one, with the status of the rounding, `INEXACT` or `OK`.
    Digits(StatusAnd<ExpInt>),
    /// Nothing: a zero, an infinity or a NaN has no first digit.
    WithoutDigits(Category),
    /// Nothing: the buffer has no room for a digit.
    NoRoom,
}

/// Writes the digits of a value, rounded once to as many as the buffer has room for.
///
/// The digits are ASCII, the first of them is not 0, and zeros at the end are written too, so that the buffer is full.
/// With the returned exponent E of ten of the first digit, the number is `d.ddd.. * 10^E`; its sign is that of the
/// value. The status is `INEXACT` if the number is not the value, otherwise `OK`. Zeros, infinities and NaNs leave the
/// buffer as it is.
pub fn write_digits<S: Semantics>(x: IeeeFloat<S>, round: Round, digits: &mut [u8]) -> Written {
    match library::write_digits(x.written(), round, digits) {
        library::Written::Digits(answer) => Written::Digits(answered(answer)),
        library::Written::WithoutDigits(category) => Written::WithoutDigits(category),
        library::Written::NoRoom => Written::NoRoom,
    }
}

/// How many decimal digits a value has, from its first one to its last one that is not 0: `write_digits` writes that
/// many without rounding. It is at most 767 for `Double` and 11,563 for `Quad`; zeros, infinities and NaNs have none.
pub fn digit_count<S: Semantics>(x: IeeeFloat<S>) -> Option<u32> {
    library::digit_count(x.written())
}
