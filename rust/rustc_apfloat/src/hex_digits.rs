//! Values written in hexadecimal digits, into a buffer of the caller (IEEE 754-2019 5.12.3). The crate `rustc_apfloat`
//! has none of these.
//!
//! ```
//! use rustc_apfloat::ieee::Half;
//! use rustc_apfloat::{Float, Round, Status, hex_digits};
//!
//! let (x, mut buffer) = ("-0x1.8p-1".parse::<Half>().unwrap(), [0; 45]);
//! let length = hex_digits::write_hex(x, &mut buffer).unwrap();
//! assert_eq!(&buffer[..length], b"-0x1.8p-1");
//! let answer = hex_digits::write_hex_rounded(x, 0, Round::TowardZero, &mut buffer).unwrap();
//! assert_eq!((answer.status, &buffer[..answer.value]), (Status::INEXACT, b"-0x1p-1".as_slice()));
//! ```

use crate::Round;
use crate::StatusAnd;
use crate::erased::apfloat_digits::hexadecimal as library;
use crate::ieee::{IeeeFloat, Semantics};
use crate::status::answered;

pub use library::{HexError, MOST_DIGITS};

/// Writes the shortest hexadecimal text of a value to the start of a buffer, exactly, and gives its length; the rest of
/// the buffer stays as it is. A NaN is written without its payload. 45 bytes have room for every text.
///
/// # Errors
///
/// `NoRoom` if the text is longer than the buffer, which then is unchanged.
pub fn write_hex<S: Semantics>(x: IeeeFloat<S>, buffer: &mut [u8]) -> Result<usize, HexError> {
    library::write_hex(x.plain(), buffer)
}

/// How many bytes the text of `write_hex` has, at most 45.
pub fn hex_length<S: Semantics>(x: IeeeFloat<S>) -> usize {
    library::hex_length(x.plain())
}

/// Writes the hexadecimal text of a value, rounded once to `places` digits after the dot, and gives its length with the
/// status of the rounding, `INEXACT` or `OK`.
///
/// # Errors
///
/// `TooManyDigits` if `places` is above `MOST_DIGITS`; `NoRoom` if the text is longer than the buffer. In both cases
/// the buffer is unchanged.
pub fn write_hex_rounded<S: Semantics>(
    x: IeeeFloat<S>,
    places: u32,
    round: Round,
    buffer: &mut [u8],
) -> Result<StatusAnd<usize>, HexError> {
    library::write_hex_rounded(x.plain(), places, round, buffer).map(answered)
}

/// Writes a value as `write_hex` does, but a NaN with its payload, as `nan0x2a`.
///
/// # Errors
///
/// `NoRoom` if the text is longer than the buffer, which then is unchanged.
///
/// # Panics
///
/// In a format without bits.
pub fn write_hex_with_payload<S: Semantics>(x: IeeeFloat<S>, buffer: &mut [u8]) -> Result<usize, HexError> {
    assert!(S::BITS > S::PRECISION, "a format without bits");
    library::write_hex_with_payload(x.plain(), buffer)
}

/// How many bytes the text of `write_hex_with_payload` has, at most 45.
///
/// # Panics
///
/// In a format without bits.
pub fn hex_length_with_payload<S: Semantics>(x: IeeeFloat<S>) -> usize {
    assert!(S::BITS > S::PRECISION, "a format without bits");
    library::hex_length_with_payload(x.plain())
}
