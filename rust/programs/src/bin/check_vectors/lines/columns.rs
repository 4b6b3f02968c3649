//! What the lines of all programs have in common.

use crate::lines::text::Text;
use crate::lines::widths::mask;

/// A result and its flags, as numbers.
#[derive(Clone, Copy)]
pub struct Columns {
    /// The bits of a value, or of an integer in two's complement.
    pub result: u128,
    /// The flags: 1 for inexact, 2 for underflow, 4 for overflow, 8 for a division by zero, 16 for an invalid
    /// operation.
    pub flags: u128,
}

/// A call, in the words of a row.
#[derive(Clone, Copy)]
pub struct LineCall {
    /// The name of the call.
    pub name: &'static str,
    /// The format, or `SOURCE>TARGET` of a conversion.
    pub format: Text,
    /// The rounding mode, or `-` for a call without one.
    pub mode: &'static str,
    /// The operands, separated by single spaces.
    pub operands: Text,
}

/// Whether bits encode a NaN, in a format of this width whose positive infinity is encoded as `infinity`.
pub fn is_nan(bits: u128, width: usize, infinity: u128) -> bool {
    bits & (mask(width) >> 1) > infinity
}
