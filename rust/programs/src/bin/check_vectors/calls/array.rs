//! Conversions with storage formats that saturate: those of an array of one value.

use crate::erased::apfloat_arrays::stored::{Ends, StorageArray};
use crate::erased::apfloat_arrays::{Counts, Extended, number_of};
use crate::erased::rustc_apfloat::{Flags, Round, Status};
use crate::erased::small_formats::saturation::{FiniteNan, Overflow};
use crate::lines::{RowAnswer, SaturateCall, ValueField};

/// What a number that overflows, an infinity and a NaN become.
pub(crate) fn overflow_of(call: SaturateCall) -> Overflow {
    match call {
        SaturateCall::Numbers => Overflow::Saturated,
        SaturateCall::Infinities => Overflow::Finite(FiniteNan::Kept),
        SaturateCall::All => Overflow::Finite(FiniteNan::Largest),
    }
}

/// The columns for the value that these bits become; `width` is that of the target format.
pub(crate) fn in_array(ends: Ends, call: SaturateCall, round: Round, bits: u128, width: usize) -> RowAnswer {
    let array = StorageArray { ends, extended: Extended::Packed, round, overflow: overflow_of(call) };
    let widths = array.widths();
    let input = bits.to_le_bytes();
    let mut room = [0; 16];
    let output = &mut room[..widths.target];
    let counts = array.convert(1, &input[..widths.source], output);
    let value = ValueField::Bits(number_of(output), width);
    RowAnswer::flagged(status_of(counts).and(value))
}

/// The flags that one value raised.
fn status_of(counts: Counts) -> Status {
    let mut status = Status::OK;
    for (count, flag) in [
        (counts.inexact, Status::INEXACT),
        (counts.underflow, Status::UNDERFLOW),
        (counts.overflow, Status::OVERFLOW),
        (counts.invalid, Status::INVALID_OP),
    ] {
        if count > 0 {
            status = status.union(flag);
        }
    }
    status
}
