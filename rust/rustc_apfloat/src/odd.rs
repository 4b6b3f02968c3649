//! Rounding to odd, in every format: an inexact result becomes the one of its two neighbours whose last digit is odd.
//! Two more digits than another format then tell all that a rounding to that format has to know. POWER, s390x and Arm
//! have instructions that round so; the crate `rustc_apfloat` has no such rounding.
//!
//! ```
//! use rustc_apfloat::ieee::{Double, Half, HalfS, Single};
//! use rustc_apfloat::{Float, FloatConvert, Round, Status, StatusAnd, odd};
//!
//! // 1 + 2^-11 + 2^-52: just above the middle of 1 and the next half.
//! let x = Double::from_bits(0x3ff0_0200_0000_0001);
//! let truncated: StatusAnd<Single> = x.convert_r(Round::TowardZero, &mut false);
//! let half = odd::round_odd_to::<_, HalfS>(odd::to_odd(truncated, false), Round::NearestTiesToEven);
//! assert_eq!((half.value.to_bits(), half.status), (0x3c01, Status::INEXACT));
//! assert_eq!(odd::to_i128_odd("0x1.4p1".parse::<Half>().unwrap(), 8), Status::INEXACT.and(3));
//! ```

use crate::Round;
use crate::StatusAnd;
use crate::erased::round_to_odd as library;
use crate::ieee::{IeeeFloat, Semantics};

library_calls! {
    /// The answer of a call with `Round::TowardZero`, rounded to odd: the same if it is exact, an infinity or a NaN,
    /// otherwise the one of the two neighbours of the exact result whose last digit is odd. `negative` is the sign of
    /// the exact result. The flags are those of the answer.
    ///
    /// A neighbour past the largest value gives the largest value.
    fn to_odd<S>(answer: StatusAnd<IeeeFloat<S>>, negative: bool) -> StatusAnd<IeeeFloat<S>>;
    /// A result that was rounded to odd in the format `S`, rounded to the format `T`: what one rounding of the nonzero
    /// exact result to `T` gives, in value and flags, if `S` has room for it.
    ///
    /// `S` has room if it has infinities as in IEEE 754, two digits more than `T`, a quantum of at most a quarter of
    /// that of `T` (an eighth, where `T` raises `UNDERFLOW` as IEEE 754 asks and detects tininess after rounding), a
    /// greatest exponent not below that of `T`, and the same rule of flags. Otherwise this is wrong for some results.
    fn round_odd_to<S, T>(first: StatusAnd<IeeeFloat<S>>, round: Round) -> StatusAnd<IeeeFloat<T>>;
    /// The value of an unsigned integer, rounded to odd.
    fn from_u128_odd<S>(input: u128) -> StatusAnd<IeeeFloat<S>>;
    /// The value of a signed integer, rounded to odd.
    fn from_i128_odd<S>(input: i128) -> StatusAnd<IeeeFloat<S>>;
    /// The value as an unsigned integer of `width` binary digits, rounded to odd, with `INEXACT` if it is no integer.
    /// What is out of range gives the nearer end of the range, and a NaN 0, with `INVALID_OP` alone.
    ///
    /// # Panics
    ///
    /// Unless the width is from 1 to 128.
    fn to_u128_odd<S>(x: IeeeFloat<S>, width: usize) -> StatusAnd<u128>
        where (1..=128).contains(&width) => "no integer has this width";
    /// The value as a signed integer of `width` binary digits, rounded to odd, as `to_u128_odd`.
    ///
    /// # Panics
    ///
    /// Unless the width is from 2 to 128.
    fn to_i128_odd<S>(x: IeeeFloat<S>, width: usize) -> StatusAnd<i128>
        where (2..=128).contains(&width) => "no signed integer has this width";
    /// The value rounded to odd to an integral value, with its sign: with `INEXACT` if it is not integral. A NaN is
    /// quieted, with `INVALID_OP` if it was signaling.
    fn round_to_odd_integral<S>(x: IeeeFloat<S>) -> StatusAnd<IeeeFloat<S>>;
}
