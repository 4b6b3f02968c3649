//! Operations of IEEE 754-2019 that `Float` lacks, in every format: the 22 comparison predicates with their flags
//! (5.6.1, 5.11), the total order (5.10), the ten classes and other operations on one value (5.7.2), operations on
//! flags (5.7.4), minima and maxima with their flags (9.6), logB (5.3.3), and conversions to integers and to integral
//! values with INEXACT and without it (5.8, 5.9). The crate `rustc_apfloat` has none of these.
//!
//! ```
//! use rustc_apfloat::ieee::Half;
//! use rustc_apfloat::{Float, Round, Status, comparisons};
//!
//! let (one, nan) = (Half::from_u128(1).value, Half::NAN);
//! assert_eq!(comparisons::compare_quiet_less(one, nan), Status::OK.and(false));
//! assert_eq!(comparisons::compare_signaling_less(one, nan), Status::INVALID_OP.and(false));
//! assert!(comparisons::total_order(one, nan));
//! assert_eq!(comparisons::class_of(-Half::SMALLEST), comparisons::Class::NegativeSubnormal);
//! assert_eq!(comparisons::minimum_number_of(one, nan), Status::OK.and(one));
//! assert_eq!(comparisons::log_b(Half::ZERO, Round::TowardZero).status, Status::DIV_BY_ZERO);
//!
//! let almost_two: Half = "0x1.ffcp0".parse().unwrap();
//! let up = Round::TowardPositive;
//! assert_eq!(comparisons::convert_to_signed(almost_two, 8, up), Status::OK.and(2));
//! assert_eq!(comparisons::convert_to_signed_exact(almost_two, 8, up), Status::INEXACT.and(2));
//! ```

use crate::erased::ieee_operations as library;
use crate::ieee::{IeeeFloat, Semantics};
use crate::{ExpInt, Round, Status, StatusAnd};
use core::cmp::Ordering;

pub use library::{Class, Extremum, OnNan, Predicate, Relations};
pub use library::{is_754_version_1985, is_754_version_2008, is_754_version_2019};

same_types! { Class, Extremum, OnNan, Predicate }

library_calls! {
    /// Whether a predicate holds of two values. `INVALID_OP` is raised as `on_nan` says, and no other flag.
    fn compare<S>(predicate: Predicate, on_nan: OnNan, x: IeeeFloat<S>, y: IeeeFloat<S>) -> StatusAnd<bool>;
    /// Whether a predicate holds of the exact values of two operands, which may have different formats.
    fn compare_between<S, T>(predicate: Predicate, on_nan: OnNan, x: IeeeFloat<S>, y: IeeeFloat<T>)
        -> StatusAnd<bool>;
    /// The order of the exact values of two operands, which may have different formats; none if one is a NaN.
    fn relation_between<S, T>(x: IeeeFloat<S>, y: IeeeFloat<T>) -> Option<Ordering>;
}

/// Predicates of two values of a format, by the names of the standard.
macro_rules! predicates {
    ($($flag:literal: $($name:ident $standard:literal $holds:literal;)*)*) => { library_calls! {$($(
        #[doc = concat!($standard, ": whether ", $holds, ". `INVALID_OP` is raised exactly if a value is ", $flag, ".")]
        fn $name<S>(x: IeeeFloat<S>, y: IeeeFloat<S>) -> StatusAnd<bool>;
    )*)*} };
}

predicates! {
    "a signaling NaN":
    compare_quiet_equal "compareQuietEqual (table 5.1)" "the values are equal";
    compare_quiet_not_equal "compareQuietNotEqual (table 5.1)" "the values are not equal; a NaN equals nothing";
    compare_quiet_greater "compareQuietGreater (table 5.3)" "the left value is greater";
    compare_quiet_greater_equal "compareQuietGreaterEqual (table 5.3)" "the left value is greater or equal";
    compare_quiet_less "compareQuietLess (table 5.3)" "the left value is less";
    compare_quiet_less_equal "compareQuietLessEqual (table 5.3)" "the left value is less or equal";
    compare_quiet_unordered "compareQuietUnordered (table 5.3)" "a value is a NaN";
    compare_quiet_ordered "compareQuietOrdered (table 5.3)" "neither value is a NaN";
    compare_quiet_not_greater "compareQuietNotGreater (table 5.3)" "the left value is not greater";
    compare_quiet_less_unordered "compareQuietLessUnordered (table 5.3)" "the left value is less, or a value is a NaN";
    compare_quiet_not_less "compareQuietNotLess (table 5.3)" "the left value is not less";
    compare_quiet_greater_unordered "compareQuietGreaterUnordered (table 5.3)"
        "the left value is greater, or a value is a NaN";
    "a NaN":
    compare_signaling_equal "compareSignalingEqual (table 5.1)" "the values are equal";
    compare_signaling_not_equal "compareSignalingNotEqual (table 5.1)" "the values are not equal; a NaN equals nothing";
    compare_signaling_greater "compareSignalingGreater (table 5.2)" "the left value is greater";
    compare_signaling_greater_equal "compareSignalingGreaterEqual (table 5.2)" "the left value is greater or equal";
    compare_signaling_less "compareSignalingLess (table 5.2)" "the left value is less";
    compare_signaling_less_equal "compareSignalingLessEqual (table 5.2)" "the left value is less or equal";
    compare_signaling_not_greater "compareSignalingNotGreater (table 5.2)" "the left value is not greater";
    compare_signaling_less_unordered "compareSignalingLessUnordered (table 5.2)"
        "the left value is less, or a value is a NaN";
    compare_signaling_not_less "compareSignalingNotLess (table 5.2)" "the left value is not less";
    compare_signaling_greater_unordered "compareSignalingGreaterUnordered (table 5.2)"
        "the left value is greater, or a value is a NaN";
}

library_calls! {
    /// totalOrder (5.10): whether `x` is at or below `y` in the total order of the format's values, with NaNs at its
    /// ends, by sign, a quiet one outside a signaling one, and then by payload; -0 is below +0. No flag is raised.
    ///
    /// # Panics
    ///
    /// In a format without bits.
    fn total_order<S>(x: IeeeFloat<S>, y: IeeeFloat<S>) -> bool
        where S::BITS > S::PRECISION => "a format without bits";
    /// totalOrderMag (5.10): `total_order` of the values without their signs.
    ///
    /// # Panics
    ///
    /// In a format without bits.
    fn total_order_mag<S>(x: IeeeFloat<S>, y: IeeeFloat<S>) -> bool
        where S::BITS > S::PRECISION => "a format without bits";
    /// The order of two values in the total order, for sorting. `Equal` only if they are the same.
    ///
    /// # Panics
    ///
    /// In a format without bits.
    fn total_cmp<S>(x: IeeeFloat<S>, y: IeeeFloat<S>) -> Ordering
        where S::BITS > S::PRECISION => "a format without bits";

    /// The class of a value (5.7.2, class). No flag is raised, not even for a signaling NaN.
    fn class_of<S>(x: IeeeFloat<S>) -> Class;
    /// The radix of the value's format (5.7.2, radix), which is 2.
    fn radix<S>(x: IeeeFloat<S>) -> u32;
    /// Whether the value is canonical (5.7.2, isCanonical), as every value is. `is_canonical_encoding` is about bits.
    fn is_canonical<S>(x: IeeeFloat<S>) -> bool;
    /// Whether these bits are the canonical encoding of the value that `from_bits` reads from them (5.7.2,
    /// isCanonical). In formats without an explicit integer bit, all bits below 2^BITS are.
    ///
    /// # Panics
    ///
    /// In a format without bits.
    fn is_canonical_encoding<S>(bits: u128) -> bool where S::BITS > S::PRECISION => "a format without bits";

    /// The flags with those of the group lowered (5.7.4, lowerFlags).
    fn lower_flags<>(flags: Status, group: Status) -> Status;
    /// The flags with those of the group raised (5.7.4, raiseFlags).
    fn raise_flags<>(flags: Status, group: Status) -> Status;
    /// Whether any flag of the group is raised (5.7.4, testFlags).
    fn test_flags<>(flags: Status, group: Status) -> bool;
    /// All flags, to be restored later (5.7.4, saveAllFlags).
    fn save_all_flags<>(flags: Status) -> Status;
    /// Whether any flag of the group is raised among saved flags (5.7.4, testSavedFlags).
    fn test_saved_flags<>(saved: Status, group: Status) -> bool;
    /// The flags, with each flag of the group as it was saved (5.7.4, restoreFlags).
    fn restore_flags<>(flags: Status, saved: Status, group: Status) -> Status;

    /// The extremum of two values, or a quiet NaN if one is a NaN (9.6): the left one quieted if both are. `INVALID_OP`
    /// is raised exactly if a value is a signaling NaN.
    fn extremum_of<S>(which: Extremum, x: IeeeFloat<S>, y: IeeeFloat<S>) -> StatusAnd<IeeeFloat<S>>;
    /// The extremum of two values, or the number if the other value is a NaN, even a signaling one (9.6); of two NaNs
    /// the left one quieted. `INVALID_OP` is raised exactly if a value is a signaling NaN.
    fn extremum_number_of<S>(which: Extremum, x: IeeeFloat<S>, y: IeeeFloat<S>) -> StatusAnd<IeeeFloat<S>>;
    /// minimum (9.6): the lesser value, as `extremum_of`.
    fn minimum_of<S>(x: IeeeFloat<S>, y: IeeeFloat<S>) -> StatusAnd<IeeeFloat<S>>;
    /// maximum (9.6): the greater value, as `extremum_of`.
    fn maximum_of<S>(x: IeeeFloat<S>, y: IeeeFloat<S>) -> StatusAnd<IeeeFloat<S>>;
    /// minimumMagnitude (9.6): the value of lesser magnitude, as `extremum_of`.
    fn minimum_magnitude_of<S>(x: IeeeFloat<S>, y: IeeeFloat<S>) -> StatusAnd<IeeeFloat<S>>;
    /// maximumMagnitude (9.6): the value of greater magnitude, as `extremum_of`.
    fn maximum_magnitude_of<S>(x: IeeeFloat<S>, y: IeeeFloat<S>) -> StatusAnd<IeeeFloat<S>>;
    /// minimumNumber (9.6): the lesser value, as `extremum_number_of`.
    fn minimum_number_of<S>(x: IeeeFloat<S>, y: IeeeFloat<S>) -> StatusAnd<IeeeFloat<S>>;
    /// maximumNumber (9.6): the greater value, as `extremum_number_of`.
    fn maximum_number_of<S>(x: IeeeFloat<S>, y: IeeeFloat<S>) -> StatusAnd<IeeeFloat<S>>;
    /// minimumMagnitudeNumber (9.6): the value of lesser magnitude, as `extremum_number_of`.
    fn minimum_magnitude_number_of<S>(x: IeeeFloat<S>, y: IeeeFloat<S>) -> StatusAnd<IeeeFloat<S>>;
    /// maximumMagnitudeNumber (9.6): the value of greater magnitude, as `extremum_number_of`.
    fn maximum_magnitude_number_of<S>(x: IeeeFloat<S>, y: IeeeFloat<S>) -> StatusAnd<IeeeFloat<S>>;

    /// logB (5.3.3): the exponent of the highest digit as a value of the format, rounded once. Of an infinity it is
    /// positive infinity, of a zero negative infinity with `DIV_BY_ZERO`; a NaN is quieted, with `INVALID_OP` if it was
    /// signaling.
    fn log_b<S>(x: IeeeFloat<S>, round: Round) -> StatusAnd<IeeeFloat<S>>;
    /// logB (5.3.3) as an integer: `ilogb`, with `INVALID_OP` exactly for zeros, infinities and NaNs.
    fn integer_log_b<S>(x: IeeeFloat<S>) -> StatusAnd<ExpInt>;

    /// The value rounded to an integral value (5.9, roundToIntegralTiesToEven and so on, by the mode), without
    /// `INEXACT`. A NaN is quieted, with `INVALID_OP` if it was signaling.
    fn round_to_integral_in<S>(x: IeeeFloat<S>, round: Round) -> StatusAnd<IeeeFloat<S>>;
    /// The value as a signed integer of `width` binary digits (5.8, convertToIntegerTiesToEven and so on, by the mode),
    /// without `INEXACT`. `INVALID_OP` is raised exactly if there is none: the result is the nearer end of the range,
    /// or 0 for a NaN.
    ///
    /// # Panics
    ///
    /// Unless the width is from 2 to 128.
    fn convert_to_signed<S>(x: IeeeFloat<S>, width: usize, round: Round) -> StatusAnd<i128>
        where (2..=128).contains(&width) => "no signed integer has this width";
    /// As `convert_to_signed`, but `INEXACT` is raised if the value is in range and no integer (5.8,
    /// convertToIntegerExactTiesToEven and so on).
    ///
    /// # Panics
    ///
    /// Unless the width is from 2 to 128.
    fn convert_to_signed_exact<S>(x: IeeeFloat<S>, width: usize, round: Round) -> StatusAnd<i128>
        where (2..=128).contains(&width) => "no signed integer has this width";
    /// The value as an unsigned integer of `width` binary digits, as `convert_to_signed`.
    ///
    /// # Panics
    ///
    /// Unless the width is from 1 to 128.
    fn convert_to_unsigned<S>(x: IeeeFloat<S>, width: usize, round: Round) -> StatusAnd<u128>
        where (1..=128).contains(&width) => "no integer has this width";
    /// The value as an unsigned integer of `width` binary digits, as `convert_to_signed_exact`.
    ///
    /// # Panics
    ///
    /// Unless the width is from 1 to 128.
    fn convert_to_unsigned_exact<S>(x: IeeeFloat<S>, width: usize, round: Round) -> StatusAnd<u128>
        where (1..=128).contains(&width) => "no integer has this width";
}
