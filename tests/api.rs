//! The items of the crate `rustc_apfloat` 0.2.3 are here, with its types and traits: what compiles there, compiles.

use rustc_apfloat::ieee::*;
use rustc_apfloat::ppc::{DoubleDouble, DoubleFloat, FallbackExtendedS, FallbackS};
use rustc_apfloat::{Category, ExpInt, Float, FloatConvert, IEK_INF, IEK_NAN, IEK_ZERO, ParseError};
use rustc_apfloat::{Round, Status, StatusAnd};
use std::cmp::Ordering;
use std::fmt::{Binary, Debug, Display, LowerHex, Octal, UpperHex};
use std::ops::*;
use std::str::FromStr;

/// That a type has traits.
macro_rules! has {
    ($($type:ty: [$($bound:tt)+];)*) => {$({
        fn has<T: $($bound)+>() {}
        has::<$type>();
    })*};
}

#[test]
fn traits() {
    trait Kind: Copy + Clone + PartialEq + Eq + Debug + Send + Sync {}
    impl<T: Copy + Clone + PartialEq + Eq + Debug + Send + Sync> Kind for T {}
    has! {
        Category: [Kind];
        Round: [Kind + Neg<Output = Round>];
        ParseError: [Kind];
        NonfiniteBehavior: [Copy + Clone + PartialEq + Eq];
        Status: [Kind + PartialOrd + Ord + Binary + Octal + LowerHex + UpperHex];
        Status: [BitOr<Output = Status> + BitAnd<Output = Status> + BitXor<Output = Status> + Sub<Output = Status>];
        Status: [BitOrAssign + BitAndAssign + BitXorAssign + SubAssign + Not<Output = Status>];
        Status: [Extend<Status> + FromIterator<Status> + IntoIterator<Item = Status>];
        StatusAnd<u8>: [Kind + PartialOrd + Ord];
    }
}

fn type_of_float<F>()
where
    F: Float + Copy + Default + FromStr<Err = ParseError> + PartialEq + PartialOrd + Display + Debug + Send + Sync,
    F: Neg<Output = F> + Add<Output = StatusAnd<F>> + Sub<Output = StatusAnd<F>> + Mul<Output = StatusAnd<F>>,
    F: Div<Output = StatusAnd<F>> + Rem<Output = StatusAnd<F>>,
    F: AddAssign + SubAssign + MulAssign + DivAssign + RemAssign,
{
}

#[test]
fn types() {
    macro_rules! types_of_floats {
        ($($type:ty)*) => { $(type_of_float::<$type>();)* };
    }
    types_of_floats! { Half Single Double Quad BFloat Float8E5M2 Float8E4M3FN X87DoubleExtended }
    types_of_floats! { DoubleDouble DoubleFloat<Single> }
    has! {
        IeeeFloat<HalfS>: [FloatConvert<IeeeFloat<QuadS>> + FloatConvert<Half>];
        Double: [FloatConvert<IeeeFloat<FallbackS<Double>>> + FloatConvert<IeeeFloat<FallbackExtendedS<Double>>>];
        DoubleDouble: [From<IeeeFloat<FallbackS<Double>>>];
        IeeeFloat<FallbackS<Double>>: [From<DoubleDouble>];
    }
    let _: [ExpInt; 3] = [IEK_INF, IEK_NAN, IEK_ZERO];
    let ParseError(text) = "".parse::<Half>().unwrap_err();
    assert_eq!(text, "Invalid string length");
}

/// The methods of `Float`, with their types.
fn methods<F: Float>() {
    type Binary<F> = fn(F, F, Round) -> StatusAnd<F>;
    type Exact<F> = fn(F, F) -> StatusAnd<F>;
    type Unary<F> = fn(F) -> StatusAnd<F>;
    type Chosen<F> = fn(F, F) -> F;
    type Question<F> = fn(F) -> bool;
    let _: [Binary<F>; 4] = [F::add_r, F::sub_r, F::mul_r, F::div_r];
    let _: fn(F, F, F, Round) -> StatusAnd<F> = F::mul_add_r;
    let _: fn(F, F, F) -> StatusAnd<F> = F::mul_add;
    let _: [Exact<F>; 2] = [F::ieee_rem, F::c_fmod];
    let _: fn(F, Round) -> StatusAnd<F> = F::round_to_integral;
    let _: [Unary<F>; 2] = [F::next_up, F::next_down];
    let _: fn(F) -> F = F::abs;
    let _: [Chosen<F>; 5] = [F::copy_sign, F::min, F::max, F::minimum, F::maximum];
    let _: [fn(Option<u128>) -> F; 2] = [F::qnan, F::snan];
    let _: [fn() -> F; 2] = [F::largest, F::smallest_normalized];
    let _: fn(u128) -> F = F::from_bits;
    let _: fn(F) -> u128 = F::to_bits;
    let _: (fn(i128, Round) -> StatusAnd<F>, fn(i128) -> StatusAnd<F>) = (F::from_i128_r, F::from_i128);
    let _: (fn(u128, Round) -> StatusAnd<F>, fn(u128) -> StatusAnd<F>) = (F::from_u128_r, F::from_u128);
    let _: fn(&str, Round) -> Result<StatusAnd<F>, ParseError> = F::from_str_r;
    let _: fn(F, usize, Round, &mut bool) -> StatusAnd<i128> = F::to_i128_r;
    let _: fn(F, usize, Round, &mut bool) -> StatusAnd<u128> = F::to_u128_r;
    let _: (fn(F, usize) -> StatusAnd<i128>, fn(F, usize) -> StatusAnd<u128>) = (F::to_i128, F::to_u128);
    let _: (fn(F, F) -> Ordering, fn(F, F) -> bool) = (F::cmp_abs_normal, F::bitwise_eq);
    let _: [Question<F>; 8] = [
        F::is_negative,
        F::is_normal,
        F::is_finite,
        F::is_zero,
        F::is_denormal,
        F::is_infinite,
        F::is_nan,
        F::is_signaling,
    ];
    let _: [Question<F>; 6] =
        [F::is_non_zero, F::is_finite_non_zero, F::is_pos_zero, F::is_neg_zero, F::is_pos_infinity, F::is_neg_infinity];
    let _: [Question<F>; 4] = [F::is_smallest, F::is_smallest_normalized, F::is_largest, F::is_integer];
    let _: (fn(F) -> Category, fn(F) -> Option<F>, fn(F) -> ExpInt) = (F::category, F::get_exact_inverse, F::ilogb);
    let _: (fn(F, ExpInt, Round) -> F, fn(F, ExpInt) -> F) = (F::scalbn_r, F::scalbn);
    let _: (fn(F, &mut ExpInt, Round) -> F, fn(F, &mut ExpInt) -> F) = (F::frexp_r, F::frexp);
    let _: (usize, usize, ExpInt, ExpInt) = (F::BITS, F::PRECISION, F::MAX_EXP, F::MIN_EXP);
    let _: [F; 4] = [F::ZERO, F::INFINITY, F::NAN, F::SMALLEST];
}

#[test]
fn methods_of_float() {
    methods::<Single>();
    methods::<DoubleDouble>();
    let _: fn(Half, Round, &mut bool) -> StatusAnd<Quad> = FloatConvert::convert_r;
    let _: fn(Half, &mut bool) -> StatusAnd<Quad> = FloatConvert::convert;
    let _: (fn(u128) -> Half, fn(Half) -> u128) = (HalfS::from_bits, HalfS::to_bits);
}

/// The constants of a format, and their defaults.
#[test]
fn constants_of_formats() {
    fn all<S: Semantics>() -> (usize, usize, usize, [ExpInt; 4], [u128; 3]) {
        let exponents = [S::MAX_EXP, S::IEEE_MAX_EXP, S::MIN_EXP, S::IEEE_MIN_EXP];
        let nans = [S::NAN_SIGNIFICAND_BASE, S::NAN_PAYLOAD_MASK, S::QNAN_SIGNIFICAND];
        (S::BITS, S::EXP_BITS, S::PRECISION, exponents, nans)
    }
    assert_eq!(all::<HalfS>(), (16, 5, 11, [15, 15, -14, -14], [0, 0x3ff, 0x200]));
    assert_eq!(all::<Float8E4M3FNS>(), (8, 4, 4, [8, 7, -6, -6], [7, 0, 0]));
    assert!(matches!(Float8E4M3FNS::NONFINITE_BEHAVIOR, NonfiniteBehavior::NanOnly));
    assert_eq!(all::<X87DoubleExtendedS>().2, 64);
    assert_eq!(all::<FallbackS<Double>>().3[..1], [1023]);
    assert_eq!((FallbackS::<Double>::MIN_EXP, FallbackExtendedS::<Double>::MIN_EXP), (-969, -1022));
    assert_eq!((FallbackS::<Single>::PRECISION, FallbackExtendedS::<Single>::MAX_EXP), (48, 127));
}

/// The calls of `Status` that can stand in a constant.
#[test]
fn constant_sets() {
    const SETS: [Status; 8] = [
        Status::empty(),
        Status::all(),
        Status::from_bits_retain(0x10),
        Status::from_bits_truncate(0x30),
        Status::OVERFLOW.union(Status::INEXACT),
        Status::all().intersection(Status::INEXACT).symmetric_difference(Status::OK),
        Status::all().difference(Status::INEXACT),
        Status::OK.complement(),
    ];
    const FOUND: Option<Status> = Status::from_bits(0x10);
    const ASKED: [bool; 4] = [
        SETS[0].is_empty(),
        SETS[1].is_all(),
        SETS[1].contains(Status::OVERFLOW),
        SETS[1].intersects(Status::OVERFLOW),
    ];
    assert_eq!(SETS.map(|set| set.bits()), [0, 0x1f, 0x10, 0x10, 0x14, 0x10, 0x0f, 0x1f]);
    assert_eq!((FOUND, ASKED), (Some(Status::INEXACT), [true; 4]));
}
