//! A type of a user's own, with no more than `Float` requires, and pairs of it. It has the values of `Double` without
//! saying so: the bodies that `Float` provides, and the composed pairs, answer as the library does.

use rustc_apfloat::ieee::{Double, IeeeFloat};
use rustc_apfloat::ppc::{DoubleDouble, DoubleFloat, FallbackExtendedS, FallbackS};
use rustc_apfloat::{Category, ExpInt, Float, FloatConvert, ParseError, Round, StatusAnd};
use std::cmp::Ordering;
use std::fmt;
use std::ops::*;
use std::str::FromStr;

#[derive(Copy, Clone, PartialEq, PartialOrd, Default, Debug)]
struct Own(Double);

macro_rules! operators {
    ($($trait:ident::$operator:ident, $assigning:ident::$assign:ident;)*) => {$(
        impl $trait for Own {
            type Output = StatusAnd<Self>;

            fn $operator(self, rhs: Self) -> StatusAnd<Self> {
                self.0.$operator(rhs.0).map(Own)
            }
        }

        impl $assigning for Own {
            fn $assign(&mut self, rhs: Self) {
                self.0.$assign(rhs.0);
            }
        }
    )*};
}

operators! {
    Add::add, AddAssign::add_assign;
    Sub::sub, SubAssign::sub_assign;
    Mul::mul, MulAssign::mul_assign;
    Div::div, DivAssign::div_assign;
    Rem::rem, RemAssign::rem_assign;
}

impl Neg for Own {
    type Output = Self;

    fn neg(self) -> Self {
        Own(-self.0)
    }
}

impl FromStr for Own {
    type Err = ParseError;

    fn from_str(s: &str) -> Result<Self, ParseError> {
        s.parse().map(Own)
    }
}

impl fmt::Display for Own {
    fn fmt(&self, f: &mut fmt::Formatter<'_>) -> fmt::Result {
        self.0.fmt(f)
    }
}

impl Float for Own {
    const BITS: usize = Double::BITS;
    const PRECISION: usize = Double::PRECISION;
    const MAX_EXP: ExpInt = Double::MAX_EXP;
    const MIN_EXP: ExpInt = Double::MIN_EXP;
    const ZERO: Self = Own(Double::ZERO);
    const INFINITY: Self = Own(Double::INFINITY);
    const NAN: Self = Own(Double::NAN);
    const SMALLEST: Self = Own(Double::SMALLEST);

    fn qnan(payload: Option<u128>) -> Self {
        Own(Double::qnan(payload))
    }

    fn snan(payload: Option<u128>) -> Self {
        Own(Double::snan(payload))
    }

    fn largest() -> Self {
        Own(Double::largest())
    }

    fn smallest_normalized() -> Self {
        Own(Double::smallest_normalized())
    }

    fn add_r(self, rhs: Self, round: Round) -> StatusAnd<Self> {
        self.0.add_r(rhs.0, round).map(Own)
    }

    fn mul_r(self, rhs: Self, round: Round) -> StatusAnd<Self> {
        self.0.mul_r(rhs.0, round).map(Own)
    }

    fn mul_add_r(self, multiplicand: Self, addend: Self, round: Round) -> StatusAnd<Self> {
        self.0.mul_add_r(multiplicand.0, addend.0, round).map(Own)
    }

    fn div_r(self, rhs: Self, round: Round) -> StatusAnd<Self> {
        self.0.div_r(rhs.0, round).map(Own)
    }

    fn ieee_rem(self, rhs: Self) -> StatusAnd<Self> {
        self.0.ieee_rem(rhs.0).map(Own)
    }

    fn c_fmod(self, rhs: Self) -> StatusAnd<Self> {
        self.0.c_fmod(rhs.0).map(Own)
    }

    fn round_to_integral(self, round: Round) -> StatusAnd<Self> {
        self.0.round_to_integral(round).map(Own)
    }

    fn next_up(self) -> StatusAnd<Self> {
        self.0.next_up().map(Own)
    }

    fn from_bits(input: u128) -> Self {
        Own(Double::from_bits(input))
    }

    fn from_u128_r(input: u128, round: Round) -> StatusAnd<Self> {
        Double::from_u128_r(input, round).map(Own)
    }

    fn from_str_r(s: &str, round: Round) -> Result<StatusAnd<Self>, ParseError> {
        Double::from_str_r(s, round).map(|answer| answer.map(Own))
    }

    fn to_bits(self) -> u128 {
        self.0.to_bits()
    }

    fn to_u128_r(self, width: usize, round: Round, is_exact: &mut bool) -> StatusAnd<u128> {
        self.0.to_u128_r(width, round, is_exact)
    }

    fn cmp_abs_normal(self, rhs: Self) -> Ordering {
        self.0.cmp_abs_normal(rhs.0)
    }

    fn bitwise_eq(self, rhs: Self) -> bool {
        self.0.bitwise_eq(rhs.0)
    }

    fn is_negative(self) -> bool {
        self.0.is_negative()
    }

    fn is_denormal(self) -> bool {
        self.0.is_denormal()
    }

    fn is_signaling(self) -> bool {
        self.0.is_signaling()
    }

    fn category(self) -> Category {
        self.0.category()
    }

    fn get_exact_inverse(self) -> Option<Self> {
        self.0.get_exact_inverse().map(Own)
    }

    fn ilogb(self) -> ExpInt {
        self.0.ilogb()
    }

    fn scalbn_r(self, exp: ExpInt, round: Round) -> Self {
        Own(self.0.scalbn_r(exp, round))
    }

    fn frexp_r(self, exp: &mut ExpInt, round: Round) -> Self {
        Own(self.0.frexp_r(exp, round))
    }
}

macro_rules! wide_formats {
    ($($format:ident)*) => {$(
        impl FloatConvert<IeeeFloat<$format<Own>>> for Own {
            fn convert_r(self, round: Round, loses_info: &mut bool) -> StatusAnd<IeeeFloat<$format<Own>>> {
                self.0.convert_r(round, loses_info)
            }
        }

        impl FloatConvert<Own> for IeeeFloat<$format<Own>> {
            fn convert_r(self, round: Round, loses_info: &mut bool) -> StatusAnd<Own> {
                let answer: StatusAnd<Double> = self.convert_r(round, loses_info);
                answer.map(Own)
            }
        }
    )*};
}

wide_formats! { FallbackS FallbackExtendedS }

type OwnPair = DoubleFloat<Own>;

const ROUNDS: [Round; 5] = [
    Round::NearestTiesToEven,
    Round::TowardPositive,
    Round::TowardNegative,
    Round::TowardZero,
    Round::NearestTiesToAway,
];

/// What every method of `Float` answers of three values, in words.
fn answers<F: Float>(x: F, y: F, z: F, round: Round) -> Vec<String> {
    let mut all = Vec::new();
    macro_rules! say {
        ($($name:literal: $value:expr;)*) => {$(all.push(format!("{} {:x?}", $name, $value));)*};
    }
    let bits = F::to_bits;
    let (mut exact, mut exact_unsigned) = (true, true);
    let mut exponent = 0;
    // A difference is the sum with the negation where a type has none of its own, and that negates a NaN.
    if !y.is_nan() {
        say! {
            "sub_r": x.sub_r(y, round).map(bits);
            "sub": (x - y).map(bits);
        }
    }
    say! {
        "add_r": x.add_r(y, round).map(bits);
        "add": (x + y).map(bits);
        "mul_r": x.mul_r(y, round).map(bits);
        "mul": (x * y).map(bits);
        "mul_add_r": x.mul_add_r(y, z, round).map(bits);
        "mul_add": x.mul_add(y, z).map(bits);
        "div_r": x.div_r(y, round).map(bits);
        "div": (x / y).map(bits);
        "ieee_rem": x.ieee_rem(y).map(bits);
        "c_fmod": x.c_fmod(y).map(bits);
        "rem": (x % y).map(bits);
        "round_to_integral": x.round_to_integral(round).map(bits);
        "next_up": x.next_up().map(bits);
        "next_down": x.next_down().map(bits);
        "abs": x.abs().to_bits();
        "neg": (-x).to_bits();
        "copy_sign": x.copy_sign(y).to_bits();
        "to_i128_r": (x.to_i128_r(70, round, &mut exact), exact);
        "to_i128": (x.to_i128(128), x.to_i128(2));
        "to_u128_r": (x.to_u128_r(70, round, &mut exact_unsigned), exact_unsigned);
        "to_u128": (x.to_u128(128), x.to_u128(1));
        "bitwise_eq": x.bitwise_eq(y);
        "compared": x.partial_cmp(&y);
        "min": x.min(y).to_bits();
        "max": x.max(y).to_bits();
        "minimum": x.minimum(y).to_bits();
        "maximum": x.maximum(y).to_bits();
        "signs": (x.is_negative(), x.is_pos_zero(), x.is_neg_zero(), x.is_pos_infinity(), x.is_neg_infinity());
        "classes": (x.is_normal(), x.is_finite(), x.is_zero(), x.is_denormal(), x.is_infinite(), x.is_nan());
        "more classes": (x.is_signaling(), x.category(), x.is_non_zero(), x.is_finite_non_zero());
        "ends": (x.is_smallest(), x.is_smallest_normalized(), x.is_largest(), x.is_integer());
        "get_exact_inverse": x.get_exact_inverse().map(bits);
        "ilogb": x.ilogb();
        "scalbn": (x.scalbn(-3).to_bits(), x.scalbn_r(1000, round).to_bits());
        "frexp": (x.frexp(&mut exponent).to_bits(), exponent);
        "display": format!("{x} {x:.5} {x:#}");
    }
    all
}

/// Numbers without an order, the same in each run.
struct Numbers(u64);

impl Numbers {
    fn next(&mut self) -> u64 {
        self.0 ^= self.0 << 13;
        self.0 ^= self.0 >> 7;
        self.0 ^= self.0 << 17;
        self.0.wrapping_mul(0x2545_f491_4f6c_dd1d)
    }

    /// The bits of a double: any, or at an end of the format, or near 1.
    fn double(&mut self) -> u64 {
        const ENDS: [u64; 16] = [
            0,
            1,
            0x000f_ffff_ffff_ffff,
            0x0010_0000_0000_0000,
            0x0350_0000_0000_0000,
            0x0360_0000_0000_0001,
            0x3fe0_0000_0000_0000,
            0x3ff0_0000_0000_0000,
            0x3ff0_0000_0000_0001,
            0x4008_0000_0000_0000,
            0x4330_0000_0000_0001,
            0x7fdf_ffff_ffff_ffff,
            0x7fef_ffff_ffff_ffff,
            0x7ff0_0000_0000_0000,
            0x7ff0_0000_0000_0001,
            0x7ff8_0000_0000_0007,
        ];
        let any = self.next();
        match any % 4 {
            0 => ENDS[(any >> 2) as usize % ENDS.len()] | any & 1 << 63,
            1 => self.next(),
            _ => self.next() & 0x800f_ffff_ffff_ffff | (0x3e0 + (any >> 2) % 0x40) << 52,
        }
    }

    /// The bits of a pair: any two doubles, or a double and what is below half its last digit.
    fn pair(&mut self) -> u128 {
        let (high, low, how) = (self.double(), self.double(), self.next());
        let exponent = high >> 52 & 0x7ff;
        let low = match how % 8 {
            0 => low,
            1 => 0,
            _ => low & 0x800f_ffff_ffff_ffff | exponent.saturating_sub(54 + (how >> 3) % 8) << 52,
        };
        u128::from(high) | u128::from(low) << 64
    }
}

#[test]
fn provided_bodies_answer_as_the_library() {
    let mut numbers = Numbers(1);
    for i in 0..4000 {
        let [x, y, z] = std::array::from_fn(|_| u128::from(numbers.double()));
        let round = ROUNDS[i % 5];
        let [dx, dy, dz] = [x, y, z].map(Double::from_bits);
        let [ox, oy, oz] = [x, y, z].map(Own::from_bits);
        assert_eq!(answers(ox, oy, oz, round), answers(dx, dy, dz, round), "{x:x} {y:x} {z:x} {round:?}");
        let input = (numbers.next() as i64 as i128).wrapping_mul(i128::from(numbers.next()));
        assert_eq!(
            Own::from_i128_r(input, round).map(Own::to_bits),
            Double::from_i128_r(input, round).map(Double::to_bits)
        );
        assert_eq!(Own::from_i128(input).map(Own::to_bits), Double::from_i128(input).map(Double::to_bits));
        assert_eq!(
            Own::from_u128(input as u128).map(Own::to_bits),
            Double::from_u128(input as u128).map(Double::to_bits)
        );
    }
}

#[test]
fn pairs_of_it_are_those_of_doubles() {
    let mut numbers = Numbers(2);
    for i in 0..6000 {
        let [x, y, z] = std::array::from_fn(|_| numbers.pair());
        let round = ROUNDS[i % 5];
        let [dx, dy, dz] = [x, y, z].map(DoubleDouble::from_bits);
        let [ox, oy, oz] = [x, y, z].map(OwnPair::from_bits);
        assert_eq!(answers(ox, oy, oz, round), answers(dx, dy, dz, round), "{x:x} {y:x} {z:x} {round:?}");
        let number = u128::from(numbers.next()) << (i % 64) | u128::from(numbers.next());
        assert_eq!(
            OwnPair::from_u128_r(number, round).map(OwnPair::to_bits),
            DoubleDouble::from_u128_r(number, round).map(DoubleDouble::to_bits)
        );
        assert_eq!(
            OwnPair::from_i128(number as i128).map(OwnPair::to_bits),
            DoubleDouble::from_i128(number as i128).map(DoubleDouble::to_bits)
        );
        let text = format!("{}.{}e{}", number >> 20, number & 0xffff, i as i32 % 640 - 330);
        assert_eq!(
            OwnPair::from_str_r(&text, round).map(|answer| answer.map(OwnPair::to_bits)),
            DoubleDouble::from_str_r(&text, round).map(|answer| answer.map(DoubleDouble::to_bits)),
            "{text}"
        );
    }
}

#[test]
fn constants_of_pairs_of_it() {
    let own = [OwnPair::ZERO, OwnPair::INFINITY, OwnPair::NAN, OwnPair::SMALLEST];
    let doubles = [DoubleDouble::ZERO, DoubleDouble::INFINITY, DoubleDouble::NAN, DoubleDouble::SMALLEST];
    assert_eq!(own.map(OwnPair::to_bits), doubles.map(DoubleDouble::to_bits));
    assert_eq!(OwnPair::largest().to_bits(), DoubleDouble::largest().to_bits());
    assert_eq!(OwnPair::smallest_normalized().to_bits(), DoubleDouble::smallest_normalized().to_bits());
    for payload in [None, Some(5)] {
        assert_eq!(OwnPair::qnan(payload).to_bits(), DoubleDouble::qnan(payload).to_bits());
        assert_eq!(OwnPair::snan(payload).to_bits(), DoubleDouble::snan(payload).to_bits());
    }
    assert_eq!((OwnPair::BITS, OwnPair::PRECISION), (128, 106));
    assert_eq!((OwnPair::MAX_EXP, OwnPair::MIN_EXP), (DoubleDouble::MAX_EXP, DoubleDouble::MIN_EXP));
    for text in ["", "1e", "0x", "1.2.3"] {
        let error = OwnPair::from_str_r(text, Round::TowardZero).err();
        assert!(error.is_some() && error == DoubleDouble::from_str_r(text, Round::TowardZero).err(), "{text}");
    }
}

#[test]
fn magnitudes_of_pairs_of_it() {
    const HIGH: u128 = 0x3ff0_0000_0000_0000;
    // 2^-60 and 2^-61, of either sign.
    let lows = [0x3c30_0000_0000_0000, 0x3c20_0000_0000_0000, 0xbc30_0000_0000_0000, 0xbc20_0000_0000_0000];
    let pairs = lows.map(|low: u128| HIGH | low << 64);
    let order = |x: usize, y: usize| OwnPair::from_bits(pairs[x]).cmp_abs_normal(OwnPair::from_bits(pairs[y]));
    for (x, y) in (0..16).map(|i| (i / 4, i % 4)) {
        let doubles = DoubleDouble::from_bits(pairs[x]).cmp_abs_normal(DoubleDouble::from_bits(pairs[y]));
        assert_eq!(order(x, y), doubles, "{x} {y}");
    }
    assert_eq!([order(0, 1), order(1, 2), order(3, 2)], [Ordering::Greater; 3]);
    assert_eq!([order(2, 3), order(2, 1), order(1, 0)], [Ordering::Less; 3]);
}
