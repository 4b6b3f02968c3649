//! Pairs of doubles: a number as the exact sum of two.

use crate::composed::{self, Composed};
use crate::doubles::{AsDouble, Inner};
use crate::erased::apfloat_base::Float as _;
use crate::erased::apfloat_digits::of_double_doubles;
use crate::erased::apfloat_ieee;
use crate::erased::rustc_apfloat::{double_double_operations, double_doubles};
use crate::ieee::{Double, IeeeFloat, Semantics};
use crate::more::{FloatMore, PairMore};
use crate::status::answered;
use crate::{Category, Decimal, ExpInt, Float, FloatConvert, ParseError, Round, StatusAnd};
use core::cmp::Ordering;
use core::fmt;
use core::marker::PhantomData;
use core::ops::Neg;

/// A number as the exact sum of two values.
///
/// Signs, classes, orders, exponents and scaling are by the parts, and all other calls of pairs of doubles are the
/// library's. Pairs of another type are composed of that type's calls, in the same way, and of calls of their wide
/// format, [`FallbackS`], whose flags are those of the built-in formats. Where the wide format is outside the law of
/// formats, as it is for `Half`, `X87DoubleExtended` and `Quad`, only what does without it compiles: sums, products,
/// signs, classes, orders, exponents and scaling.
///
/// ```
/// use rustc_apfloat::{Float, ieee::Single, ppc::DoubleFloat};
///
/// let third = DoubleFloat::<Single>::from_u128(1).value / DoubleFloat::from_u128(3).value;
/// assert_eq!(third.value.to_string(), "0.3333333333333339");
/// ```
///
/// ```compile_fail
/// use rustc_apfloat::{Float, ieee::Half, ppc::DoubleFloat};
///
/// let third = DoubleFloat::<Half>::from_u128(1).value / DoubleFloat::from_u128(3).value;
/// assert!(third.value.is_normal());
/// ```
#[must_use]
#[derive(Copy, Clone, PartialEq, Debug)]
pub struct DoubleFloat<F>(F, F);

/// A pair of doubles, IBM's extended double.
pub type DoubleDouble = DoubleFloat<Double>;

/// The wide format of pairs, without bits: twice the digits, and exponents at which the low part has all its digits.
pub struct FallbackS<F>(PhantomData<F>);

/// The digits of `FallbackS` with the exponents of `F`.
pub struct FallbackExtendedS<F>(PhantomData<F>);

impl<F: Float> Semantics for FallbackS<F> {
    const BITS: usize = 0;
    const EXP_BITS: usize = 0;
    const PRECISION: usize = F::PRECISION * 2;
    const MAX_EXP: ExpInt = F::MAX_EXP;
    const MIN_EXP: ExpInt = F::MIN_EXP + F::PRECISION as ExpInt;
}

impl<F: Float> Semantics for FallbackExtendedS<F> {
    const BITS: usize = 0;
    const EXP_BITS: usize = 0;
    const PRECISION: usize = F::PRECISION * 2;
    const MAX_EXP: ExpInt = F::MAX_EXP;
    const MIN_EXP: ExpInt = F::MIN_EXP;
}

type Fallback<F> = IeeeFloat<FallbackS<F>>;

type FallbackExtended<F> = IeeeFloat<FallbackExtendedS<F>>;

/// The library's value of the wide format.
type Wide = apfloat_ieee::IeeeFloat<double_doubles::FallbackS>;

operators!(DoubleFloat);

impl<F: Float> Neg for DoubleFloat<F> {
    type Output = Self;

    /// The negation of both parts; a low part that is zero, infinite or a NaN is unchanged.
    #[inline]
    fn neg(self) -> Self {
        DoubleFloat(-self.0, if self.1.is_finite_non_zero() { -self.1 } else { self.1 })
    }
}

impl<F: PartialOrd> PartialOrd for DoubleFloat<F> {
    /// The order of the high parts, and on a tie that of the low parts.
    // A derived one is not inlined where a program uses several calls that compare.
    #[inline(always)]
    fn partial_cmp(&self, other: &Self) -> Option<Ordering> {
        match self.0.partial_cmp(&other.0) {
            Some(Ordering::Equal) => self.1.partial_cmp(&other.1),
            unlike => unlike,
        }
    }
}

impl<F> DoubleFloat<F> {
    #[inline]
    pub(crate) fn of(high: F, low: F) -> Self {
        DoubleFloat(high, low)
    }

    #[inline]
    pub(crate) fn parts(self) -> (F, F) {
        (self.0, self.1)
    }
}

impl FloatMore for DoubleDouble {
    #[inline]
    fn sqrt_r(self, round: Round) -> StatusAnd<Self> {
        AsDouble::ITSELF.answer(AsDouble::ITSELF.inner(self).sqrt_r(round))
    }

    fn shortest(self) -> Option<Decimal> {
        of_double_doubles::shortest_of_pair(AsDouble::ITSELF.inner(self))
    }
}

impl PairMore for DoubleDouble {
    #[inline]
    fn to_format<S: Semantics>(self, round: Round) -> StatusAnd<IeeeFloat<S>> {
        IeeeFloat::of_pair(AsDouble::ITSELF.inner(self), round)
    }

    #[inline]
    fn from_format<S: Semantics>(x: IeeeFloat<S>, round: Round) -> StatusAnd<Self> {
        AsDouble::ITSELF.answer(x.to_pair(round))
    }
}

impl<F: Float> From<Fallback<F>> for DoubleFloat<F>
where
    F: FloatConvert<FallbackExtended<F>>,
    FallbackExtended<F>: FloatConvert<F>,
{
    /// The part nearest to the value, with the rest as the low part. A value past the largest part is the infinity, and
    /// a signaling NaN is quieted.
    #[inline]
    fn from(x: Fallback<F>) -> Self {
        match F::AS_DOUBLE {
            Some(double) => double.pair(Inner::from(Wide::packed(x.unpacked()))),
            None => composed::split(x),
        }
    }
}

impl<F: FloatConvert<Fallback<F>>> From<DoubleFloat<F>> for Fallback<F> {
    /// The exact sum of the parts, rounded once. A high part that is zero, infinite or a NaN is taken alone, and a
    /// signaling NaN is quieted.
    #[inline]
    fn from(x: DoubleFloat<F>) -> Self {
        match F::AS_DOUBLE {
            Some(double) => Self::from_unpacked(Wide::from(double.inner(x)).unpacked()),
            None => composed::joined(x),
        }
    }
}

impl<F: FloatConvert<Fallback<F>>> fmt::Display for DoubleFloat<F> {
    /// The sum of the parts, as a value of the wide format.
    fn fmt(&self, f: &mut fmt::Formatter<'_>) -> fmt::Result {
        Fallback::from(*self).fmt(f)
    }
}

/// What the composed pair gives, as `AsDouble` has these of the library's.
#[inline]
fn pair<F: Float>(value: Composed<F>) -> DoubleFloat<F> {
    value.pair()
}

fn answer<F: Float>(answer: StatusAnd<Composed<F>>) -> StatusAnd<DoubleFloat<F>> {
    answer.map(Composed::pair)
}

fn option<F: Float>(value: Option<Composed<F>>) -> Option<DoubleFloat<F>> {
    value.map(Composed::pair)
}

#[inline]
fn plain<T>(value: T) -> T {
    value
}

/// Methods by the library's pair where the parts are doubles, and otherwise by the composed one: what is returned, how
/// it is turned into that, and the method with its pairs, a semicolon, and its other parameters.
macro_rules! by_doubles_or_composed {
    ($($returned:ty: $shape:ident $name:ident($($pair:ident $(: $of:ty)?),*; $($other:ident: $type:ty),*);)*) => {$(
        #[inline]
        fn $name($($pair $(: $of)?,)* $($other: $type),*) -> $returned {
            match F::AS_DOUBLE {
                Some(double) => double.$shape(Inner::$name($(double.inner($pair),)* $($other),*)),
                None => $shape(Composed::<F>::$name($(Composed::new($pair),)* $($other),*)),
            }
        }
    )*};
}

/// Methods that look at the parts, whatever these are: for doubles, what the library does, whose pairs are encoded and
/// decoded to get there.
macro_rules! by_parts {
    ($($shape:ident $returned:ty: $($name:ident($($pair:ident $(: $of:ty)?),*; $($other:ident: $type:ty),*))*;)*) => {
        $($(
            #[inline]
            fn $name($($pair $(: $of)?,)* $($other: $type),*) -> $returned {
                $shape(Composed::<F>::$name($(Composed::new($pair),)* $($other),*))
            }
        )*)*
    };
}

impl<F: FloatConvert<Fallback<F>>> Float for DoubleFloat<F>
where
    Self: From<Fallback<F>>,
{
    pair_constants!(DoubleFloat);

    by_doubles_or_composed! {
        Self: pair largest(;);
        Self: pair smallest_normalized(;);
        Self: pair qnan(; payload: Option<u128>);
        Self: pair snan(; payload: Option<u128>);
        StatusAnd<Self>: answer add_r(self, rhs: Self; round: Round);
        StatusAnd<Self>: answer sub_r(self, rhs: Self; round: Round);
        StatusAnd<Self>: answer mul_r(self, rhs: Self; round: Round);
        StatusAnd<Self>: answer div_r(self, rhs: Self; round: Round);
        StatusAnd<Self>: answer ieee_rem(self, rhs: Self;);
        StatusAnd<Self>: answer c_fmod(self, rhs: Self;);
        StatusAnd<Self>: answer round_to_integral(self; round: Round);
        StatusAnd<Self>: answer next_up(self;);
        StatusAnd<Self>: answer next_down(self;);
        StatusAnd<Self>: answer from_i128_r(; input: i128, round: Round);
        StatusAnd<Self>: answer from_u128_r(; input: u128, round: Round);
        bool: plain is_smallest_normalized(self;);
        bool: plain is_largest(self;);
        Option<Self>: option get_exact_inverse(self;);
    }

    by_parts! {
        pair Self: scalbn_r(self; exp: ExpInt, round: Round) frexp_r(self; exp: &mut ExpInt, round: Round);
        plain bool: bitwise_eq(self, rhs: Self;) is_negative(self;) is_denormal(self;) is_signaling(self;)
            is_smallest(self;) is_integer(self;);
        plain Category: category(self;);
        plain ExpInt: ilogb(self;);
    }

    /// The fused sum of the values of the wide format, split.
    #[inline]
    fn mul_add_r(self, multiplicand: Self, addend: Self, round: Round) -> StatusAnd<Self> {
        match F::AS_DOUBLE {
            Some(double) => {
                let [x, y, z] = [self, multiplicand, addend].map(|pair| double.inner(pair));
                double.answer(double_double_operations::pair_mul_add_r(x, y, z, round))
            }
            None => Fallback::from(self).mul_add_r(multiplicand.into(), addend.into(), round).map(Self::from),
        }
    }

    #[inline]
    fn from_bits(input: u128) -> Self {
        Composed::from_bits(input).pair()
    }

    #[inline]
    fn to_bits(self) -> u128 {
        Composed::new(self).to_bits()
    }

    fn from_str_r(s: &str, round: Round) -> Result<StatusAnd<Self>, ParseError> {
        match F::AS_DOUBLE {
            Some(double) => of_double_doubles::read_decimal_pair(s, round).map(|pair| double.answer(pair)),
            None => Composed::from_str_r(s, round).map(answer),
        }
    }

    #[inline]
    fn to_i128_r(self, width: usize, round: Round, is_exact: &mut bool) -> StatusAnd<i128> {
        match F::AS_DOUBLE {
            Some(double) if (2..=128).contains(&width) => {
                answered(double.inner(self).to_i128_r(width, round, is_exact))
            }
            _ => Composed::new(self).to_i128_r(width, round, is_exact),
        }
    }

    #[inline]
    fn to_u128_r(self, width: usize, round: Round, is_exact: &mut bool) -> StatusAnd<u128> {
        match F::AS_DOUBLE {
            Some(double) if (1..=128).contains(&width) => {
                answered(double.inner(self).to_u128_r(width, round, is_exact))
            }
            _ => Composed::new(self).to_u128_r(width, round, is_exact),
        }
    }

    #[inline]
    fn cmp_abs_normal(self, rhs: Self) -> Ordering {
        if self.0.cmp_abs_normal(rhs.0).is_eq() {
            assert!(self.1.is_finite_non_zero());
            assert!(rhs.1.is_finite_non_zero());
        }
        Composed::new(self).cmp_abs_normal(Composed::new(rhs))
    }
}
