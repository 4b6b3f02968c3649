//! Pairs of any type: what the library does with pairs of doubles, composed of the calls of their parts.
//!
//! Sums and products are computed in steps on the parts, each in the mode, and the flags of all steps are joined: first
//! of the high parts, then what that lost, then both closed to a pair. Signs, classes, orders, exponents and scaling are
//! those of the parts. All else joins the pairs in the wide format, makes one call there, and splits its answer.

use crate::ieee::IeeeFloat;
use crate::ppc::{DoubleFloat, FallbackExtendedS, FallbackS};
use crate::{Category, ExpInt, Float, FloatConvert, ParseError, Round, Status, StatusAnd, unpack};
use core::cmp::Ordering;
use core::fmt;
use core::ops::Neg;

type Fallback<F> = IeeeFloat<FallbackS<F>>;

type FallbackExtended<F> = IeeeFloat<FallbackExtendedS<F>>;

/// A pair by these calls, whatever its parts are.
#[derive(Copy, Clone, PartialEq, PartialOrd)]
pub(crate) struct Composed<F>(F, F);

impl<F: Float> Composed<F> {
    #[inline]
    pub(crate) fn new(pair: DoubleFloat<F>) -> Self {
        let (high, low) = pair.parts();
        Composed(high, low)
    }

    #[inline]
    pub(crate) fn pair(self) -> DoubleFloat<F> {
        DoubleFloat::of(self.0, self.1)
    }

    #[inline]
    fn alone(high: F) -> Self {
        Composed(high, F::ZERO)
    }

    /// The sum of `z` and `zz`, and what it lost.
    fn closed(z: F, zz: F, mut status: Status, round: Round) -> StatusAnd<Self> {
        let high = unpack!(status |=, z.add_r(zz, round));
        if !high.is_finite() {
            return status.and(Self::alone(high));
        }
        let left = unpack!(status |=, z.sub_r(high, round));
        let low = unpack!(status |=, left.add_r(zz, round));
        status.and(Composed(high, low))
    }

    /// The sum of some parts, one after another, with the flags of each step.
    fn sum_of_parts<const N: usize>(parts: [F; N], round: Round) -> StatusAnd<F> {
        let mut status = Status::OK;
        let sum = parts.into_iter().reduce(|sum, part| unpack!(status |=, sum.add_r(part, round)));
        status.and(sum.unwrap_or(F::ZERO))
    }

    /// What the sum `z` of the high parts lost of the pairs' sum.
    fn lost_of_sum(self, rhs: Self, z: F, round: Round) -> StatusAnd<F> {
        let (Composed(a, aa), Composed(c, cc)) = (self, rhs);
        let mut status;
        let q = unpack!(status =, a.sub_r(z, round));
        let lost_of_c = unpack!(status |=, q.add_r(c, round));
        let z_again = unpack!(status |=, q.add_r(z, round));
        let gained = unpack!(status |=, z_again.sub_r(a, round));
        let zz = unpack!(status |=, Self::sum_of_parts([lost_of_c, -gained, aa, cc], round));
        status.and(zz)
    }

    /// The sum, with the low parts first: the sum of the high parts overflows.
    fn sum_anew(self, rhs: Self, round: Round) -> StatusAnd<Self> {
        let (greater, lesser) = match self.0.cmp_abs_normal(rhs.0) {
            Ordering::Greater => (self.0, rhs.0),
            Ordering::Less | Ordering::Equal => (rhs.0, self.0),
        };
        let mut status;
        let z = unpack!(status =, Self::sum_of_parts([rhs.1, self.1, lesser, greater], round));
        if !z.is_finite() {
            return status.and(Self::alone(z));
        }
        let zz = unpack!(status |=, self.1.add_r(rhs.1, round));
        let left = unpack!(status |=, greater.sub_r(z, round));
        let low = unpack!(status |=, Self::sum_of_parts([left, lesser, zz], round));
        status.and(Composed(z, low))
    }

    fn sum_of_numbers(self, rhs: Self, round: Round) -> StatusAnd<Self> {
        let mut status;
        let z = unpack!(status =, self.0.add_r(rhs.0, round));
        if z.is_infinite() {
            return self.sum_anew(rhs, round);
        }
        if z.is_nan() {
            // An overflow where there is no infinity.
            return status.and(Self::alone(z));
        }
        let zz = unpack!(status |=, self.lost_of_sum(rhs, z, round));
        if zz.is_pos_zero() { Status::OK.and(Self::alone(z)) } else { Self::closed(z, zz, status, round) }
    }

    fn product_of_numbers(self, rhs: Self, round: Round) -> StatusAnd<Self> {
        let (Composed(a, b), Composed(c, d)) = (self, rhs);
        let mut status;
        let t = unpack!(status =, a.mul_r(c, round));
        if !t.is_finite_non_zero() {
            return status.and(Self::alone(t));
        }
        let lost = unpack!(status |=, a.mul_add_r(c, -t, round));
        let v = unpack!(status |=, a.mul_r(d, round));
        let w = unpack!(status |=, b.mul_r(c, round));
        let cross = unpack!(status |=, v.add_r(w, round));
        let tau = unpack!(status |=, lost.add_r(cross, round));
        Self::closed(t, tau, status, round)
    }

    /// Whether the parts' signs differ.
    #[inline]
    fn is_opposite(self) -> bool {
        self.0.is_negative() != self.1.is_negative()
    }
}

/// The nearest value of `F` and the rest.
pub(crate) fn split<F>(x: Fallback<F>) -> DoubleFloat<F>
where
    F: FloatConvert<FallbackExtended<F>>,
    FallbackExtended<F>: FloatConvert<F>,
{
    let mut loses_info = false;
    let extended: FallbackExtended<F> = x.convert(&mut loses_info).value;
    let high: F = extended.convert(&mut loses_info).value;
    if !(high.is_finite_non_zero() && loses_info) {
        return DoubleFloat::of(high, F::ZERO);
    }
    let rest = (extended - high.convert(&mut loses_info).value).value;
    DoubleFloat::of(high, rest.convert(&mut loses_info).value)
}

/// The sum of the parts, rounded once. A high part that is zero, infinite or a NaN is taken alone.
pub(crate) fn joined<F: FloatConvert<Fallback<F>>>(x: DoubleFloat<F>) -> Fallback<F> {
    let (high, low) = x.parts();
    let mut loses_info = false;
    let wide = high.convert(&mut loses_info).value;
    if wide.is_finite_non_zero() { (wide + low.convert(&mut loses_info).value).value } else { wide }
}

operators!(Composed);

impl<F: Float> Neg for Composed<F> {
    type Output = Self;

    #[inline]
    fn neg(self) -> Self {
        Self::new(-self.pair())
    }
}

impl<F: FloatConvert<Fallback<F>>> fmt::Display for Composed<F> {
    fn fmt(&self, f: &mut fmt::Formatter<'_>) -> fmt::Result {
        self.pair().fmt(f)
    }
}

impl<F: FloatConvert<Fallback<F>>> Composed<F>
where
    DoubleFloat<F>: From<Fallback<F>>,
{
    fn wide(self) -> Fallback<F> {
        self.pair().into()
    }

    fn split(wide: Fallback<F>) -> Self {
        Self::new(wide.into())
    }
}

impl<F: FloatConvert<Fallback<F>>> Float for Composed<F>
where
    DoubleFloat<F>: From<Fallback<F>>,
{
    pair_constants!(Composed);

    fn qnan(payload: Option<u128>) -> Self {
        Self::alone(F::qnan(payload))
    }

    fn snan(payload: Option<u128>) -> Self {
        Self::alone(F::snan(payload))
    }

    fn largest() -> Self {
        let below_half_a_digit = F::largest().scalbn(-(F::PRECISION as ExpInt + 1)).next_down().value;
        Composed(F::largest(), below_half_a_digit)
    }

    fn smallest_normalized() -> Self {
        Self::alone(F::smallest_normalized().scalbn(F::PRECISION as ExpInt))
    }

    fn add_r(self, rhs: Self, round: Round) -> StatusAnd<Self> {
        match (self.category(), rhs.category()) {
            (Category::Infinity, Category::Infinity) if self.is_negative() != rhs.is_negative() => {
                Status::INVALID_OP.and(Self::NAN.copy_sign(self))
            }
            (Category::Infinity, Category::Infinity)
            | (_, Category::Zero)
            | (Category::NaN, _)
            | (Category::Infinity, Category::Normal) => Status::OK.and(self),
            (Category::Zero, _) | (_, Category::NaN) | (_, Category::Infinity) => Status::OK.and(rhs),
            (Category::Normal, Category::Normal) => self.sum_of_numbers(rhs, round),
        }
    }

    fn mul_r(self, rhs: Self, round: Round) -> StatusAnd<Self> {
        match (self.category(), rhs.category()) {
            (Category::NaN, _) => Status::OK.and(self),
            (_, Category::NaN) => Status::OK.and(rhs),
            (Category::Zero, Category::Infinity) | (Category::Infinity, Category::Zero) => Status::OK.and(Self::NAN),
            (Category::Zero, _) | (Category::Infinity, _) => Status::OK.and(self),
            (_, Category::Zero) | (_, Category::Infinity) => Status::OK.and(rhs),
            (Category::Normal, Category::Normal) => self.product_of_numbers(rhs, round),
        }
    }

    fn mul_add_r(self, multiplicand: Self, addend: Self, round: Round) -> StatusAnd<Self> {
        self.wide().mul_add_r(multiplicand.wide(), addend.wide(), round).map(Self::split)
    }

    fn div_r(self, rhs: Self, round: Round) -> StatusAnd<Self> {
        self.wide().div_r(rhs.wide(), round).map(Self::split)
    }

    fn ieee_rem(self, rhs: Self) -> StatusAnd<Self> {
        self.wide().ieee_rem(rhs.wide()).map(Self::split)
    }

    fn c_fmod(self, rhs: Self) -> StatusAnd<Self> {
        self.wide().c_fmod(rhs.wide()).map(Self::split)
    }

    fn round_to_integral(self, round: Round) -> StatusAnd<Self> {
        self.wide().round_to_integral(round).map(Self::split)
    }

    fn next_up(self) -> StatusAnd<Self> {
        self.wide().next_up().map(Self::split)
    }

    #[inline]
    fn from_bits(input: u128) -> Self {
        let part = u128::MAX >> (128 - F::BITS);
        Composed(F::from_bits(input & part), F::from_bits(input >> F::BITS & part))
    }

    fn from_u128_r(input: u128, round: Round) -> StatusAnd<Self> {
        Fallback::from_u128_r(input, round).map(Self::split)
    }

    fn from_str_r(s: &str, round: Round) -> Result<StatusAnd<Self>, ParseError> {
        Ok(Fallback::from_str_r(s, round)?.map(Self::split))
    }

    #[inline]
    fn to_bits(self) -> u128 {
        self.0.to_bits() | self.1.to_bits() << F::BITS
    }

    fn to_u128_r(self, width: usize, round: Round, is_exact: &mut bool) -> StatusAnd<u128> {
        self.wide().to_u128_r(width, round, is_exact)
    }

    #[inline]
    fn cmp_abs_normal(self, rhs: Self) -> Ordering {
        self.0.cmp_abs_normal(rhs.0).then_with(|| match self.1.cmp_abs_normal(rhs.1) {
            Ordering::Equal => Ordering::Equal,
            unlike => match (self.is_opposite(), rhs.is_opposite()) {
                (false, false) => unlike,
                (true, true) => unlike.reverse(),
                (true, false) => Ordering::Less,
                (false, true) => Ordering::Greater,
            },
        })
    }

    #[inline]
    fn bitwise_eq(self, rhs: Self) -> bool {
        self.0.bitwise_eq(rhs.0) && self.1.bitwise_eq(rhs.1)
    }

    #[inline]
    fn is_negative(self) -> bool {
        self.0.is_negative()
    }

    #[inline]
    fn is_denormal(self) -> bool {
        self.0.is_finite_non_zero() && (self.0.is_denormal() || self.0 != (self.0 + self.1).value)
    }

    #[inline]
    fn is_signaling(self) -> bool {
        self.0.is_signaling()
    }

    #[inline]
    fn category(self) -> Category {
        self.0.category()
    }

    #[inline]
    fn is_smallest(self) -> bool {
        self.0.is_smallest() && self.1.is_pos_zero()
    }

    #[inline]
    fn is_integer(self) -> bool {
        self.0.is_integer() && self.1.is_integer()
    }

    fn get_exact_inverse(self) -> Option<Self> {
        self.wide().get_exact_inverse().map(Self::split)
    }

    #[inline]
    fn ilogb(self) -> ExpInt {
        self.0.ilogb()
    }

    #[inline]
    fn scalbn_r(self, exp: ExpInt, round: Round) -> Self {
        Composed(self.0.scalbn_r(exp, round), self.1.scalbn_r(exp, round))
    }

    #[inline]
    fn frexp_r(self, exp: &mut ExpInt, round: Round) -> Self {
        let high = self.0.frexp_r(exp, round);
        match self.category() {
            Category::Normal => Composed(high, self.1.scalbn_r(-*exp, round)),
            Category::Zero | Category::Infinity | Category::NaN => Composed(high, self.1),
        }
    }
}

#[cfg(test)]
mod tests {
    use crate::doubles::Inner;
    use crate::erased::apfloat_base::Float as _;
    use crate::ieee::Double;
    use crate::ppc::DoubleDouble;
    use crate::{Float, Round};

    /// Doubles of each class, at the ends of their ranges and beside 1.
    const PARTS: [u128; 22] = [
        0x0000_0000_0000_0000,
        0x8000_0000_0000_0000,
        0x0000_0000_0000_0001,
        0x8000_0000_0000_0001,
        0x000f_ffff_ffff_ffff,
        0x0010_0000_0000_0000,
        0x8010_0000_0000_0000,
        0x0360_0000_0000_0000,
        0x3c90_0000_0000_0000,
        0xbca0_0000_0000_0000,
        0x3ff0_0000_0000_0000,
        0xbff0_0000_0000_0000,
        0x3ff0_0000_0000_0001,
        0x7c8f_ffff_ffff_fffe,
        0x7c90_0000_0000_0000,
        0x7fef_ffff_ffff_ffff,
        0xffef_ffff_ffff_ffff,
        0x7ff0_0000_0000_0000,
        0xfff0_0000_0000_0000,
        0x7ff8_0000_0000_0000,
        0x7ff0_0000_0000_0001,
        0xfff8_0000_0000_0005,
    ];

    const MODES: [Round; 5] = [
        Round::NearestTiesToEven,
        Round::TowardPositive,
        Round::TowardNegative,
        Round::TowardZero,
        Round::NearestTiesToAway,
    ];

    /// Each pair of these, and the library's.
    fn pairs() -> impl Iterator<Item = (DoubleDouble, Inner)> {
        let all = PARTS.iter().flat_map(|high| PARTS.iter().map(move |low| high | low << 64));
        all.map(|bits| (DoubleDouble::from_bits(bits), Inner::from_bits(bits)))
    }

    #[test]
    fn what_is_done_by_the_parts_is_what_the_library_does() {
        macro_rules! same {
            ($x:ident $inner:ident: $($name:ident)*) => {
                $(assert_eq!($x.$name(), $inner.$name(), "{} {:x}", stringify!($name), $x.to_bits());)*
            };
        }
        for (x, inner) in pairs() {
            same! { x inner: is_negative is_normal is_finite is_zero is_denormal is_infinite is_nan is_signaling
            category is_non_zero is_finite_non_zero is_pos_zero is_neg_zero is_pos_infinity is_neg_infinity is_smallest
            is_integer ilogb to_bits }
            assert_eq!([(-x).to_bits(), x.abs().to_bits()], [(-inner).to_bits(), inner.abs().to_bits()], "{x:?}");
            for mode in MODES {
                for exponent in [-2200, -1075, -17, 0, 1, 61, 2200] {
                    let scaled = x.scalbn_r(exponent, mode).to_bits();
                    assert_eq!(scaled, inner.scalbn_r(exponent, mode).to_bits(), "{x:?} {exponent} {mode:?}");
                }
                let mut exponents = [0, 0];
                let [exponent, wanted] = &mut exponents;
                let fractions = [x.frexp_r(exponent, mode).to_bits(), inner.frexp_r(wanted, mode).to_bits()];
                assert!(fractions[0] == fractions[1] && exponents[0] == exponents[1], "{x:?} {mode:?}");
            }
        }
    }

    #[test]
    fn two_pairs_by_their_parts() {
        for (x, inner) in pairs() {
            for (y, other) in pairs() {
                let values = [
                    (x.copy_sign(y), inner.copy_sign(other)),
                    (x.min(y), inner.min(other)),
                    (x.max(y), inner.max(other)),
                    (x.minimum(y), inner.minimum(other)),
                    (x.maximum(y), inner.maximum(other)),
                ];
                assert!(values.iter().all(|(given, wanted)| given.to_bits() == wanted.to_bits()), "{x:?} {y:?}");
                assert_eq!(x.bitwise_eq(y), inner.bitwise_eq(other), "{x:?} {y:?}");
                assert_eq!((x == y, x.partial_cmp(&y)), (inner == other, inner.partial_cmp(&other)), "{x:?} {y:?}");
                let all_are = |values: [Double; 2]| values.iter().all(|value| value.is_finite_non_zero());
                let ((high, low), (other_high, other_low)) = (x.parts(), y.parts());
                let tie = || high.cmp_abs_normal(other_high).is_eq();
                if all_are([high, other_high]) && (!tie() || all_are([low, other_low])) {
                    assert_eq!(x.cmp_abs_normal(y), inner.cmp_abs_normal(other), "{x:?} {y:?}");
                }
            }
        }
    }
}
