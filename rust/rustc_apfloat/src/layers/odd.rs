//! Rounding to odd: ends of ranges, and two pairs of formats without room.

use super::same;
use crate::erased::apfloat_base::{Flags, Float, Round, Status, StatusAnd};
use crate::erased::apfloat_ieee::built_in_formats::{BFloatS, Double, DoubleS, Float8E4M3FN, Float8E4M3FNUZ, Half};
use crate::erased::apfloat_ieee::{Flagged, IeeeFloat};
use crate::erased::round_to_odd::*;
use crate::erased::rustc_apfloat::double_doubles::FallbackS;

/// A value and its flags as bits.
fn bits_of<S: Flagged>(answer: StatusAnd<IeeeFloat<S>>) -> (u128, u8) {
    (answer.value.to_bits(), answer.status.bits())
}

#[test]
fn ends() {
    // 448 is the largest value of e4m3fn, and even: 448 + 16 stays at it, as 448 + 448 does.
    let largest = Float8E4M3FN::largest();
    for other in [0x58, 0x7e] {
        let sum = largest.add_r(Float8E4M3FN::from_bits(other), Round::TowardZero);
        let odd = to_odd(sum, false);
        same(bits_of(odd), (0x7e, Status::INEXACT.bits()), other);
    }
    // A negative result below the smallest value is +0 toward zero in e4m3fnuz, which has no -0.
    let both = Status::UNDERFLOW.union(Status::INEXACT).bits();
    for negative in [true, false] {
        let sixteenth = Float8E4M3FNUZ::from_u128(1).value.scalbn(-4);
        let tiny = Float8E4M3FNUZ::smallest().wide_mul_r(-sixteenth, Round::TowardZero);
        let odd = to_odd(tiny, negative);
        let bits = if negative { 0x81 } else { 0x01 };
        same(bits_of(odd), (bits, both), negative);
    }
}

#[test]
fn without_room() {
    // 2^-30 is below the smallest half, 2^-24, and is a number of bfloat.
    let x = Half::smallest();
    let y = Half::from_u128(1).value.scalbn(-6);
    let odd = to_odd(x.mul_r(y, Round::TowardZero), false);
    let twice: StatusAnd<IeeeFloat<BFloatS>> = round_odd_to(odd, Round::NearestTiesToEven);
    let once = x.mul_to::<BFloatS>(y, Round::NearestTiesToEven);
    let got = (twice.value.to_bits(), once.value.to_bits());
    same(got, (0x3380, 0x3080), "half, bfloat");
    // 5/4 quanta of double: the wide format of pairs has the same quantum, though 53 digits more.
    let five_quarters = IeeeFloat::<FallbackS>::from_u128(5).value.scalbn(-2);
    let quantum = IeeeFloat::<FallbackS>::smallest();
    let odd = to_odd(quantum.wide_mul_r(five_quarters, Round::TowardZero), false);
    let twice: StatusAnd<IeeeFloat<DoubleS>> = round_odd_to(odd, Round::TowardPositive);
    let five_quarters = Double::from_u128(5).value.scalbn(-2);
    let once = Double::smallest().mul_r(five_quarters, Round::TowardPositive);
    let got = (twice.value.to_bits(), once.value.to_bits());
    same(got, (1, 2), "the wide format, double");
}
