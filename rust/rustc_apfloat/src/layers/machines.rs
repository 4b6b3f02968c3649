//! What machines lack, and what they flush.

use super::same;
use crate::erased::apfloat_base::{Flags, Float, Round};
use crate::erased::apfloat_ieee::built_in_formats::SingleS;
use crate::erased::apfloat_ieee::{Flagged, IeeeFlags, IeeeFloat, Semantics, TinyBefore};
use crate::erased::apfloat_machines::{
    Flush, Machine, flushed, has_denormal, settled, settled_fused, settled_unsigned, without_denormal,
};

const EVEN: Round = Round::NearestTiesToEven;

const ONE: u128 = 0x3f800000;

const Q1: u128 = 0x7fc00001;

const NEG_ZERO: u128 = 0x80000000;

/// The x87 unit has no fused sums and no conversions to unsigned integers.
#[test]
fn what_is_lacking() {
    let (x, nan) = (SingleS::from_bits(ONE), SingleS::from_bits(Q1));
    let fused = settled_fused(Machine::X87, x, x, x, x.wide_mul_add_r(x, x, EVEN));
    let unsigned = settled_unsigned(Machine::X87, nan, 32, nan.to_u128_r(32, EVEN, &mut false));
    assert!(fused.is_none() && unsigned.is_none());
}

/// The product of two values, flushed.
fn product<S: Flagged>(flush: Flush, x: u128, y: u128) -> (u128, u8) {
    let x = IeeeFloat::<S>::from_bits(x);
    let y = IeeeFloat::<S>::from_bits(y);
    let answer = flushed(flush, x.wide_mul_r(y, EVEN));
    (answer.value.to_bits(), answer.status.bits())
}

/// 2^-126 and values near it, times numbers near 1 and 0.5: a normal number; an exact denormal one; two that are
/// rounded to 2^-126, the second of which is below it before rounding alone.
#[test]
fn flushing() {
    let rows = [
        (0x00800000, ONE, 0x00800000, 0x00, 0x00800000, 0x00),
        (0x80800000, 0x3f000000, NEG_ZERO, 0x18, NEG_ZERO, 0x08),
        (0x00ffffff, 0x3f000000, 0x00000000, 0x18, 0x00000000, 0x08),
        (0x00800001, 0x3f7ffffe, 0x00800000, 0x10, 0x00000000, 0x08),
    ];
    for (x, y, value, flags, before, flags_before) in rows {
        let got = product::<IeeeFlags<SingleS>>(Flush::X86, x, y);
        same(got, (value, flags), (x, y));
        let got = product::<IeeeFlags<TinyBefore<SingleS>>>(Flush::Arm, x, y);
        same(got, (before, flags_before), (x, y));
    }
}

/// The product of two values on x86, flushed.
fn product_on_x86<S: Flagged>(x: u128, y: u128) -> (u128, u8) {
    let x = IeeeFloat::<S>::from_bits(x);
    let y = IeeeFloat::<S>::from_bits(y);
    let product = flushed(Flush::X86, x.wide_mul_r(y, EVEN));
    let answer = settled(Machine::X86, x, y, product);
    (answer.value.to_bits(), answer.status.bits())
}

/// On x86 with results flushed: a tiny product, an infinity times a zero, a signaling NaN.
#[test]
fn flushed_on_a_machine() {
    let rows = [
        (0x80800000, 0x3f000000, NEG_ZERO, 0x18),
        (0x7f800000, NEG_ZERO, 0xffc00000, 0x01),
        (0x7fa00000, 0x00000001, 0x7fe00000, 0x01),
    ];
    for (x, y, value, flags) in rows {
        let got = product_on_x86::<IeeeFlags<SingleS>>(x, y);
        same(got, (value, flags), (x, y));
    }
}

#[test]
fn denormal_operands() {
    let rows = [
        (0x80000001, ONE, true, NEG_ZERO),
        (0x007fffff, Q1, false, 0),
        (0x00800000, ONE, false, 0x00800000),
        (Q1, 0x00000001, false, Q1),
        (0, 0x80000001, true, 0),
    ];
    for (x, y, denormal, without) in rows {
        let (x, y) = (SingleS::from_bits(x), SingleS::from_bits(y));
        let got = (has_denormal(x, y), without_denormal(x).to_bits());
        same(got, (denormal, without), (x.to_bits(), y.to_bits()));
    }
}
