//! Comparisons of values of two formats, and an encoding with a bit above its format.

use super::same;
use crate::erased::apfloat_base::{Float, Status};
use crate::erased::apfloat_ieee::built_in_formats::{Float8E4M3FNS, Float8E5M2S, HalfS, X87DoubleExtendedS};
use crate::erased::apfloat_ieee::{IeeeFloat, Semantics};
use crate::erased::ieee_operations::{OnNan, Predicate, compare_between, is_canonical_encoding, relation_between};
use core::cmp::Ordering;

/// A value of `half` against one of an 8-bit format.
fn check_between<T: Semantics>(x: u128, y: u128, expected: Option<Ordering>) {
    let left = HalfS::from_bits(x);
    let right = IeeeFloat::<T>::from_bits(y);
    same(relation_between(left, right), expected, (x, y));
}

#[test]
fn two_formats() {
    let rows = [
        (0x3c01, 0x3c, Some(Ordering::Greater)),
        (0x3c00, 0x3c, Some(Ordering::Equal)),
        (0xbc01, 0xbc, Some(Ordering::Less)),
        (0x7bff, 0x7c, Some(Ordering::Less)),
    ];
    for (x, y, expected) in rows {
        check_between::<Float8E5M2S>(x, y, expected);
    }
    let rows = [
        (0x7bff, 0x7e, Some(Ordering::Greater)),
        (0x0001, 0x80, Some(Ordering::Greater)),
        (0x8000, 0x00, Some(Ordering::Equal)),
        (0xfc00, 0xfe, Some(Ordering::Less)),
        (0x7c00, 0x7f, None),
    ];
    for (x, y, expected) in rows {
        check_between::<Float8E4M3FNS>(x, y, expected);
    }
    let x = HalfS::from_bits(0x7c01);
    let y = IeeeFloat::<Float8E4M3FNS>::from_bits(0);
    let answer = compare_between(Predicate::Unordered, OnNan::Quiet, x, y);
    same((answer.value, answer.status), (true, Status::INVALID_OP), "signaling");
}

#[test]
fn a_bit_above_the_format() {
    assert!(!is_canonical_encoding::<X87DoubleExtendedS>(0x1_0001_8000_0000_0000_0000));
}
