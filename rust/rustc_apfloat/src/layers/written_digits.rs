//! The longest digits of values, and values without any. The digits were computed with fractions in Python.

use super::same;
use crate::erased::apfloat_digits::decimal::{Written, write_digits};
use crate::erased::apfloat_ieee::IeeeFloat;
use crate::erased::apfloat_ieee::built_in_formats::{DoubleS, QuadS, Semantics};
use crate::erased::apfloat_model::{Category, ExpInt, Round, Status};

/// So many digits of a value, rounded up, which are written with this status and this exponent of ten.
fn digits<const COUNT: usize, S: Semantics>(x: IeeeFloat<S>, status: Status, exponent: ExpInt) -> [u8; COUNT] {
    let mut digits = [0; COUNT];
    let got = write_digits(x, Round::TowardPositive, &mut digits);
    same(got, Written::Digits(status.and(exponent)), COUNT);
    digits
}

/// The double with the most digits: they fit exactly, and one less is rounded.
#[test]
fn all_digits() {
    let x = DoubleS::from_bits(0x001f_ffff_ffff_ffff);
    let all: [u8; 767] = digits(x, Status::OK, -308);
    assert!(all.starts_with(b"44501477170144022721"));
    assert!(all.ends_with(b"80281734466552734375"));
    let fewer: [u8; 766] = digits(x, Status::INEXACT, -308);
    assert!(fewer.ends_with(b"58028173446655273438"));
}

/// The quad with the most digits.
#[test]
fn all_digits_of_a_quad() {
    let all: [u8; 11_563] = digits(QuadS::from_bits(0x0001_ffff_ffff_ffff_ffff_ffff_ffff_ffff), Status::OK, -4932);
    assert!(all.starts_with(b"67242062862241870125"));
    assert!(all.ends_with(b"58698177337646484375"));
}

#[test]
fn without_digits() {
    let mut digits = *b"unchanged";
    let infinity = DoubleS::from_bits(0xfff0_0000_0000_0000);
    let got = write_digits(infinity, Round::TowardZero, &mut digits);
    same(got, Written::WithoutDigits(Category::Infinity), "infinity");
    let got = write_digits(DoubleS::from_bits(1 << 63), Round::TowardZero, &mut digits);
    same(got, Written::WithoutDigits(Category::Zero), "-0");
    assert!(digits == *b"unchanged");
    let got = write_digits(DoubleS::from_bits(1), Round::TowardZero, &mut []);
    same(got, Written::NoRoom, "no room");
}
