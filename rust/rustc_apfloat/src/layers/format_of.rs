//! Operations whose result is of another format than their operands, as methods and as functions.

use super::same;
use crate::erased::apfloat_base::Float;
use crate::erased::apfloat_ieee::built_in_formats::{BFloatS, DoubleS, Half, HalfS, Semantics};
use crate::erased::apfloat_ieee::format_of;
use crate::erased::apfloat_model::{Flags, Round, StatusAnd};

const EVEN: Round = Round::NearestTiesToEven;

/// The same result by a method and by a function.
fn check(method: StatusAnd<Half>, function: StatusAnd<Half>, bits: u128) {
    let got = (method.value.to_bits(), method.status.bits());
    same(got, (bits, 0x10), "a method");
    let got = (function.value.to_bits(), function.status.bits());
    same(got, (bits, 0x10), "a function");
}

/// Inexact results, of which `evidence/format_of.py` computed the bits.
#[test]
fn each_operation() {
    let x = DoubleS::from_bits(0xbfde_07ff_ffff_ffff);
    let y = DoubleS::from_bits(0xc00d_d400_0000_0001);
    let sum = format_of::add::<HalfS, DoubleS, DoubleS>(x, y, EVEN);
    check(x.add_to::<HalfS>(y, EVEN), sum, 0xc433);
    let (x, y) = (DoubleS::from_bits(0), DoubleS::from_bits(0xbfba_47eb_b6ce_ebaf));
    let difference = format_of::subtract::<HalfS, DoubleS, DoubleS>(x, y, EVEN);
    check(x.sub_to::<HalfS>(y, EVEN), difference, 0x2e92);
    let x = DoubleS::from_bits(0x3fb2_b859_ff7e_1d34);
    let y = DoubleS::from_bits(0xbf78_5519_1a6e_aeb8);
    let product = format_of::multiply::<HalfS, DoubleS, DoubleS>(x, y, EVEN);
    check(x.mul_to::<HalfS>(y, EVEN), product, 0x8f1e);
    let x = DoubleS::from_bits(0xc048_3c00_0000_0000);
    let y = DoubleS::from_bits(0xc037_8000_0000_0001);
    let quotient = format_of::divide::<HalfS, DoubleS, DoubleS>(x, y, EVEN);
    check(x.div_to::<HalfS>(y, EVEN), quotient, 0x4020);
    let x = DoubleS::from_bits(0x4000_0000_0000_0000);
    let root = format_of::square_root::<HalfS, DoubleS>(x, EVEN);
    check(x.sqrt_to::<HalfS>(EVEN), root, 0x3da8);
    let x = DoubleS::from_bits(0xbff9_849b_edad_7a89);
    let y = DoubleS::from_bits(0x3e58_6d8b_bb5f_52ac);
    let z = DoubleS::from_bits(0xc057_52ad_82c1_606e);
    let fused = format_of::multiply_add::<HalfS, DoubleS, DoubleS, DoubleS>(x, y, z, EVEN);
    check(x.mul_add_to::<HalfS>(y, z, EVEN), fused, 0xd5d5);
}

/// The double 1.5 times the half 2^-24 is 1.5 * 2^-24: between two halves, and a bfloat.
#[test]
fn mixes_formats() {
    let x = DoubleS::from_bits(0x3ff8_0000_0000_0000);
    let y = HalfS::from_bits(0x0001);
    let half = format_of::multiply::<HalfS, DoubleS, HalfS>(x, y, EVEN);
    let bfloat = format_of::multiply::<BFloatS, DoubleS, HalfS>(x, y, EVEN);
    let got = [(half.value.to_bits(), half.status.bits()), (bfloat.value.to_bits(), bfloat.status.bits())];
    same(got, [(0x0002, 0x18), (0x33c0, 0x00)], "mixed");
}
