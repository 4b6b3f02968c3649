//! Formats of IEEE P3109: each call once, in a format that the library names and in one that is declared here.

use crate::erased::apfloat_base::{Category, Flags, Float, Round, StatusAnd};
use crate::erased::apfloat_ieee::built_in_formats::Single;
use crate::erased::p3109_formats::{Binary8P4, Projected, Projection};
use crate::erased::small_formats::ConversionRound;
use core::cmp::Ordering;

/// `binary6p2ue`.
#[derive(Clone, Copy)]
struct Binary6P2UE;

impl Projection for Binary6P2UE {
    const BITS: usize = 6;
    const PRECISION: usize = 2;
    const SIGNED: bool = false;
    const EXTENDED: bool = true;
}

/// The code of a single, its flags, and the bits of the single that it is.
fn stored<F: Projection>(bits: u32, mode: ConversionRound) -> (u16, u8, u128) {
    let x = Single::from_bits(u128::from(bits));
    let answer = match mode {
        ConversionRound::Ieee(round) => Projected::<F>::from_value(x, round, &mut false),
        _ => Projected::<F>::from_value_by(x, mode, &mut false),
    };
    let back: StatusAnd<Single> = answer.value.convert_r(Round::TowardZero, &mut false);
    (answer.value.to_bits(), answer.status.bits(), back.value.to_bits())
}

/// 1.0625 is halfway between 1, the code 0x40, and 1.125; a format without a sign has no -1.25.
#[test]
fn conversions() {
    let even = ConversionRound::Ieee(Round::NearestTiesToEven);
    let up = ConversionRound::Ieee(Round::TowardPositive);
    let odd = ConversionRound::ToOdd;
    assert_eq!(stored::<Binary8P4>(0x3f88_0000, even), (0x40, 0x10, 0x3f80_0000));
    assert_eq!(stored::<Binary8P4>(0x3f88_0000, odd), (0x41, 0x10, 0x3f90_0000));
    assert_eq!(stored::<Binary8P4>(0x4370_0000, up), (0x7f, 0x14, 0x7f80_0000));
    assert_eq!(stored::<Binary6P2UE>(0x3fa0_0000, up), (0x21, 0x10, 0x3fc0_0000));
    let (code, flags, _) = stored::<Binary6P2UE>(0xbfa0_0000, up);
    assert_eq!((code, flags), (0x3f, 0x01));
}

/// Of `binary8p4se`: 1 and the values beside it, the largest number, the infinities, the NaN.
#[test]
fn order() {
    let one = Projected::<Binary8P4>::from_bits(0x40);
    let infinity = Projected::<Binary8P4>::from_bits(0x7f);
    let nan = Projected::<Binary8P4>::nan();
    let beside = (one.next_up().to_bits(), one.next_down().to_bits());
    assert_eq!(beside, (0x41, 0x3f));
    let ends = (infinity.next_up().to_bits(), infinity.next_down().to_bits());
    assert_eq!(ends, (0x7f, 0x7e));
    assert_eq!(one.compare(infinity), Some(Ordering::Less));
    assert_eq!(one.compare(nan), None);
    let got = (one.category(), infinity.category(), nan.category());
    assert_eq!(got, (Category::Normal, Category::Infinity, Category::NaN));
    let negative = Projected::<Binary8P4>::from_bits(0xc0).is_negative();
    assert_eq!((nan.to_bits(), nan.is_nan(), negative), (0x80, true, true));
}
