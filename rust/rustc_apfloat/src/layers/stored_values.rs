//! Storage formats: orders, modes of conversions, and random digits that are refused.

use crate::erased::apfloat_base::{Category, Flags, Float};
use crate::erased::apfloat_ieee::built_in_formats::Single;
use crate::erased::small_formats::{
    ConversionRound, E2M1FN, E3M2FN, Float8E3M4, NanResult, RandomDigits, RandomError, StoredFloat,
};
use core::cmp::Ordering;

fn single(bits: u32) -> Single {
    Single::from_bits(u128::from(bits))
}

/// The order of codes is that of the numbers; both zeros are equal.
#[test]
fn order() {
    let ascending = [0x2f, 0x21, 0x20, 0x00, 0x01, 0x1f];
    for i in 1..6 {
        let x = StoredFloat::<E3M2FN>::from_bits(ascending[i - 1]);
        let y = StoredFloat::<E3M2FN>::from_bits(ascending[i]);
        let wanted = if i == 3 { Ordering::Equal } else { Ordering::Less };
        assert_eq!(x.compare(y), wanted);
        assert_eq!(y.compare(x), wanted.reverse());
    }
}

/// 1.25 in a mode of conversions; a NaN becomes the largest number.
fn in_a_mode(bits: u32, mode: ConversionRound) -> (u8, u8) {
    let x = single(bits);
    let answer = StoredFloat::<E2M1FN>::from_value_by(x, mode, NanResult::Largest, &mut false);
    (answer.value.to_bits(), answer.status.bits())
}

/// 1.25 is between 1, the code 2, and 1.5; of four random numbers, two take it up.
#[test]
fn modes() {
    assert_eq!(in_a_mode(0x3fa0_0000, ConversionRound::ToOdd), (3, 0x10));
    assert_eq!(in_a_mode(0x7fc0_0000, ConversionRound::ToOdd), (7, 0x01));
    for random in 0..4u32 {
        let code = if random < 2 { 2 } else { 3 };
        match RandomDigits::new(2, random) {
            Ok(digits) => {
                let mode = ConversionRound::Stochastic(digits);
                assert_eq!(in_a_mode(0x3fa0_0000, mode), (code, 0x10));
            }
            Err(_) => assert!(false, "{random}"),
        }
    }
    assert_eq!(RandomDigits::new(0, 0).err(), Some(RandomError::DigitCount));
    assert_eq!(RandomDigits::new(33, 0).err(), Some(RandomError::DigitCount));
    assert_eq!(RandomDigits::new(3, 8).err(), Some(RandomError::TooWide));
}

/// Codes of `e3m4` and their order: infinities, 15.5 and its opposite, both zeros, the least number, NaNs.
static ORDER: [(u8, u8, Option<Ordering>); 8] = [
    (0xf0, 0xef, Some(Ordering::Less)),
    (0x81, 0x80, Some(Ordering::Less)),
    (0x80, 0x00, Some(Ordering::Equal)),
    (0x01, 0x81, Some(Ordering::Greater)),
    (0x70, 0x6f, Some(Ordering::Greater)),
    (0x70, 0x70, Some(Ordering::Equal)),
    (0x78, 0x78, None),
    (0x00, 0xf1, None),
];

/// Codes with their categories and signs.
static CLASSES: [(u8, Category, bool); 5] = [
    (0x78, Category::NaN, false),
    (0xf1, Category::NaN, true),
    (0xf0, Category::Infinity, true),
    (0x80, Category::Zero, true),
    (0x6f, Category::Normal, false),
];

#[test]
fn order_of_e3m4() {
    for row in &ORDER {
        let (x, y, wanted) = *row;
        let got = Float8E3M4::from_bits(x).compare(Float8E3M4::from_bits(y));
        assert_eq!(got, wanted, "{row:?}");
    }
    for row in &CLASSES {
        let (code, category, negative) = *row;
        let x = Float8E3M4::from_bits(code);
        assert_eq!((x.category(), x.is_negative()), (category, negative), "{row:?}");
    }
}
