//! Values written in hexadecimal digits, and read back.

use super::same;
use crate::erased::apfloat_base::Float;
use crate::erased::apfloat_digits::hexadecimal::{
    HexError, hex_length, write_hex, write_hex_rounded, write_hex_with_payload,
};
use crate::erased::apfloat_ieee::IeeeFloat;
use crate::erased::apfloat_ieee::built_in_formats::{DoubleS, Semantics};
use crate::erased::apfloat_model::{Round, Status};

/// The bits of doubles, and their shortest texts.
static DOUBLES: [(u128, &str); 3] = [
    (0x3fb9_9999_9999_999a, "0x1.999999999999ap-4"),
    (0xf_ffff_ffff_ffff, "0x1.ffffffffffffep-1023"),
    (0x8000_0000_0000_0001, "-0x1p-1074"),
];

/// Asserts that the texts of the values are those of the rows.
fn check<S: Semantics>(rows: &[(u128, &str)]) {
    for (bits, text) in rows {
        let x = S::from_bits(*bits);
        let mut buffer = [0; 45];
        same(write_hex(x, &mut buffer), Ok(text.len()), *text);
        same(hex_length(x), text.len(), *text);
        assert!(buffer.starts_with(text.as_bytes()));
    }
}

/// Asserts that the texts of the rows are read as the values.
fn check_back<S: Semantics>(rows: &[(u128, &str)]) {
    for (bits, text) in rows {
        match IeeeFloat::<S>::from_ascii_r(text.as_bytes(), Round::TowardNegative) {
            Ok(back) => same((back.value.to_bits(), back.status), (*bits, Status::OK), *text),
            Err(_) => assert!(false),
        }
    }
}

#[test]
fn shortest() {
    check::<DoubleS>(&DOUBLES);
    check_back::<DoubleS>(&DOUBLES);
}

/// NaNs with their payloads, which their shortest texts leave out, and other values.
static PAYLOADS: [(u128, &str); 10] = [
    (0x7ff8_0000_0000_0000, "nan"),
    (0x7ff8_0000_0000_0001, "nan0x1"),
    (0xfff8_0000_0000_002a, "-nan0x2a"),
    (0x7fff_ffff_ffff_ffff, "nan0x7ffffffffffff"),
    (0x7ff0_0000_0000_0001, "snan0x1"),
    (0xfff4_0000_0000_0000, "-snan0x4000000000000"),
    (0x7ff0_0000_0000_0000, "inf"),
    (0xfff0_0000_0000_0000, "-inf"),
    (0xbfe8_0000_0000_0000, "-0x1.8p-1"),
    (1 << 63, "-0x0p0"),
];

#[test]
fn payloads() {
    for (bits, text) in &PAYLOADS {
        let mut buffer = [0; 45];
        let got = write_hex_with_payload(DoubleS::from_bits(*bits), &mut buffer);
        same(got, Ok(text.len()), *text);
        assert!(buffer.starts_with(text.as_bytes()));
        let shortest = text.find("nan").map_or(*text, |place| &text[..place + 3]);
        check::<DoubleS>(&[(*bits, shortest)]);
    }
    check_back::<DoubleS>(&PAYLOADS);
}

#[test]
fn refusals() {
    let x = DoubleS::from_bits(0xbfe8_0000_0000_0000);
    let mut buffer = *b"unchanged";
    let short = write_hex(x, &mut buffer[..8]);
    same(short, Err(HexError::NoRoom), "8");
    assert!(buffer == *b"unchanged");
    let many = write_hex_rounded(x, 32, Round::TowardZero, &mut buffer);
    same(many, Err(HexError::TooManyDigits), "32");
    let few = write_hex_rounded(x, 1, Round::TowardZero, &mut buffer[..8]);
    same(few, Err(HexError::NoRoom), "1");
    assert!(buffer == *b"unchanged");
    same(write_hex(x, &mut buffer), Ok(9), "9");
    assert!(buffer == *b"-0x1.8p-1");
}
