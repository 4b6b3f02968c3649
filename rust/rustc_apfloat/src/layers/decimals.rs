//! Decimals of texts, and decimals as values of a format. `decimal` of Python computed the decimals, and fractions in
//! Python the bits.

use crate::erased::apfloat_base::Float;
use crate::erased::apfloat_decimals::{Decimal, DecimalError, from_decimal, read_decimal, read_decimal_ascii};
use crate::erased::apfloat_ieee::built_in_formats::{DoubleS, HalfS, QuadS, Semantics, SingleS};
use crate::erased::apfloat_ieee::{Flagged, IeeeFlags, TinyBefore};
use crate::erased::apfloat_model::{ExpInt, Flags, ParseError, Round, Status};

fn decimal(negative: bool, digits: u128, exponent: ExpInt) -> Decimal {
    Decimal { negative, digits, exponent }
}

/// Asserts that a text is read as this decimal, or refused for this reason.
fn check_text(text: &str, answer: Result<Decimal, DecimalError>) {
    assert!(text.parse::<Decimal>() == answer);
}

/// Asserts that a text has a fault.
fn check_fault(text: &str, words: &str) {
    let answer = text.parse::<Decimal>();
    assert!(matches!(answer, Err(DecimalError::NoDecimal(error)) if error.0 == words));
}

#[test]
fn decimals_of_texts() {
    check_text("12.30", Ok(decimal(false, 1230, -2)));
    check_text("-.5E+3", Ok(decimal(true, 5, 2)));
    check_text("+0.000", Ok(decimal(false, 0, -3)));
    check_text("00340282366920938463463374607431768211455e-7", Ok(decimal(false, u128::MAX, -7)));
    check_text("15e-2147483648", Ok(decimal(false, 15, ExpInt::MIN)));
}

#[test]
fn refused_texts() {
    check_text("340282366920938463463374607431768211456", Err(DecimalError::TooManyDigits));
    check_text("1.5e-2147483648", Err(DecimalError::ExponentOutOfRange));
    check_text("0e99999999999999999999999999999999999999999", Err(DecimalError::ExponentOutOfRange));
    check_fault("-", "String has no digits");
    check_fault("inf", "Invalid character in significand");
    check_fault("0x1p3", "Invalid character in significand");
}

/// Asserts that a decimal has the given bits and status, rounded to nearest, ties to even.
fn check_value<S: Semantics>(digits: u128, exponent: ExpInt, bits: u128, status: Status) {
    let decimal = Decimal { negative: false, digits, exponent };
    let answer = from_decimal::<S>(decimal, Round::NearestTiesToEven);
    assert_eq!(S::to_bits(answer.value), bits);
    assert_eq!(answer.status, status);
}

#[test]
fn doubles() {
    let inexact = Status::INEXACT;
    let tiny = Status::UNDERFLOW.union(inexact);
    let over = Status::OVERFLOW.union(inexact);
    check_value::<DoubleS>(0, 7, 0, Status::OK);
    check_value::<DoubleS>(25, -2, 0x3fd0_0000_0000_0000, Status::OK);
    check_value::<DoubleS>(1, -1, 0x3fb9_9999_9999_999a, inexact);
    check_value::<DoubleS>(1, -7, 0x3e7a_d7f2_9abc_af48, inexact);
    check_value::<DoubleS>(1, 23, 0x44b5_2d02_c7e1_4af6, inexact);
    check_value::<DoubleS>(9_007_199_254_740_993, 0, 0x4340_0000_0000_0000, inexact);
    check_value::<DoubleS>(u128::MAX, 0, 0x47f0_0000_0000_0000, inexact);
    check_value::<DoubleS>(24_703_282_292_062_327_208, -343, 0, tiny);
    check_value::<DoubleS>(24_703_282_292_062_327_209, -343, 1, tiny);
    check_value::<DoubleS>(17_976_931_348_623_157, 292, 0x7fef_ffff_ffff_ffff, inexact);
    check_value::<DoubleS>(17_976_931_348_623_159, 292, 0x7ff0_0000_0000_0000, over);
    check_value::<DoubleS>(1, ExpInt::MAX, 0x7ff0_0000_0000_0000, over);
    check_value::<DoubleS>(1, ExpInt::MIN, 0, tiny);
}

#[test]
fn other_formats() {
    let inexact = Status::INEXACT;
    let tiny = Status::UNDERFLOW.union(inexact);
    check_value::<HalfS>(1, -7, 2, tiny);
    check_value::<HalfS>(123_456_789, -5, 0x64d3, inexact);
    check_value::<QuadS>(1, -1, 0x3ffb_9999_9999_9999_9999_9999_9999_999a, inexact);
    check_value::<QuadS>(1, 23, 0x404b_52d0_2c7e_14af_6800_0000_0000_0000, Status::OK);
    check_value::<QuadS>(1, -400, 0x3ace_2bfc_fc0f_923d_f5f4_7263_70a1_be12, inexact);
    check_value::<QuadS>(1, -4966, 0, tiny);
    check_value::<QuadS>(4, -4966, 1, tiny);
}

/// Asserts that bytes are refused with this message.
fn check_refused_bytes(bytes: &[u8], words: &str) {
    let answer = read_decimal_ascii::<DoubleS>(bytes, Round::NearestTiesToEven);
    assert!(matches!(answer, Err(ParseError(said)) if said == words));
}

#[test]
fn refused_bytes() {
    check_refused_bytes(b"\xff", "Invalid character in significand");
    check_refused_bytes(b"-1.5\x80", "Invalid character in significand");
    check_refused_bytes(b"1e\xc35", "Invalid character in exponent");
}

/// Asserts that a text is read as a single with the given bits and status.
fn check_single<S: Flagged>(text: &str, round: Round, bits: u128, status: Status) {
    let answer = read_decimal::<S>(text, round);
    assert!(answer.is_ok());
    if let Ok(answer) = answer {
        assert_eq!(answer.value.to_bits(), bits);
        assert_eq!(answer.status, status);
    }
}

/// Past the largest single, and below the smallest normal one by less than half a quantum: the first of these is tiny
/// with an unbounded exponent, the second only before it is rounded. By fractions in Python.
#[test]
fn rules_of_flags() {
    let inexact = Status::INEXACT;
    let past = Status::OVERFLOW.union(inexact);
    let tiny = Status::UNDERFLOW.union(inexact);

    let zero = Round::TowardZero;
    check_single::<SingleS>("1e39", zero, 0x7f7f_ffff, inexact);
    check_single::<IeeeFlags<SingleS>>("1e39", zero, 0x7f7f_ffff, past);

    let even = Round::NearestTiesToEven;
    let below = "1.1754943087833335782e-38";
    check_single::<SingleS>(below, even, 0x0080_0000, inexact);
    check_single::<IeeeFlags<SingleS>>(below, even, 0x0080_0000, tiny);

    let nearer = "1.1754943227963182215e-38";
    check_single::<IeeeFlags<SingleS>>(nearer, even, 0x0080_0000, inexact);
    check_single::<IeeeFlags<TinyBefore<SingleS>>>(nearer, even, 0x0080_0000, tiny);
}
