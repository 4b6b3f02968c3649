//! Augmented sums, differences and products with the flags of the built-in formats.

use super::same;
use crate::erased::apfloat_base::{Float, Status};
use crate::erased::apfloat_ieee::built_in_formats::Half;
use crate::erased::ieee_operations::augmented::{augmented_add, augmented_multiply, augmented_subtract};

const OK: Status = Status::OK;

const INVALID: Status = Status::INVALID_OP;

/// Whether the head and the tail of what an operation returns are these, with this status.
fn check(operation: &str, a: u128, b: u128, head: u128, tail: u128, status: Status) {
    let (x, y) = (Half::from_bits(a), Half::from_bits(b));
    let answer = match operation {
        "+" => augmented_add(x, y),
        "-" => augmented_subtract(x, y),
        _ => augmented_multiply(x, y),
    };
    let got = (answer.value.head.to_bits(), answer.value.tail.to_bits(), answer.status);
    same(got, (head, tail, status), (operation, a, b));
}

/// 1 + 2^-11 is between 1 and the next half, and 1 is the lower one of two as near; 1 less 2^-11 is a half, and so is
/// the square of 1 + 2^-10 but for its last digit.
#[test]
fn sums_and_products() {
    check("+", 0x3c00, 0x1000, 0x3c00, 0x1000, OK);
    check("-", 0x3c00, 0x1000, 0x3bff, 0x0000, OK);
    check("*", 0x3c01, 0x3c01, 0x3c02, 0x0010, OK);
}

/// Of infinities and NaNs both results are the sum or product itself (5.4.1, 6.1, 6.2.3).
#[test]
fn special_operands() {
    let rows = [
        ("+", 0x7c00, 0x3c00, 0x7c00, OK),
        ("+", 0x3c00, 0xfc00, 0xfc00, OK),
        ("+", 0x7c00, 0xfc00, 0x7e00, INVALID),
        ("-", 0x7c00, 0x7c00, 0x7e00, INVALID),
        ("-", 0x3c00, 0x7c00, 0xfc00, OK),
        ("-", 0x3c00, 0x7e05, 0x7e05, OK),
        ("+", 0xfc01, 0x7e05, 0xfe01, INVALID),
        ("+", 0x3c00, 0x7c03, 0x7e03, INVALID),
        ("*", 0x7c00, 0xbc00, 0xfc00, OK),
        ("*", 0x7c00, 0x8000, 0x7e00, INVALID),
        ("*", 0x0000, 0x7e05, 0x7e05, OK),
        ("*", 0xfc01, 0x7e05, 0xfe01, INVALID),
    ];
    for (operation, a, b, bits, status) in rows {
        check(operation, a, b, bits, bits, status);
    }
}
