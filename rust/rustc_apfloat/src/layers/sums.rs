//! Sums of two terms, which are rounded to odd.

use super::same;
use crate::erased::apfloat_model::{ExpInt, Loss};
use crate::erased::apfloat_words::{
    Term, Total, WideTerm, add_terms, add_u128_terms, add_wide_terms, add_word_terms, shift_right, widened,
};

/// The sign, the exponent and the significand of a total.
type Parts = (bool, ExpInt, u128);

/// The difference of two significands of nine digits with these exponents.
fn less(x_exponent: ExpInt, x: u128, y_exponent: ExpInt, y: u128) -> Parts {
    let total = add_u128_terms(9, term(false, x_exponent, x), term(true, y_exponent, y));
    (total.negative, total.exponent, total.significand)
}

/// The difference of two significands in two words: they are moved up by 117 places, to 126 digits.
fn wide_less(x_exponent: ExpInt, x: u128, y_exponent: ExpInt, y: u128) -> Parts {
    let total = add_wide_terms(
        126,
        WideTerm { negative: false, exponent: x_exponent, significand: widened(x, 117) },
        WideTerm { negative: true, exponent: y_exponent, significand: widened(y, 117) },
    );
    (total.negative, total.exponent, total.significand)
}

#[test]
fn totals() {
    for (x_exponent, x, y_exponent, y, total) in [
        // like exponents
        (119, 0x110, 119, 0x105, (false, 1, 0xb << 118)),
        (118, 0x120, 118, 0x120, (false, 0, 0)),
        (117, 0x100, 117, 0x101, (true, -1, 1 << 118)),
        // less the one with the lower exponent
        (7, 0x100, 3, 0x101, (false, -111, 0xeff << 114)),
        (127, 0x100, 0, 0x100, (false, 9, (1 << 126) - 1)),
        (244, 0x100, 117, 0x100, (false, 126, (1 << 126) - 1)),
        (300, 0x100, 0, 0x100, (false, 182, (1 << 126) - 1)),
        // less the one with the higher exponent
        (3, 0x101, 7, 0x100, (true, -111, 0xeff << 114)),
        (0, 0x100, 300, 0x100, (true, 182, (1 << 126) - 1)),
    ] {
        assert_eq!(less(x_exponent, x, y_exponent, y), total, "{x_exponent} {x:x} {y_exponent} {y:x}");
    }
}

#[test]
fn wide_totals() {
    for ([x_exponent, y_exponent], [x, y], total) in [
        // like exponents
        ([10, 10], [0x110, 0x105], (false, 3, 0xb << 124)),
        ([10, 10], [0x120, 0x120], (false, -117, 0)),
        ([10, 10], [0x100, 0x101], (true, 0, 1 << 127)),
        // less the one with the lower exponent
        ([4, 0], [0x100, 0x101], (false, 1, 0xeff << 116)),
        ([127, 0], [0x100, 0x101], (false, 124, u128::MAX - 2)),
        ([128, 0], [0x100, 0x101], (false, 125, u128::MAX)),
        ([372, 0], [0x100, 0x101], (false, 369, u128::MAX)),
        // less the one with the higher exponent
        ([0, 4], [0x101, 0x100], (true, 1, 0xeff << 116)),
        ([0, 372], [0x101, 0x100], (true, 369, u128::MAX)),
    ] {
        assert_eq!(wide_less(x_exponent, x, y_exponent, y), total, "{x_exponent} {x:x} {y_exponent} {y:x}");
    }
}

// ---- that the plain form, with a loss, agrees with the others

/// A term.
fn term(negative: bool, exponent: ExpInt, significand: u128) -> Term {
    Term { negative, exponent, significand }
}

/// Whether a total that was rounded to odd is the plain one.
fn agrees(plain: Total, negative: bool, exponent: ExpInt, significand: u128) -> bool {
    let places = plain.exponent.wrapping_sub(exponent).unsigned_abs();
    let cut = shift_right(significand, places, Loss::ExactlyZero);
    let is_zero = significand == 0;
    (is_zero || negative == plain.negative) && cut.significand == plain.significand && cut.loss == plain.loss
}

/// Whether the difference of two significands of 17 digits is the plain one in a word, in a `u128` and in two words.
fn all_agree(x_exponent: ExpInt, x: u128, y_exponent: ExpInt, y: u128) -> bool {
    let left = term(false, x_exponent, x);
    let right = term(true, y_exponent, y);
    let plain = add_terms(left, right);
    let word = add_word_terms(17, left, right);
    let long = add_u128_terms(17, left, right);
    let wide = add_wide_terms(
        126,
        WideTerm { negative: false, exponent: x_exponent, significand: widened(x, 109) },
        WideTerm { negative: true, exponent: y_exponent, significand: widened(y, 109) },
    );
    agrees(plain, word.negative, word.exponent, u128::from(word.significand))
        && agrees(plain, long.negative, long.exponent, long.significand)
        && agrees(plain, wide.negative, wide.exponent.wrapping_sub(109), wide.significand)
}

#[test]
fn sums_agree_with_the_plain_form() {
    // The cases of the plain form, with all significands moved up to 17 digits.
    let agreeing = [
        all_agree(-11, 0x10000, -13, 0x14000),
        all_agree(-13, 0x10000, -13, 0x10000),
        all_agree(-1, 0x10000, -5, 0x10000),
        all_agree(-1, 0x10000, -5, 0x10100),
        all_agree(-1, 0x10000, -1, 0x10000),
        all_agree(-1, 0x10000, -1, 0x10010),
        all_agree(-1, 0x10000, 3, 0x10000),
        all_agree(-1, 0x10000, 3, 0x10001),
        all_agree(-5, 0x10000, -1, 0x10000),
        all_agree(-5, 0x10100, -1, 0x10000),
        all_agree(-1, 0x10010, -1, 0x10000),
        all_agree(3, 0x10000, -1, 0x10000),
        all_agree(3, 0x10001, -1, 0x10000),
        all_agree(40, 0x10001, 3, 0x1ffff),
        all_agree(3, 0x1ffff, 40, 0x10001),
    ];
    same(agreeing, [true; 15], "agree");
}
