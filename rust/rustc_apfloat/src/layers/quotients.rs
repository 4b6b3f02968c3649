//! Quotients and rests of significands: by many digits at a time, and one digit at a time.

use super::same;
use crate::erased::apfloat_words::{divide, divide_by_guess, divide_u128, is_exact, u128_moved_rest, word_moved_rest};

/// Whether the division by many digits at a time returns what the division by single digits does.
fn agree(dividend: u128, divisor: u128, places: u32) -> bool {
    let many = divide_u128(dividend, divisor, places);
    let single = divide(dividend, divisor, places);
    many.whole == single.whole && many.loss == single.loss
}

#[test]
fn many_and_single_digits_agree() {
    for places in 0..127 {
        let dividend = 0x1234_5678_9abc_def0_0fed_cba9_8765;
        let agreeing = [
            agree(1, 1, places),
            agree(5, 3, places),
            agree((1 << 113) - 1, 1 << 112, places),
            agree(1 << 112, (1 << 113) - 1, places),
            agree((1 << 125) - 2, (1 << 125) - 1, places),
            agree((1 << 125) - 1, (1 << 124) + 1, places),
            agree(dividend, 0x1f0f_0000_ffff_0000_0000_1234_0001, places),
        ];
        same(agreeing, [true; 7], places);
    }
}

/// Whether the division by a guess that is off by `distance` returns the quotient, rounded to odd.
fn guess_agrees(distance: u64, dividend: u64, divisor: u64, places: u32) -> bool {
    let single = divide(u128::from(dividend), u128::from(divisor), places);
    let whole = (single.whole % (1 << 64)) as u64;
    let more = u64::from(!is_exact(single.loss) & (whole % 2 == 0));
    let guess = whole.wrapping_add(distance);
    divide_by_guess(guess, dividend, divisor, places) == whole.wrapping_add(more)
}

/// Whether the division returns the same for guesses that are exact, or too great or too small by 1, 2 and much more.
fn guesses_agree(dividend: u64, divisor: u64, places: u32) -> bool {
    guess_agrees(0, dividend, divisor, places)
        && guess_agrees(1, dividend, divisor, places)
        && guess_agrees(2, dividend, divisor, places)
        && guess_agrees(1 << 63, dividend, divisor, places)
        && guess_agrees(0u64.wrapping_sub(1), dividend, divisor, places)
        && guess_agrees(0u64.wrapping_sub(2), dividend, divisor, places)
}

/// The rest after `places` doublings, one at a time, and whether the integral quotient is odd.
fn doubled_rest(dividend: u128, divisor: u128, places: u32) -> (u128, bool) {
    let mut rest = dividend % divisor;
    let mut odd = dividend >= divisor;
    for _place in 0..places {
        let twice = rest.wrapping_mul(2);
        odd = twice >= divisor;
        rest = twice % divisor;
    }
    (rest, odd)
}

/// Whether the rests found by many digits at a time are those found by doublings.
fn rests_agree(dividend: u128, divisor: u128, places: u32) -> bool {
    let single = doubled_rest(dividend, divisor, places);
    let in_u128 = u128_moved_rest(dividend, divisor, places);
    if in_u128.rest != single.0 || in_u128.odd != single.1 {
        return false;
    }
    if divisor >= 1 << 62 {
        return true;
    }
    let in_word = word_moved_rest(dividend as u64, divisor as u64, places);
    in_word.rest == single.0 && in_word.odd == single.1
}

/// The next word of a generator (xorshift).
fn next_word(word: u64) -> u64 {
    let first = word ^ (word << 13);
    let second = first ^ (first >> 7);
    second ^ (second << 17)
}

/// A dividend below twice the divisor.
fn close_to(divisor: u128, dividend: u128) -> u128 {
    if dividend < 2 * divisor { dividend } else { divisor - 1 }
}

/// Whether all methods agree for a dividend and a divisor made of two words.
fn made_operands_agree(first: u64, second: u64, places: u32) -> bool {
    let word_divisor = u128::from(first % (1 << 61)) + 1;
    let word_dividend = close_to(word_divisor, u128::from(second % (1 << 62)));
    let divisor = u128::from(first) * (1 << 60) + 1;
    let dividend = close_to(divisor, u128::from(second) * (1 << 60) + u128::from(first));
    rests_agree(word_dividend, word_divisor, places)
        && agree(word_dividend, word_divisor, places % 127)
        && rests_agree(dividend, divisor, places)
        && agree(dividend, divisor, places % 127)
}

#[test]
fn many_and_single_digits_agree_on_made_operands() {
    let mut word: u64 = 88172645463325252;
    for round in 0..1000u32 {
        let first = next_word(word);
        word = next_word(first);
        let agreeing = [
            made_operands_agree(first, word, round % 400),
            made_operands_agree(first >> (round % 60), word >> (round % 60), round % 400),
        ];
        same(agreeing, [true; 2], round);
    }
}

#[test]
fn guesses_and_single_digits_agree() {
    for places in 0..62 {
        let agreeing = [
            guesses_agree(1, 1, places),
            guesses_agree(5, 3, places),
            guesses_agree((1 << 53) - 1, 1 << 52, places),
            guesses_agree(1 << 52, (1 << 53) - 1, places),
            guesses_agree((1 << 62) - 2, (1 << 62) - 1, places),
        ];
        same(agreeing, [true; 5], places);
    }
}

/// Whether the rests after many places are those found by doublings.
fn far_rests_agree(places: u32) -> bool {
    rests_agree(5, 3, places)
        && rests_agree((1 << 113) - 1, 1 << 112, places)
        && rests_agree((1 << 125) - 2, (1 << 125) - 1, places)
        && rests_agree((1 << 125) - 1, (1 << 124) + 1, places)
}

#[test]
fn far_rests_and_doubled_rests_agree() {
    let agreeing = [far_rests_agree(1500), far_rests_agree(1501), far_rests_agree(2048), far_rests_agree(5000)];
    same(agreeing, [true; 4], "far");
}

#[test]
fn rests_and_doubled_rests_agree() {
    for places in 0..200 {
        let agreeing = [
            rests_agree(1, 1, places),
            rests_agree(5, 3, places),
            rests_agree((1 << 53) - 1, 1 << 52, places),
            rests_agree((1 << 62) - 1, (1 << 61) + 1, places),
            rests_agree((1 << 113) - 1, 1 << 112, places),
            rests_agree((1 << 125) - 2, (1 << 125) - 1, places),
            rests_agree((1 << 125) - 1, (1 << 124) + 1, places),
        ];
        same(agreeing, [true; 7], places);
    }
}
