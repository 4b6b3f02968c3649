//! Ratios in decibels, by whole numbers.

use crate::erased::rustc_apfloat::ieee::Double;

/// Ten times the decimal logarithm of 2, times 2^32.
const TEN_LOG_2: i128 = 12_929_139_865;

/// Ten times the decimal logarithm of x / y in hundredths, rounded to nearest, of positive numbers.
pub fn hundredths(x: Double, y: Double) -> i64 {
    let difference = log_2(x) - log_2(y);
    // In units of 2^-64.
    let decibels = difference * TEN_LOG_2 * 100;
    ((decibels + (1 << 63)) >> 64) as i64
}

/// The binary logarithm of a positive number, times 2^32, rounded down.
fn log_2(x: Double) -> i128 {
    let number = x.number();
    let high = number.significand.ilog2();
    // The number is `square` times a power of two, with one digit before the dot and 62 after it.
    let mut square = number.significand << (62 - high);
    let mut logarithm = i128::from(number.exponent) + i128::from(high);
    for _ in 0..32 {
        square = square * square >> 62;
        let is_two = square >> 63 != 0;
        square >>= u32::from(is_two);
        logarithm = logarithm << 1 | i128::from(is_two);
    }
    logarithm
}
