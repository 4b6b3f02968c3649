//! Values in decimal, as the crate `rustc_apfloat` lays them out. The digits are the library's: `rounded` has up to 36
//! of them, and `write_digits` any number. Each value is rounded once.
//!
//! That crate first cuts digits off, by a count that it estimates from the binary digits, and then rounds half up to
//! those that are wanted. So it rounds to nearest, ties away from zero, unless the estimate leaves exactly the digits
//! that are wanted: then it rounds toward zero.

use crate::Category;
use crate::erased::apfloat_base::{ExpInt, Float as _, Round, Status};
use crate::erased::apfloat_decimals::large::Large;
use crate::erased::apfloat_decimals::{first_place, rounded as rounded_decimal};
use crate::erased::apfloat_digits::decimal::{Written, digit_count, write_digits};
use crate::erased::apfloat_ieee::{IeeeFloat, Semantics};
use alloc::vec::Vec;
use core::fmt::{self, Write};
use core::str;

/// As many digits as `rounded` gives at most.
const MOST_OF_A_DECIMAL: usize = 36;

/// A number as that crate sees it: an odd integer times a power of two.
#[derive(Clone, Copy)]
pub(crate) struct Number {
    pub odd: u128,
    pub twos: ExpInt,
}

impl Number {
    pub(crate) fn new(significand: u128, exponent: ExpInt) -> Self {
        let zeros = significand.trailing_zeros();
        Number { odd: significand >> zeros, twos: exponent + zeros as ExpInt }
    }

    /// The number itself or, if that is no integer, the least integer that is the number times a power of ten; if it is
    /// below 2^128.
    fn whole(self) -> Option<u128> {
        let power = self.twos.unsigned_abs();
        if self.twos < 0 {
            return 5u128.checked_pow(power)?.checked_mul(self.odd);
        }
        (power < self.odd.leading_zeros()).then(|| self.odd << power)
    }

    /// How many binary digits that integer has.
    fn length_of_whole(self) -> usize {
        let mut whole = Large::from_digits(self.odd);
        if self.twos >= 0 {
            return whole.digits() as usize + self.twos as usize;
        }
        whole.times_five_to(self.twos.unsigned_abs());
        whole.digits() as usize
    }
}

/// The mode in which that crate rounds to `wanted` digits, of an integer of so many binary and decimal digits.
pub(crate) fn round_for(binary: usize, decimal: usize, wanted: usize) -> Round {
    // The logarithm of 2 is a little more than 59 / 196.
    let surplus = binary.saturating_sub((wanted * 196).div_ceil(59));
    let cut = surplus * 59 / 196;
    if decimal - cut > wanted { Round::NearestTiesToAway } else { Round::TowardZero }
}

/// The digits of a number, as bytes, without zeros at the end.
pub(crate) struct Digits {
    few: [u8; MOST_OF_A_DECIMAL],
    many: Vec<u8>,
    count: usize,
    /// The exponent of ten of the first one.
    first: ExpInt,
    is_exact: bool,
}

impl Digits {
    pub(crate) fn new(many: Vec<u8>, first: ExpInt, is_exact: bool) -> Self {
        let mut digits = Digits { few: [b'0'; MOST_OF_A_DECIMAL], count: many.len(), many, first, is_exact };
        digits.drop_zeros();
        digits
    }

    pub(crate) fn power_of_ten(exponent: ExpInt) -> Self {
        let mut few = [b'0'; MOST_OF_A_DECIMAL];
        few[0] = b'1';
        Digits { few, many: Vec::new(), count: 1, first: exponent, is_exact: false }
    }

    /// The digits of a number of at most 36, whose last one has that exponent of ten.
    fn of_decimal(mut number: u128, count: usize, last: ExpInt, is_exact: bool) -> Self {
        const IN_A_WORD: usize = 19;
        let mut few = [b'0'; MOST_OF_A_DECIMAL];
        for group in few[..count].rchunks_mut(IN_A_WORD) {
            let mut word = (number % 10u128.pow(IN_A_WORD as u32)) as u64;
            number /= 10u128.pow(IN_A_WORD as u32);
            for digit in group.iter_mut().rev() {
                *digit = b'0' + (word % 10) as u8;
                word /= 10;
            }
        }
        let mut digits = Digits { few, many: Vec::new(), count, first: last + (count as ExpInt - 1), is_exact };
        digits.drop_zeros();
        digits
    }

    /// The digits of a nonzero number, rounded once to `count` of them.
    fn of<S: Semantics>(x: IeeeFloat<S>, count: usize, round: Round) -> Self {
        if count <= MOST_OF_A_DECIMAL
            && let Some((decimal, is_exact)) = rounded_decimal(x, count as u32, round)
        {
            return Self::of_decimal(decimal.digits, count, decimal.exponent, is_exact);
        }
        // In as many digits as the value has, it is exact in each mode.
        let all = digit_count(x).unwrap_or(1) as usize;
        let mut many = Vec::new();
        many.resize(count.min(all), b'0');
        match write_digits(x, round, &mut many) {
            Written::Digits(answer) => Self::new(many, answer.value, answer.status == Status::OK),
            Written::WithoutDigits(_) | Written::NoRoom => unreachable!("a number has a first digit"),
        }
    }

    fn drop_zeros(&mut self) {
        while self.count > 1 && self.bytes().last() == Some(&b'0') {
            self.count -= 1;
        }
    }

    fn bytes(&self) -> &[u8] {
        if self.many.is_empty() { &self.few[..self.count] } else { &self.many[..self.count] }
    }
}

/// The digits of a nonzero number, rounded to `wanted` of them as that crate rounds. If none are wanted, it writes the
/// next power of ten.
pub(crate) fn rounded<S: Semantics>(x: IeeeFloat<S>, number: Number, wanted: usize) -> Digits {
    if wanted == 0 {
        return Digits::power_of_ten(first_place(x.abs()) + 1);
    }
    if let Some(whole) = number.whole() {
        let (binary, decimal) = (u128::BITS - whole.leading_zeros(), whole.ilog10() + 1);
        return Digits::of(x, wanted, round_for(binary as usize, decimal as usize, wanted));
    }
    let nearest = Digits::of(x, wanted, Round::NearestTiesToAway);
    if nearest.is_exact {
        return nearest;
    }
    // A 1 alone may be what a carry made of the digit before it.
    let first = if nearest.bytes() == b"1" { first_place(x.abs()) } else { nearest.first };
    let decimal = first + 1 - number.twos.min(0);
    match round_for(number.length_of_whole(), decimal as usize, wanted) {
        Round::TowardZero => Digits::of(x, wanted, Round::TowardZero),
        _ => nearest,
    }
}

/// Writes a value: `digits` gives those of a nonzero number, as many as are wanted.
pub(crate) fn write(
    f: &mut fmt::Formatter<'_>,
    category: Category,
    negative: bool,
    precision: usize,
    digits: impl FnOnce(usize) -> Digits,
) -> fmt::Result {
    match category {
        Category::NaN => return f.write_str("NaN"),
        Category::Infinity => return f.write_str(if negative { "-Inf" } else { "+Inf" }),
        Category::Zero | Category::Normal if negative => f.write_char('-')?,
        Category::Zero | Category::Normal => {}
    }
    if category == Category::Zero {
        return write_zero(f);
    }
    // As many digits as tell a value from the others of its format.
    let wanted = f.precision().unwrap_or(2 + precision * 59 / 196);
    let digits = digits(wanted);
    write_number(f, digits.bytes(), digits.first, wanted)
}

fn write_zeros(f: &mut fmt::Formatter<'_>, count: usize) -> fmt::Result {
    (0..count).try_for_each(|_| f.write_char('0'))
}

fn write_bytes(f: &mut fmt::Formatter<'_>, digits: &[u8]) -> fmt::Result {
    f.write_str(str::from_utf8(digits).map_err(|_| fmt::Error)?)
}

fn write_zero(f: &mut fmt::Formatter<'_>) -> fmt::Result {
    if f.width() != Some(0) {
        return f.write_char('0');
    }
    if !f.alternate() {
        return f.write_str("0.0E+0");
    }
    f.write_str("0.0")?;
    write_zeros(f, f.precision().unwrap_or(1).saturating_sub(1))?;
    f.write_str("e+00")
}

fn write_number(f: &mut fmt::Formatter<'_>, digits: &[u8], first: ExpInt, wanted: usize) -> fmt::Result {
    let most_zeros = f.width().unwrap_or(3);
    let count = digits.len();
    let last = first - (count as ExpInt - 1);
    let scientific = most_zeros == 0
        || if last >= 0 {
            last as usize > most_zeros || count + last as usize > wanted
        } else {
            first < 0 && first.unsigned_abs() as usize > most_zeros
        };
    if scientific {
        return write_scientific(f, digits, first, wanted);
    }
    if last >= 0 {
        write_bytes(f, digits)?;
        return write_zeros(f, last as usize);
    }
    let places = last.unsigned_abs() as usize;
    if places < count {
        write_bytes(f, &digits[..count - places])?;
        f.write_char('.')?;
        write_bytes(f, &digits[count - places..])
    } else {
        f.write_str("0.")?;
        write_zeros(f, places - count)?;
        write_bytes(f, digits)
    }
}

fn write_scientific(f: &mut fmt::Formatter<'_>, digits: &[u8], first: ExpInt, wanted: usize) -> fmt::Result {
    write_bytes(f, &digits[..1])?;
    f.write_char('.')?;
    write_bytes(f, &digits[1..])?;
    if f.alternate() {
        write_zeros(f, (wanted + 1).saturating_sub(digits.len()))?;
        return write!(f, "e{first:+03}");
    }
    if digits.len() == 1 {
        f.write_char('0')?;
    }
    write!(f, "E{first:+}")
}
