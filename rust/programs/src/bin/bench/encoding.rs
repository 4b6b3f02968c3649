//! The encoding of a format, and random numbers of the format.

use crate::erased::apfloat_base::NonfiniteBehavior;
use crate::erased::rustc_apfloat::ieee::Semantics;
use crate::generator::Generator;
use crate::operand_set::OperandSet;

/// How a format with bits encodes numbers.
#[derive(Clone, Copy)]
pub struct Encoding {
    bits: usize,
    precision: i32,
    min_exp: i32,
    max_exp: i32,
    writes_integer_bit: bool,
    // Whether the pattern of all ones, which would be the greatest number, is the NaN.
    all_ones_is_nan: bool,
}

impl Encoding {
    /// The encoding of a format.
    pub fn of<S: Semantics>() -> Self {
        Encoding {
            bits: S::BITS,
            precision: i32::try_from(S::PRECISION).unwrap_or(0),
            min_exp: S::MIN_EXP,
            max_exp: S::MAX_EXP,
            writes_integer_bit: S::EXPLICIT_INTEGER_BIT,
            all_ones_is_nan: S::NONFINITE_BEHAVIOR == NonfiniteBehavior::NanOnly,
        }
    }

    /// The bits of the number with this sign, biased exponent and trailing significand.
    pub fn bits_of(self, is_negative: bool, biased: i32, digits: u128) -> u128 {
        let trailing = width(self.precision.saturating_sub(1));
        let mut significand = digits & ones(trailing);
        let greatest = self.max_exp.saturating_sub(self.min_exp).saturating_add(1);
        if self.all_ones_is_nan && biased == greatest && significand == ones(trailing) {
            significand &= !1;
        }
        let mut below_exponent = trailing;
        if self.writes_integer_bit {
            below_exponent = width(self.precision);
            if biased > 0 {
                significand |= shifted(1, trailing);
            }
        }
        let sign = shifted(u128::from(is_negative), self.bits.saturating_sub(1));
        let exponent = shifted(u128::try_from(biased).unwrap_or(0), below_exponent);
        sign | exponent | significand
    }

    /// The bits of the normal number with this sign and exponent.
    pub fn normal_bits(self, is_negative: bool, exponent: i32, digits: u128) -> u128 {
        let field = exponent.max(self.min_exp).saturating_sub(self.min_exp);
        self.bits_of(is_negative, field.saturating_add(1), digits)
    }

    /// The bits of the next operand.
    pub fn operand(self, set: OperandSet, generator: &mut Generator) -> u128 {
        let head = generator.word();
        let digits = generator.wide_word();
        let is_negative = head >> 63 == 1;
        let choice = head >> 8 & 3;
        match set {
            OperandSet::Normal => self.moderate(is_negative, digits, generator),
            OperandSet::Denormal => match choice {
                0 => self.denormal(is_negative, digits, generator),
                1 => {
                    let fields = self.max_exp.saturating_sub(self.min_exp);
                    let greatest = self.precision.saturating_add(2).min(fields);
                    self.bits_of(is_negative, generator.exponent(1, greatest), digits)
                }
                _ => self.moderate(is_negative, digits, generator),
            },
            OperandSet::IntegerDenormal if choice < 2 => self.denormal(is_negative, digits, generator),
            OperandSet::Integer | OperandSet::IntegerDenormal => {
                let greatest = self.max_exp.saturating_sub(1).min(62);
                self.normal_bits(is_negative, generator.exponent(-2, greatest), digits)
            }
        }
    }

    /// The bits of the next pair: an operand, and a low part whose exponent is 54 to 64 lower, or 0 if that is not a
    /// normal number of binary64.
    pub fn pair(self, set: OperandSet, generator: &mut Generator) -> u128 {
        let high = self.operand(set, generator);
        let head = generator.word();
        let digits = u128::from(generator.word());
        let places = 54 + (head % 11) as i32;
        let field = (high >> 52 & 0x7ff) as i32 - places;
        let low = if field >= 1 { self.bits_of(head >> 63 == 1, field, digits) } else { 0 };
        low << 64 | high
    }

    /// A normal number with an exponent near 0.
    fn moderate(self, is_negative: bool, digits: u128, generator: &mut Generator) -> u128 {
        let span = self.span();
        self.normal_bits(is_negative, generator.exponent(0i32.saturating_sub(span), span), digits)
    }

    /// A nonzero denormal number of random length.
    fn denormal(self, is_negative: bool, digits: u128, generator: &mut Generator) -> u128 {
        let length = generator.exponent(1, self.precision.saturating_sub(1));
        let first = shifted(1, width(length.saturating_sub(1)));
        self.bits_of(is_negative, 0, digits & ones(width(length)) | first)
    }

    /// The bound of the exponents of moderate numbers, which range from `-span` to `span`.
    fn span(self) -> i32 {
        let half_the_digits = (self.precision / 2).saturating_add(2);
        half_the_digits.min((self.max_exp / 2).saturating_sub(1)).max(1)
    }

    /// The greatest number of hexadecimal digits after the point of a text.
    pub fn digits_of_texts(self) -> u64 {
        u64::try_from(self.precision.saturating_add(3) / 4).unwrap_or(0).saturating_add(4)
    }

    /// The next exponent of a text, for a number near the denormal ones or near 1.
    pub fn exponent_of_text(self, is_small: bool, generator: &mut Generator) -> i32 {
        if is_small {
            let least = self.min_exp.saturating_sub(self.precision);
            generator.exponent(least, self.min_exp.saturating_add(self.precision).saturating_sub(1))
        } else {
            let span = self.span();
            generator.exponent(0i32.saturating_sub(span), span)
        }
    }
}

fn width(digits: i32) -> usize {
    usize::try_from(digits).unwrap_or(0)
}

fn ones(count: usize) -> u128 {
    shifted(1, count).wrapping_sub(1)
}

fn shifted(number: u128, zeros: usize) -> u128 {
    if zeros < 128 { number << zeros } else { 0 }
}
