//! Decimal texts: `Display` and `Debug` in their layouts, reading in each kind of format, and the words of refusals.

use rustc_apfloat::ieee::*;
use rustc_apfloat::ppc::DoubleDouble;
use rustc_apfloat::{Float, FloatConvert, ParseError, Round, Status};

const MODES: [Round; 5] = [
    Round::NearestTiesToEven,
    Round::TowardPositive,
    Round::TowardNegative,
    Round::TowardZero,
    Round::NearestTiesToAway,
];

fn double(x: f64) -> Double {
    Double::from_bits(x.to_bits().into())
}

/// Doubles of every exponent, from Marsaglia's 64-bit generator.
fn doubles() -> impl Iterator<Item = f64> {
    let mut state = 0x9e37_79b9_7f4a_7c15_u64;
    std::iter::repeat_with(move || {
        state ^= state << 13;
        state ^= state >> 7;
        state ^= state << 17;
        f64::from_bits(state)
    })
    .filter(|x| x.is_finite() && *x != 0.0)
}

/// `text` without zeros at the end of its digits, which has at least one digit after its dot.
fn trimmed(text: &str) -> String {
    let (digits, exponent) = text.split_once('e').unwrap();
    let (whole, fraction) = digits.split_once('.').unwrap_or((digits, ""));
    let fraction = fraction.trim_end_matches('0');
    let exponent: i32 = exponent.parse().unwrap();
    format!("{whole}.{}E{exponent:+}", if fraction.is_empty() { "0" } else { fraction })
}

#[test]
fn all_digits_are_those_of_the_number() {
    for x in doubles().take(100) {
        assert_eq!(format!("{:1$.2$}", double(x), 0, 800), trimmed(&format!("{x:.799e}")));
    }
}

/// How many binary digits an odd integer times a power of two has, or times that of five if the power is below 0.
fn binary_length(mut odd: u64, power: i32) -> usize {
    if power >= 0 {
        return (64 - odd.leading_zeros()) as usize + power as usize;
    }
    let mut words = Vec::new();
    while odd != 0 {
        words.push(odd as u32);
        odd >>= 32;
    }
    for _ in 0..power.unsigned_abs() {
        let mut carry = 0;
        for word in &mut words {
            carry += u64::from(*word) * 5;
            *word = carry as u32;
            carry >>= 32;
        }
        if carry != 0 {
            words.push(carry as u32);
        }
    }
    32 * words.len() - words.last().unwrap().leading_zeros() as usize
}

/// The crate's estimate of how many digits of a double are clearly more than those wanted leaves just these.
fn is_cut(x: f64, wanted: usize) -> bool {
    let field = (x.to_bits() >> 52 & 0x7ff) as i32;
    let significand = x.to_bits() & ((1 << 52) - 1) | u64::from(field != 0) << 52;
    let zeros = significand.trailing_zeros();
    let power = field.max(1) - 1075 + zeros as i32;
    let surplus = binary_length(significand >> zeros, power).saturating_sub((wanted * 196).div_ceil(59));
    let first: i32 = format!("{:.799e}", x).split_once('e').unwrap().1.parse().unwrap();
    let digits = first + 1 - power.min(0);
    digits as usize - surplus * 59 / 196 <= wanted
}

/// A double in scientific layout, cut to so many digits, or rounded half up to them.
fn few_digits(x: f64, wanted: usize) -> String {
    let text = format!("{:.799e}", x.abs());
    let (digits, exponent) = text.split_once('e').unwrap();
    let mut digits: Vec<u8> = digits.bytes().filter(u8::is_ascii_digit).collect();
    let mut exponent: i32 = exponent.parse().unwrap();
    let up = digits[wanted] >= b'5' && !is_cut(x, wanted);
    digits.truncate(wanted);
    if up {
        let nines = digits.iter().rev().take_while(|digit| **digit == b'9').count();
        digits.truncate(wanted - nines);
        match digits.last_mut() {
            Some(digit) => *digit += 1,
            None => {
                digits.push(b'1');
                exponent += 1;
            }
        }
    }
    let sign = if x < 0.0 { "-" } else { "" };
    let (first, others) = digits.split_at(1);
    let [first, others] = [first, others].map(|digits| String::from_utf8(digits.to_vec()).unwrap());
    trimmed(&format!("{sign}{first}.{others}e{exponent}"))
}

#[test]
fn few_digits_are_rounded_half_up_or_cut() {
    let mut cut = 0;
    // Also numbers without far exponents, whose least integer has few digits.
    let near = doubles().map(|x| f64::from_bits(x.to_bits() & (!0 >> 2 | 1 << 63) | 0x3fe << 52));
    let short = doubles().map(|x| f64::from_bits(x.to_bits() & !0xffff_ffff & !(1 << 61) | 1 << 62));
    for x in doubles().take(100).chain(near.take(300)).chain(short.take(300)) {
        for digits in [x.to_bits() as usize % 16 + 1, 17, x.to_bits() as usize % 30 + 18] {
            assert_eq!(format!("{:1$.2$}", double(x), 0, digits), few_digits(x, digits), "{x:e} {digits}");
            cut += usize::from(is_cut(x, digits));
        }
    }
    assert!(cut > 100, "{cut}");
}

#[test]
fn layouts() {
    let x = double(10100.0);
    assert_eq!(format!("{x:2.5}"), "10100");
    assert_eq!(format!("{x:2.4}"), "1.01E+4");
    assert_eq!(format!("{x:1.5}"), "1.01E+4");
    let x = double(0.0101);
    assert_eq!(format!("{x:2.5}"), "0.0101");
    assert_eq!(format!("{x:2.4}"), "0.0101");
    assert_eq!(format!("{x:1.4}"), "1.01E-2");
    assert_eq!(format!("{x:#1.4}"), "1.0100e-02");
    assert_eq!(format!("{:#1$}", double(1e100), 0), "1.00000000000000000e+100");
    assert_eq!(format!("{:.4}", double(99999.0)), "1.0E+5");
    assert_eq!(format!("{:.0} {:.0}", double(7.0), double(8.0)), "1.0E+1 1.0E+1");
    // Cut to a digit, and not rounded: the estimate of how many digits are to be cut leaves just one.
    assert_eq!(format!("{:.1}", double(8999.0)), "8.0E+3");

    assert_eq!(Double::ZERO.to_string(), "0");
    assert_eq!((-Double::ZERO).to_string(), "-0");
    assert_eq!(format!("{:1$}", -Double::ZERO, 0), "-0.0E+0");
    assert_eq!(format!("{:#1$.2$}", Double::ZERO, 0, 4), "0.0000e+00");
    assert_eq!(Double::INFINITY.to_string(), "+Inf");
    assert_eq!((-Double::INFINITY).to_string(), "-Inf");
    assert_eq!((-Double::NAN).to_string(), "NaN");

    assert_eq!(Single::largest().to_string(), "3.40282347E+38");
    assert_eq!(Half::SMALLEST.to_string(), "5.9605E-8");
    assert_eq!(double(0.1).to_string(), "0.10000000000000001");
    assert_eq!(double(-123.5).to_string(), "-123.5");
    assert_eq!(Quad::from_u128(3).value.to_string(), "3");
}

#[test]
fn values_for_debugging() {
    assert_eq!(format!("{:?}", double(1.0)), "1(Normal | +[4503599627370496] * 2^0)");
    assert_eq!(format!("{:?}", -Half::SMALLEST), "-5.9605E-8(Normal | -[1] * 2^-14)");
    assert_eq!(format!("{:?}", Half::ZERO), "0(Zero | +[0] * 2^-15)");
    assert_eq!(format!("{:?}", Half::INFINITY), "+Inf(Infinity | +[0] * 2^16)");
    assert_eq!(format!("{:?}", Half::NAN), "NaN(NaN | +[512] * 2^16)");
    assert_eq!(format!("{:?}", Float8E4M3FN::NAN), "NaN(NaN | +[7] * 2^8)");
    let pair = DoubleDouble::from_bits(0x3ff0_0000_0000_0000);
    assert_eq!(format!("{pair:?}"), "DoubleFloat(1(Normal | +[4503599627370496] * 2^0), 0(Zero | +[0] * 2^-1023))");
    assert_eq!(
        format!("{:?}", Half::from_u128(2049)),
        "StatusAnd { status: Status(INEXACT), value: 2048(Normal | +[1024] * 2^11) }"
    );
}

#[test]
fn decimals_are_read() {
    for x in doubles().take(1000) {
        let text = format!("{x:e}");
        assert_eq!(text.parse::<Double>().unwrap().to_bits(), u128::from(x.to_bits()), "{text}");
    }
    let pair: DoubleDouble = "0.1".parse().unwrap();
    assert_eq!(pair.to_bits(), 0xbc59_9999_9999_999a_3fb9_9999_9999_999a);
}

/// A format of double's digits whose exponents are past those of binary128.
struct FarS;

impl Semantics for FarS {
    const BITS: usize = 0;
    const EXP_BITS: usize = 0;
    const PRECISION: usize = 53;
    const MAX_EXP: i32 = 1 << 20;
    const MIN_EXP: i32 = -(1 << 20);
}

type Far = IeeeFloat<FarS>;

#[test]
fn decimals_are_read_in_formats_of_far_exponents() {
    for (i, x) in doubles().take(100).enumerate() {
        // Not the value itself, but a number near it, of few digits or of many.
        let text = format!("{:.1$e}", x, i % 40);
        for round in MODES {
            let answer = Double::from_str_r(&text, round).unwrap();
            if !answer.value.is_normal() || answer.value.is_smallest_normalized() {
                continue;
            }
            let far = Far::from_str_r(&text, round).unwrap();
            let back: Double = far.value.convert(&mut false).value;
            assert_eq!((far.status, back.to_bits()), (answer.status, answer.value.to_bits()), "{text} {round:?}");
        }
    }
    assert_eq!("1e300000".parse::<Far>().unwrap().ilogb(), 996_578);
    assert_eq!("1e-300000".parse::<Far>().unwrap().ilogb(), -996_579);
    let past = Far::from_str_r("-1e999999999999999999999", Round::NearestTiesToEven).unwrap();
    assert_eq!((past.status, past.value.is_neg_infinity()), (Status::OVERFLOW | Status::INEXACT, true));
    let below = Far::from_str_r("1e-999999999999999999999", Round::TowardPositive).unwrap();
    assert_eq!((below.status, below.value.is_smallest()), (Status::UNDERFLOW | Status::INEXACT, true));
    let zero = Far::from_str_r("-0.00e7", Round::NearestTiesToEven).unwrap();
    assert_eq!((zero.status, zero.value.is_neg_zero()), (Status::OK, true));
    // 1 + 2^-53, a tie in a format of 53 digits, and the same with one more digit far behind.
    let tie = "1.00000000000000011102230246251565404236316680908203125";
    for round in MODES {
        for text in [tie.to_owned(), format!("{tie}{}1", "0".repeat(3000)), format!("{}{tie}", "0".repeat(9))] {
            let (far, plain) = (Far::from_str_r(&text, round).unwrap(), Double::from_str_r(&text, round).unwrap());
            let back: Double = far.value.convert(&mut false).value;
            assert_eq!((far.status, back.to_bits()), (plain.status, plain.value.to_bits()), "{round:?}");
        }
    }
    assert_eq!("1.5e1".parse::<Far>().unwrap(), Far::from_u128(15).value);
}

#[test]
fn values_of_far_exponents_are_written() {
    for x in doubles().filter(|x| x.is_normal()).take(40) {
        let far: Far = double(x).convert(&mut false).value;
        assert_eq!(far.to_string(), double(x).to_string());
        let digits = x.to_bits() as usize % 60;
        assert_eq!(format!("{far:#0$.1$}", 0, digits), format!("{:#1$.2$}", double(x), 0, digits), "{x:e}");
    }
    // 2^20000 and 2^-20000 by whole numbers of Python.
    let (up, down) = (Far::from_u128(1).value.scalbn(20_000), Far::from_u128(1).value.scalbn(-20_000));
    assert_eq!(up.to_string(), "3.9802768403379666E+6020");
    assert_eq!(format!("{up:.3} {up:.1} {up:.0}"), "3.98E+6020 4.0E+6020 1.0E+6021");
    assert_eq!((-down).to_string(), "-2.5123880576987446E-6021");
    assert_eq!(format!("{down:.3} {down:.1} {down:.0}"), "2.51E-6021 3.0E-6021 1.0E-6020");
}

#[test]
fn decimals_are_read_with_the_flags_of_ieee_754() {
    type Raised = IeeeFloat<IeeeFlags<DoubleS>>;
    for (i, x) in doubles().take(100).enumerate() {
        let text = format!("{:.1$e}", x, i % 40);
        for round in MODES {
            let plain = Double::from_str_r(&text, round).unwrap();
            let raised = Raised::from_str_r(&text, round).unwrap();
            assert_eq!(raised.value.to_bits(), plain.value.to_bits(), "{text} {round:?}");
            let exact = |status: Status| status & Status::INEXACT;
            assert_eq!(exact(raised.status), exact(plain.status), "{text} {round:?}");
        }
    }
    let text = format!("1{}1e-20000", "0".repeat(20_000));
    assert_eq!(Raised::from_str_r(&text, Round::TowardPositive).unwrap().value.to_bits(), 0x4024_0000_0000_0001);
    let both = Status::OVERFLOW | Status::INEXACT;
    assert_eq!(Double::from_str_r("1e400", Round::TowardZero).unwrap().status, Status::INEXACT);
    assert_eq!(Raised::from_str_r("1e400", Round::TowardZero).unwrap().status, both);
}

#[test]
fn refusals_have_the_words_of_the_crate() {
    for (text, words) in [
        ("", "Invalid string length"),
        ("-", "String has no digits"),
        ("0x", "Invalid string"),
        ("0x1.0.p1", "String contains multiple dots"),
        ("0x1.gp1", "Invalid character in significand"),
        ("0x.p1", "Significand has no digits"),
        ("0x1p1a", "Invalid character in exponent"),
        ("0x1p", "Exponent has no digits"),
        ("0x1", "Hex strings require an exponent"),
        ("1.0.0", "String contains multiple dots"),
        ("1a", "Invalid character in significand"),
        (".", "Significand has no digits"),
        ("e1", "Significand has no digits"),
        ("1e1a", "Invalid character in exponent"),
        ("1e", "Exponent has no digits"),
    ] {
        assert_eq!(Double::from_str_r(text, Round::TowardZero).unwrap_err(), ParseError(words), "{text}");
        assert_eq!(text.parse::<Far>().unwrap_err(), ParseError(words), "{text}");
        assert_eq!(text.parse::<DoubleDouble>().unwrap_err(), ParseError(words), "{text}");
    }
}
