//! The modules beyond the interface of the crate `rustc_apfloat`: comparisons, extrema, logarithms and integers against
//! the arithmetic of `f64`, into which codes of eight bits are decoded exactly, storage formats, and conversions with
//! random digits. `rows.rs` has their rows.

use rustc_apfloat::comparisons::{self, Class, Extremum, OnNan, Predicate};
use rustc_apfloat::conversion_modes::{ConversionRound, RandomDigits, RandomError, convert_by};
use rustc_apfloat::ieee::*;
use rustc_apfloat::more::IeeeMore;
use rustc_apfloat::storage_formats::{E2M1FN, E3M2FN, E8M0FNU, Float8E3M4, StoredFloat, UE4M3};
use rustc_apfloat::{Category, Float, IEK_INF, IEK_NAN, IEK_ZERO, Round, Status, StatusAnd};
use std::cmp::Ordering;

const MODES: [Round; 5] = [
    Round::NearestTiesToEven,
    Round::TowardPositive,
    Round::TowardNegative,
    Round::TowardZero,
    Round::NearestTiesToAway,
];

type Small = Float8E5M2;

/// The value of a code of `Small`: a half whose lower eight bits are 0, whose fields are those of a double with other
/// widths. Denormals have the quantum 2^-16.
fn decoded(code: u8) -> f64 {
    let (negative, field, digits) = (code >> 7, u64::from(code >> 2 & 31), u64::from(code & 3));
    let magnitude = match field {
        0 => digits as f64 / 65536.0,
        31 => f64::from_bits(0x7ff << 52 | digits << 50),
        _ => f64::from_bits((field + 1008) << 52 | digits << 50),
    };
    f64::from_bits(magnitude.to_bits() | u64::from(negative) << 63)
}

fn small(code: u8) -> Small {
    Small::from_bits(code.into())
}

fn is_signaling(code: u8) -> bool {
    decoded(code).is_nan() && code & 2 == 0
}

/// Each fifth code and the special ones, with both signs.
fn codes() -> Vec<u8> {
    let special = [0x00, 0x01, 0x03, 0x04, 0x3c, 0x7b, 0x7c, 0x7d, 0x7e, 0x7f];
    let mut codes: Vec<u8> = (0..=255).step_by(5).chain(special).chain(special.map(|code| code | 0x80)).collect();
    codes.sort();
    codes.dedup();
    codes
}

type Compare = fn(Small, Small) -> StatusAnd<bool>;

/// The predicates, their quiet and signaling calls, and which relations satisfy them: less, equal, greater and unordered
/// (IEEE 754-2019, tables 5.1 to 5.3).
const PREDICATES: [(Predicate, Compare, Option<Compare>, &str); 12] = {
    use comparisons::*;
    [
        (Predicate::Equal, compare_quiet_equal, Some(compare_signaling_equal), "="),
        (Predicate::NotEqual, compare_quiet_not_equal, Some(compare_signaling_not_equal), "<>?"),
        (Predicate::Greater, compare_quiet_greater, Some(compare_signaling_greater), ">"),
        (Predicate::GreaterEqual, compare_quiet_greater_equal, Some(compare_signaling_greater_equal), "=>"),
        (Predicate::Less, compare_quiet_less, Some(compare_signaling_less), "<"),
        (Predicate::LessEqual, compare_quiet_less_equal, Some(compare_signaling_less_equal), "<="),
        (Predicate::NotGreater, compare_quiet_not_greater, Some(compare_signaling_not_greater), "<=?"),
        (Predicate::LessUnordered, compare_quiet_less_unordered, Some(compare_signaling_less_unordered), "<?"),
        (Predicate::NotLess, compare_quiet_not_less, Some(compare_signaling_not_less), "=>?"),
        (Predicate::GreaterUnordered, compare_quiet_greater_unordered, Some(compare_signaling_greater_unordered), ">?"),
        (Predicate::Unordered, compare_quiet_unordered, None, "?"),
        (Predicate::Ordered, compare_quiet_ordered, None, "<=>"),
    ]
};

fn invalid_if(invalid: bool) -> Status {
    if invalid { Status::INVALID_OP } else { Status::OK }
}

#[test]
fn predicates() {
    for x in codes() {
        for y in codes() {
            let order = decoded(x).partial_cmp(&decoded(y));
            let relation = match order {
                Some(Ordering::Less) => '<',
                Some(Ordering::Equal) => '=',
                Some(Ordering::Greater) => '>',
                None => '?',
            };
            let quiet = invalid_if(is_signaling(x) || is_signaling(y));
            let signaling = invalid_if(order.is_none());
            let (x, y) = (small(x), small(y));
            let wide: Double = x.add_to(Small::ZERO, Round::TowardZero).value;
            for (predicate, quiet_call, signaling_call, relations) in PREDICATES {
                let holds = relations.contains(relation);
                assert_eq!(quiet_call(x, y), quiet.and(holds), "{x} {y} {predicate:?}");
                if let Some(call) = signaling_call {
                    assert_eq!(call(x, y), signaling.and(holds), "{x} {y} {predicate:?}");
                }
                for (on_nan, status) in [(OnNan::Quiet, quiet), (OnNan::Signaling, signaling)] {
                    let expected = status.and(holds);
                    assert_eq!(comparisons::compare(predicate, on_nan, x, y), expected);
                    if !x.is_signaling() {
                        assert_eq!(comparisons::compare_between(predicate, on_nan, wide, y), expected);
                    }
                }
            }
            assert_eq!(comparisons::relation_between(x, y), order);
        }
    }
}

#[test]
fn total_order() {
    for x in codes() {
        for y in codes() {
            let (value, other) = (decoded(x), decoded(y));
            let order = value.total_cmp(&other);
            assert_eq!(comparisons::total_cmp(small(x), small(y)), order);
            assert_eq!(comparisons::total_order(small(x), small(y)), order.is_le());
            let magnitudes = value.abs().total_cmp(&other.abs());
            assert_eq!(comparisons::total_order_mag(small(x), small(y)), magnitudes.is_le());
        }
    }
}

#[test]
fn extrema() {
    for x in codes() {
        for y in codes() {
            let (value, other) = (decoded(x), decoded(y));
            let status = invalid_if(is_signaling(x) || is_signaling(y));
            let lesser = if value.total_cmp(&other).is_le() { x } else { y };
            let greater = if lesser == x { y } else { x };
            let (low, high) = match value.abs().total_cmp(&other.abs()) {
                Ordering::Less => (x, y),
                Ordering::Equal => (lesser, greater),
                Ordering::Greater => (y, x),
            };
            let (quiet, number) = match (value.is_nan(), other.is_nan()) {
                (true, false) => (Some(x | 2), Some(y)),
                (false, true) => (Some(y | 2), Some(x)),
                (true, true) => (Some(x | 2), Some(x | 2)),
                (false, false) => (None, None),
            };
            let (x, y) = (small(x), small(y));
            let bits = |answer: StatusAnd<Small>| answer.map(|value| value.to_bits() as u8);
            let all: [(Compared, Compared, Extremum, u8); 4] = [
                (comparisons::minimum_of, comparisons::minimum_number_of, Extremum::Minimum, lesser),
                (comparisons::maximum_of, comparisons::maximum_number_of, Extremum::Maximum, greater),
                (
                    comparisons::minimum_magnitude_of,
                    comparisons::minimum_magnitude_number_of,
                    Extremum::MinimumMagnitude,
                    low,
                ),
                (
                    comparisons::maximum_magnitude_of,
                    comparisons::maximum_magnitude_number_of,
                    Extremum::MaximumMagnitude,
                    high,
                ),
            ];
            for (of, number_of, which, expected) in all {
                let (nan, only) = (status.and(quiet.unwrap_or(expected)), status.and(number.unwrap_or(expected)));
                assert_eq!(bits(of(x, y)), nan, "{x} {y} {which:?}");
                assert_eq!(bits(comparisons::extremum_of(which, x, y)), nan);
                assert_eq!(bits(number_of(x, y)), only, "{x} {y} {which:?}");
                assert_eq!(bits(comparisons::extremum_number_of(which, x, y)), only);
            }
        }
    }
}

type Compared = fn(Small, Small) -> StatusAnd<Small>;

#[test]
fn classes_and_logarithms() {
    for code in 0..=255 {
        let (x, value) = (small(code), decoded(code));
        let class = match (code >> 7, code & 0x7f) {
            (_, 0x7d) => Class::SignalingNan,
            (_, 0x7e | 0x7f) => Class::QuietNan,
            (0, 0) => Class::PositiveZero,
            (0, 1..=3) => Class::PositiveSubnormal,
            (0, 0x7c) => Class::PositiveInfinity,
            (0, _) => Class::PositiveNormal,
            (_, 0) => Class::NegativeZero,
            (_, 1..=3) => Class::NegativeSubnormal,
            (_, 0x7c) => Class::NegativeInfinity,
            _ => Class::NegativeNormal,
        };
        assert_eq!(comparisons::class_of(x), class);
        assert_eq!((comparisons::radix(x), comparisons::is_canonical(x)), (2, true));
        assert!(comparisons::is_canonical_encoding::<Float8E5M2S>(code.into()));

        let exponent = (value.abs().to_bits() >> 52) as i32 - 1023;
        let (status, whole) = match class {
            Class::SignalingNan | Class::QuietNan => (Status::INVALID_OP, IEK_NAN),
            Class::PositiveInfinity | Class::NegativeInfinity => (Status::INVALID_OP, IEK_INF),
            Class::PositiveZero | Class::NegativeZero => (Status::INVALID_OP, IEK_ZERO),
            _ => (Status::OK, exponent),
        };
        assert_eq!(comparisons::integer_log_b(x), status.and(whole));
        let log = comparisons::log_b(x, Round::TowardZero);
        match class {
            Class::SignalingNan => assert_eq!((log.status, log.value.is_nan()), (Status::INVALID_OP, true)),
            Class::QuietNan => assert_eq!((log.status, log.value.to_bits()), (Status::OK, code.into())),
            Class::PositiveZero | Class::NegativeZero => {
                assert_eq!((log.status, log.value.is_neg_infinity()), (Status::DIV_BY_ZERO, true));
            }
            Class::PositiveInfinity | Class::NegativeInfinity => assert!(log.value.is_pos_infinity()),
            _ => {
                // Three binary digits of the exponent, from the highest one.
                let unit = 1 << (31 - exponent.unsigned_abs().max(4).leading_zeros() - 2);
                let cut = exponent / unit * unit;
                let inexact = if cut == exponent { Status::OK } else { Status::INEXACT };
                assert_eq!((decoded(log.value.to_bits() as u8), log.status), (f64::from(cut), inexact));
            }
        }
        let scaled = x.scale_b(-1, Round::TowardZero);
        if value.is_normal() && value.abs() >= 1.0 {
            assert_eq!((decoded(scaled.value.to_bits() as u8), scaled.status), (value / 2.0, Status::OK));
        }
    }
    // The integer bit of an x87 number is 0: the encoding of another value.
    assert!(!comparisons::is_canonical_encoding::<X87DoubleExtendedS>(1 << 64));
}

#[test]
fn integers() {
    let rounded: [fn(f64) -> f64; 5] = [f64::round_ties_even, f64::ceil, f64::floor, f64::trunc, f64::round];
    for code in 0..=255 {
        let (x, value) = (small(code), decoded(code));
        for (mode, round) in MODES.into_iter().zip(rounded) {
            let whole = round(value);
            let integral = comparisons::round_to_integral_in(x, mode);
            if value.is_nan() {
                assert_eq!(integral.map(Small::to_bits), invalid_if(is_signaling(code)).and(u128::from(code | 2)));
            } else {
                let given = decoded(integral.value.to_bits() as u8);
                assert_eq!((given.to_bits(), integral.status), (whole.to_bits(), Status::OK), "{x} {mode:?}");
            }

            let invalid = value.is_nan() || !(-16.0..=15.0).contains(&whole);
            let near = if value.is_nan() { 0.0 } else { whole.clamp(-16.0, 15.0) } as i128;
            let status = invalid_if(invalid);
            assert_eq!(comparisons::convert_to_signed(x, 5, mode), status.and(near), "{x} {mode:?}");
            let exact = if !invalid && whole != value { Status::INEXACT } else { status };
            assert_eq!(comparisons::convert_to_signed_exact(x, 5, mode), exact.and(near));

            let invalid = value.is_nan() || !(0.0..=31.0).contains(&whole);
            let near = if value.is_nan() { 0.0 } else { whole.clamp(0.0, 31.0) } as u128;
            let status = invalid_if(invalid);
            assert_eq!(comparisons::convert_to_unsigned(x, 5, mode), status.and(near), "{x} {mode:?}");
            let exact = if !invalid && whole != value { Status::INEXACT } else { status };
            assert_eq!(comparisons::convert_to_unsigned_exact(x, 5, mode), exact.and(near));
        }
    }
}

#[test]
fn operations_on_flags() {
    let (a, b, c) = (Status::INEXACT | Status::OVERFLOW, Status::INEXACT, Status::INVALID_OP);
    assert_eq!(comparisons::lower_flags(a, b), Status::OVERFLOW);
    assert_eq!(comparisons::raise_flags(a, c), a | c);
    assert!(comparisons::test_flags(a, b) && !comparisons::test_flags(a, c));
    assert_eq!(comparisons::save_all_flags(a), a);
    assert!(comparisons::test_saved_flags(a, b));
    assert_eq!(comparisons::restore_flags(c, a, b | c), Status::INEXACT);
}

#[test]
fn values_of_storage_formats() {
    // 6, 2, the largest number, and an infinity.
    let (round, loses_info) = (Round::TowardZero, &mut false);
    let back: [Single; 4] = [
        StoredFloat::<E2M1FN>::from_bits(7).convert_r(round, loses_info).value,
        E8M0FNU::from_bits(0x80).convert_r(round, loses_info).value,
        UE4M3::from_bits(0x7e).convert_r(round, loses_info).value,
        Float8E3M4::from_bits(0x70).convert_r(round, loses_info).value,
    ];
    assert_eq!(back.map(|x| x.to_string()), ["6", "2", "448", "+Inf"].map(str::to_owned));
}

/// Both zeros are equal; all other codes are in the order of their numbers.
#[test]
fn order_of_stored_values() {
    let ascending = [0x2f, 0x21, 0x20, 0x00, 0x01, 0x1f].map(StoredFloat::<E3M2FN>::from_bits);
    for (i, x) in ascending.into_iter().enumerate() {
        assert_eq!(x.is_negative(), i < 3);
        for (j, y) in ascending.into_iter().enumerate() {
            let is_zero = |i| i == 2 || i == 3;
            let order = if is_zero(i) && is_zero(j) { Ordering::Equal } else { i.cmp(&j) };
            assert_eq!(x.compare(y), order, "{x:?} {y:?}");
        }
    }
    assert!(E8M0FNU::from_bits(255).is_nan() && !E8M0FNU::from_bits(254).is_nan());
    assert!(UE4M3::from_bits(127).is_nan() && UE4M3::from_bits(255).is_nan() && !UE4M3::from_bits(126).is_nan());
    assert_eq!(format!("{:?} {:?}", ascending[0], E8M0FNU::from_bits(127)), "StoredFloat(0x2f) E8M0FNU(0x7f)");
}

/// The infinities are at the ends, both zeros are equal, and a NaN is unordered.
#[test]
fn order_of_e3m4() {
    let ascending = [0xf0, 0xef, 0x81, 0x00, 0x01, 0x6f, 0x70].map(Float8E3M4::from_bits);
    assert!(ascending.is_sorted_by(|x, y| x.compare(*y) == Some(Ordering::Less)));
    let (minus, nan) = (Float8E3M4::from_bits(0x80), Float8E3M4::from_bits(0x78));
    assert_eq!((minus.compare(ascending[3]), nan.compare(nan)), (Some(Ordering::Equal), None));
    assert_eq!((minus.category(), minus.is_negative(), nan.category()), (Category::Zero, true, Category::NaN));
}

/// The first example of a page is one of the module's documentation, which is compiled.
#[test]
fn examples_of_the_pages() {
    let here = env!("CARGO_MANIFEST_DIR");
    for (page, module) in [("FORMATS", "storage_formats")] {
        let page = std::fs::read_to_string(format!("{here}/docs/{page}.md")).unwrap();
        let module = std::fs::read_to_string(format!("{here}/rust/rustc_apfloat/src/{module}.rs")).unwrap();
        let compiled: String =
            module.lines().map(|line| line.trim_start_matches("//!").trim_start().to_owned() + "\n").collect();
        let example = page.split("```rust\n").nth(1).unwrap().split("```").next().unwrap();
        let example: String = example.lines().map(|line| line.trim_start().to_owned() + "\n").collect();
        assert!(compiled.contains(&example), "{example}");
    }
}

#[test]
#[should_panic(expected = "no signed integer has this width")]
fn a_width_out_of_range_panics() {
    let _ = comparisons::convert_to_signed(Small::ZERO, 1, Round::TowardZero);
}

/// A code of 8 bits with its flags, of a single in a mode of conversions.
fn converted<T: Semantics>(x: &str, mode: ConversionRound) -> (u128, Status) {
    let x: Single = x.parse().unwrap();
    let answer = convert_by::<_, T>(x, mode, &mut false);
    (answer.value.to_bits(), answer.status)
}

#[test]
fn conversions_with_random_digits() {
    let random = |number| ConversionRound::Stochastic(RandomDigits::new(8, number).unwrap());
    let (exact, inexact) = (Status::OK, Status::INEXACT);
    let past = Status::OVERFLOW | inexact;
    // 1.05 is 102 parts of 256 above 1; 470 is 176 parts above 448, past which is the NaN; 500 is past both.
    for (x, number, bits, status) in [
        ("1.05", 153, 0x38, inexact),
        ("1.05", 154, 0x39, inexact),
        ("-1.05", 153, 0xb8, inexact),
        ("-1.05", 154, 0xb9, inexact),
        ("1.125", 255, 0x39, exact),
        ("470", 79, 0x7e, inexact),
        ("470", 80, 0x7f, past),
        ("500", 0, 0x7f, past),
        ("0x1p-10", 127, 0x00, Status::UNDERFLOW | inexact),
        ("0x1p-10", 128, 0x01, Status::UNDERFLOW | inexact),
    ] {
        assert_eq!(converted::<Float8E4M3FNS>(x, random(number)), (bits, status), "{x} {number}");
    }
    assert_eq!(converted::<Float8E4M3FNS>("1.05", ConversionRound::ToOdd), (0x39, inexact));
    assert_eq!(converted::<Float8E4M3FNUZS>("-0", ConversionRound::ToOdd), (0x00, inexact));
    assert_eq!(converted::<Float8E4M3FNS>("1.05", ConversionRound::Ieee(Round::NearestTiesToEven)), (0x38, inexact));
    assert!(matches!(RandomDigits::new(33, 0), Err(RandomError::DigitCount)));
    assert!(matches!(RandomDigits::new(8, 256), Err(RandomError::TooWide)));
}
