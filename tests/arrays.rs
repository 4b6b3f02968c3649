//! Arrays, and formats chosen at run time, against the arithmetic of the processor and against codes that are decoded
//! by their fields.

use rustc_apfloat::arrays::{self, Counts, FiniteNan, Overflow, WrongLength};
use rustc_apfloat::conversion_modes::convert_saturating;
use rustc_apfloat::ieee::*;
use rustc_apfloat::run_time::{AnyFloat, Format, InFormat};
use rustc_apfloat::storage_formats::{E2M1FN, E8M0FNU, StoredFloat};
use rustc_apfloat::{Float, Round, Status};

const EVEN: Round = Round::NearestTiesToEven;

/// Numbers of 64 bits that look random (SplitMix64).
fn numbers(seed: u64) -> impl Iterator<Item = u64> {
    (1u64..).map(move |count| {
        let mut z = seed.wrapping_add(count.wrapping_mul(0x9e37_79b9_7f4a_7c15));
        z = (z ^ z >> 30).wrapping_mul(0xbf58_476d_1ce4_e5b9);
        z = (z ^ z >> 27).wrapping_mul(0x94d0_49bb_1331_11eb);
        z ^ z >> 31
    })
}

/// Doubles of all sizes, many of them near singles, and the special ones.
fn doubles() -> Vec<f64> {
    let special = [0.0, -0.0, f64::INFINITY, f64::NEG_INFINITY, 1e300, -1e-300, 1e-40, 3.5e38];
    let random = numbers(1).take(2000).map(|bits| f64::from_bits(bits & !(7 << 60) | 3 << 60));
    special.into_iter().chain(random).collect()
}

fn bytes_of<const N: usize, T>(values: &[T], bytes: impl Fn(&T) -> [u8; N]) -> Vec<u8> {
    values.iter().flat_map(bytes).collect()
}

#[test]
fn doubles_become_singles_as_in_the_processor() {
    let values = doubles();
    let mut results = vec![0; 4 * values.len()];
    let input = bytes_of(&values, |x| x.to_le_bytes());
    let counts = arrays::convert::<DoubleS, SingleS>(Overflow::Rounded, EVEN, &input, &mut results).unwrap();
    let expected: Vec<f32> = values.iter().map(|x| *x as f32).collect();
    assert_eq!(results, bytes_of(&expected, |x| x.to_le_bytes()));
    let inexact = values.iter().zip(&expected).filter(|(x, y)| f64::from(**y) != **x).count();
    let overflow = values.iter().zip(&expected).filter(|(x, y)| x.is_finite() && y.is_infinite()).count();
    assert_eq!(
        (counts.values, counts.inexact, counts.overflow),
        (values.len() as u64, inexact as u64, overflow as u64)
    );
    assert_eq!((counts.nans, counts.invalid, counts.div_by_zero), (0, 0, 0));
    let all = Status::INEXACT | Status::OVERFLOW | Status::UNDERFLOW;
    assert_eq!(counts.status(), all);
}

#[test]
fn saturated_codes() {
    let values: Vec<f32> = vec![448.0, 464.0, 465.0, -1e9, f32::INFINITY, f32::NAN, -0.0, 0.001953125];
    let input = bytes_of(&values, |x| x.to_le_bytes());
    let codes = |overflow| {
        let mut codes = [0; 8];
        let counts = arrays::convert::<SingleS, Float8E4M3FNS>(overflow, EVEN, &input, &mut codes).unwrap();
        for (x, code) in values.iter().zip(codes) {
            let x = Single::from_bits(x.to_bits().into());
            let one = convert_saturating::<_, Float8E4M3FNS>(x, overflow, EVEN, &mut false).value;
            assert_eq!(one.to_bits(), code.into());
        }
        (codes, counts.overflow, counts.nans)
    };
    assert_eq!(codes(Overflow::Rounded), ([0x7e, 0x7e, 0x7f, 0xff, 0x7f, 0x7f, 0x80, 0x01], 2, 4));
    assert_eq!(codes(Overflow::Saturated), ([0x7e, 0x7e, 0x7e, 0xfe, 0x7f, 0x7f, 0x80, 0x01], 2, 2));
    let finite = [0x7e, 0x7e, 0x7e, 0xfe, 0x7e, 0x7f, 0x80, 0x01];
    assert_eq!(codes(Overflow::Finite(FiniteNan::Kept)), (finite, 2, 1));
    assert_eq!(codes(Overflow::Finite(FiniteNan::Largest)).0[5], 0x7e);
}

#[test]
fn operations_on_arrays() {
    let (xs, ys): (Vec<f64>, Vec<f64>) = (doubles(), doubles().into_iter().rev().collect());
    let arrays = [&bytes_of(&xs, |x| x.to_le_bytes())[..], &bytes_of(&ys, |x| x.to_le_bytes())];
    let mut results = vec![0; 8 * xs.len()];
    let mut check = |operation: fn([Double; 2]) -> rustc_apfloat::StatusAnd<Double>, exact: fn(f64, f64) -> f64| {
        let counts = arrays::map(arrays, &mut results, operation).unwrap();
        let pairs = xs.iter().zip(&ys).zip(results.chunks(8));
        let mut nans = 0;
        for ((x, y), result) in pairs {
            let (expected, result) = (exact(*x, *y), f64::from_le_bytes(result.try_into().unwrap()));
            nans += u64::from(expected.is_nan());
            // The sign of the NaN of an invalid operation is the processor's choice.
            assert!(expected.to_bits() == result.to_bits() || expected.is_nan() && result.is_nan(), "{x} {y}");
        }
        assert_eq!((counts.nans, counts.values), (nans, xs.len() as u64));
        counts
    };
    let _ = check(|[x, y]| x + y, |x, y| x + y);
    let _ = check(|[x, y]| x * y, |x, y| x * y);
    let quotients: Counts = check(|[x, y]| x / y, |x, y| x / y);
    let zeros = xs.iter().zip(&ys).filter(|(x, y)| **y == 0.0 && x.is_finite() && **x != 0.0).count();
    assert_eq!((quotients.div_by_zero, zeros), (zeros as u64, 2));
}

#[test]
fn storage_formats_in_arrays() {
    let values = bytes_of(&[0.7f32, -5.0, 1000.0, f32::NAN], |x| x.to_le_bytes());
    let mut codes = [0; 4];
    let counts =
        arrays::map([&values], &mut codes, |[x]: [Single; 1]| StoredFloat::<E2M1FN>::from_value(x, EVEN, &mut false));
    // 0.5; the tie of -4 and -6, whose codes are 6 and 7; 6, the largest number.
    assert_eq!(codes, [1, 14, 7, 0]);
    let counts = counts.unwrap();
    assert_eq!((counts.inexact, counts.overflow, counts.invalid, counts.nans), (3, 1, 1, 0));
    let mut back = [0; 16];
    let counts =
        arrays::map([&[127, 128, 255, 0]], &mut back, |[x]: [E8M0FNU; 1]| x.convert_r::<SingleS>(EVEN, &mut false));
    assert_eq!(counts.unwrap().nans, 1);
    assert_eq!(
        back,
        bytes_of(&[1.0f32, 2.0, f32::from_bits(0x7fc0_0000), f32::powi(2.0, -127)], |x| x.to_le_bytes())[..]
    );
}

#[test]
fn lengths_that_do_not_fit() {
    let convert = |from: usize, to: usize| {
        let (values, mut results) = (vec![0; from], vec![1; to]);
        let counts = arrays::convert::<SingleS, FloatTF32S>(Overflow::Rounded, EVEN, &values, &mut results);
        assert_eq!(results.contains(&1), counts.is_err() && to > 0);
        counts
    };
    assert_eq!(convert(8, 8).unwrap().values, 2);
    assert_eq!(convert(0, 0).unwrap(), Counts::default());
    for (from, to) in [(8, 4), (8, 12), (7, 8), (7, 4), (4, 0)] {
        assert_eq!(convert(from, to).unwrap_err(), WrongLength);
    }
    let map = |from: usize, other: usize, to: usize| {
        let (values, others, mut results) = (vec![0; from], vec![0; other], vec![1; to]);
        let sums = |[x, y]: [X87DoubleExtended; 2]| x.add_r(y, EVEN);
        arrays::map([&values, &others], &mut results, sums).map(|counts| (counts.values, results))
    };
    assert_eq!(map(20, 20, 20).unwrap(), (2, vec![0; 20]));
    for (from, other, to) in [(20, 20, 10), (20, 10, 20), (19, 20, 20), (20, 20, 16)] {
        assert_eq!(map(from, other, to).unwrap_err(), WrongLength);
    }
}

#[test]
fn formats_have_their_words_and_constants() {
    // Width, digits, least and greatest exponent.
    let facts = [
        ("half", 16, 11, -14, 15),
        ("single", 32, 24, -126, 127),
        ("double", 64, 53, -1022, 1023),
        ("quad", 128, 113, -16382, 16383),
        ("bfloat", 16, 8, -126, 127),
        ("e5m2", 8, 3, -14, 15),
        ("e4m3fn", 8, 4, -6, 8),
        ("e4m3fnuz", 8, 4, -7, 7),
        ("x87", 80, 64, -16382, 16383),
        ("e4m3", 8, 4, -6, 7),
        ("e5m2fnuz", 8, 3, -15, 15),
        ("e4m3b11fnuz", 8, 4, -10, 4),
        ("tf32", 19, 11, -126, 127),
    ];
    for (format, (word, bits, precision, min_exp, max_exp)) in Format::ALL.into_iter().zip(facts) {
        assert_eq!((word.parse(), format.to_string().as_str()), (Ok(format), word));
        let constants = format.constants();
        assert_eq!((constants.bits, constants.precision), (bits, precision), "{word}");
        assert_eq!((constants.min_exp, constants.max_exp), (min_exp, max_exp), "{word}");
        // The integer bit and the digits after it are all ones in the largest value, but where that is the NaN.
        let digits = if word == "e4m3fn" { precision - 1 } else { precision };
        let largest = (2.0 - f64::powi(2.0, 1 - digits as i32)) * f64::powi(2.0, max_exp.min(1000));
        if max_exp <= 1000 {
            let converted = AnyFloat::largest(format).convert_r(Format::Double, EVEN, &mut false);
            assert_eq!(converted, Status::OK.and(double(largest)), "{word}");
        }
    }
    assert_eq!("decimal64".parse::<Format>().unwrap_err().to_string(), "no format has this word");
}

fn double(x: f64) -> AnyFloat {
    AnyFloat::from_bits(Format::Double, x.to_bits().into())
}

#[test]
fn values_of_a_format_chosen_at_run_time() {
    let (xs, ys): (Vec<f64>, Vec<f64>) = (doubles(), doubles().into_iter().rev().collect());
    for (x, y) in xs.into_iter().zip(ys) {
        let (a, b) = (double(x), double(y));
        let agrees = |answer: AnyFloat, expected: f64| {
            let bits = answer.to_bits() as u64;
            assert!(bits == expected.to_bits() || answer.is_nan() && expected.is_nan(), "{x} {y}");
        };
        agrees(a.add_r(b, EVEN).value, x + y);
        agrees(a.sub_r(b, EVEN).value, x - y);
        agrees(a.mul_r(b, EVEN).value, x * y);
        agrees(a.div_r(b, EVEN).value, x / y);
        agrees(a.sqrt_r(EVEN).value, x.sqrt());
        agrees(a.c_fmod(b).value, x % y);
        agrees(a.mul_add_r(b, a, EVEN).value, x.mul_add(y, x));
        agrees(a.round_to_integral(EVEN).value, x.round_ties_even());
        agrees(-a, -x);
        agrees(a.abs(), x.abs());
        agrees(a.copy_sign(b), x.copysign(y));
        assert_eq!((a.partial_cmp(&b), a == b), (x.partial_cmp(&y), x == y));
        assert_eq!((a.is_negative(), a.is_finite(), a.is_zero()), (x.is_sign_negative(), x.is_finite(), x == 0.0));
        let mut is_exact = false;
        let integer = a.to_i128_r(64, Round::TowardZero, &mut is_exact);
        assert_eq!(integer.value, i128::from(x as i64));
        assert_eq!(is_exact, (x as i64) as f64 == x && x.abs() < 9e18 && x.to_bits() != 1 << 63);
        let single = a.convert_r(Format::Single, EVEN, &mut false).value;
        assert_eq!((single.format(), single.to_bits()), (Format::Single, (x as f32).to_bits().into()));
        if x.is_finite() {
            let read = AnyFloat::from_str_r(Format::Double, &format!("{x:e}"), EVEN).unwrap();
            agrees(read.value, x);
            assert_eq!(a.to_string().parse::<f64>().unwrap(), x);
        }
    }
    let below = AnyFloat::from_i128_r(Format::Half, -2049, Round::TowardZero);
    assert_eq!(below, Status::INEXACT.and(AnyFloat::from_bits(Format::Half, 0xe800)));
    assert_eq!(format!("{:?}", AnyFloat::from_bits(Format::Half, 0x3c00)), "half(0x3c00)");
    assert!(double(1.0) != AnyFloat::from_bits(Format::Half, 0x3c00));
}

#[test]
#[should_panic(expected = "operands of double and of half")]
fn operands_of_two_formats() {
    let _ = double(1.0).add_r(AnyFloat::from_bits(Format::Half, 0x3c00), EVEN);
}

#[test]
fn a_call_at_the_type_of_a_format() {
    /// The bits of 1 divided by 3, and whether that raised UNDERFLOW under the rule of the flags of IEEE 754.
    struct Third;
    impl InFormat for Third {
        type Output = u128;

        fn in_format<S: Semantics>(self) -> u128 {
            let [one, three] = [1, 3].map(|n| IeeeFloat::<IeeeFlags<S>>::from_u128(n).value);
            (one / three).value.to_bits()
        }
    }
    assert_eq!(Format::Single.run(Third), (1.0f32 / 3.0).to_bits().into());
    assert_eq!(Format::Double.run(Third), (1.0f64 / 3.0).to_bits().into());
}
