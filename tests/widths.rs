//! Conversions to integers of any width, also of one that no integer has, against the rules of crates.io's crate: the
//! arithmetic here wraps where its does in a release build, and panics where its does in a debug build.

use rustc_apfloat::ieee::*;
use rustc_apfloat::ppc::{DoubleDouble, FallbackS};
use rustc_apfloat::{Category, ExpInt, Float, Round, Status, StatusAnd};
use std::cmp::Ordering;
use std::panic::{UnwindSafe, catch_unwind, set_hook};

const MODES: [Round; 5] = [
    Round::NearestTiesToEven,
    Round::TowardPositive,
    Round::TowardNegative,
    Round::TowardZero,
    Round::NearestTiesToAway,
];

const WIDTHS: [usize; 17] =
    [0, 1, 2, 3, 64, 127, 128, 129, 130, 131, 192, 255, 256, 257, 1000, usize::MAX - 1, usize::MAX];

/// `to_u128_r`, with whether it is exact.
fn unsigned<F: Float>(x: F, width: usize, round: Round) -> (StatusAnd<u128>, bool) {
    let most = if x.is_negative() { 0 } else { !0u128 >> (128 - width) };
    let invalid = |value| (Status::INVALID_OP.and(value), false);
    match x.category() {
        Category::NaN => return invalid(0),
        Category::Infinity => return invalid(most),
        Category::Zero => return (Status::OK.and(0), !x.is_negative()),
        Category::Normal => {}
    }
    let exponent = x.ilogb().max(F::MIN_EXP);
    let digits = x.abs().scalbn(F::PRECISION as ExpInt - 1 - exponent).to_u128(128).value;
    let (whole, cut) = if exponent < 0 {
        (0, F::PRECISION - 1 + exponent.unsigned_abs() as usize)
    } else {
        let count = exponent as usize + 1;
        if count > width {
            return invalid(most);
        }
        if count < F::PRECISION {
            (digits >> (F::PRECISION - count), F::PRECISION - count)
        } else {
            (digits << (count - F::PRECISION), 0)
        }
    };
    let lost = if cut < 128 { digits & ((1 << cut) - 1) } else { digits };
    let order = if (1..=128).contains(&cut) { lost.cmp(&(1 << (cut - 1))) } else { Ordering::Less };
    let is_away = lost != 0
        && match round {
            Round::NearestTiesToEven => order.is_gt() || order.is_eq() && whole % 2 == 1,
            Round::NearestTiesToAway => order.is_ge(),
            Round::TowardZero => false,
            Round::TowardPositive => !x.is_negative(),
            Round::TowardNegative => x.is_negative(),
        };
    let rounded = whole + u128::from(is_away);
    if rounded > most {
        return invalid(most);
    }
    if lost == 0 { (Status::OK.and(rounded), true) } else { (Status::INEXACT.and(rounded), false) }
}

/// `to_i128_r`, with whether it is exact; -0 is not, as docs/RUST.md says.
fn signed<F: Float>(x: F, width: usize, round: Round) -> (StatusAnd<i128>, bool) {
    if !x.is_negative() {
        let (magnitude, is_exact) = unsigned(x, width - 1, round);
        return (magnitude.map(|magnitude| magnitude as i128), is_exact);
    }
    let (magnitude, is_exact) = unsigned(-x, width, -round);
    if magnitude.value > 1 << (width - 1) {
        return (Status::INVALID_OP.and(-1 << (width - 1)), false);
    }
    (magnitude.map(|magnitude| magnitude.wrapping_neg() as i128), is_exact && !x.is_zero())
}

/// What a call returns; none if it panics.
fn caught<T>(call: impl FnOnce() -> T + UnwindSafe) -> Option<T> {
    catch_unwind(call).ok()
}

/// Compares the conversions of a value with those of a type with the same values.
fn compare<F: Float + UnwindSafe + std::fmt::Debug, T: Float + UnwindSafe>(x: F, same: T) {
    for width in WIDTHS {
        for round in MODES {
            let answer = caught(move || {
                let mut is_exact = true;
                (x.to_u128_r(width, round, &mut is_exact), is_exact)
            });
            assert_eq!(answer, caught(move || unsigned(same, width, round)), "{x:?} {width} {round:?}");
            let answer = caught(move || {
                let mut is_exact = true;
                (x.to_i128_r(width, round, &mut is_exact), is_exact)
            });
            assert_eq!(answer, caught(move || signed(same, width, round)), "{x:?} {width} {round:?}");
        }
        let of_none = caught(move || (x.to_u128(width), x.to_i128(width)));
        let wanted =
            caught(move || (unsigned(same, width, Round::TowardZero).0, signed(same, width, Round::TowardZero).0));
        assert_eq!(of_none, wanted, "{x:?} {width}");
    }
}

/// Values around each power of two that matters, and the special ones.
fn values<F: Float>() -> Vec<F> {
    let mut values = vec![F::ZERO, F::INFINITY, F::NAN, F::SMALLEST, F::largest(), F::smallest_normalized()];
    let one = F::from_u128(1).value;
    let odd = F::from_u128(5).value.scalbn(-2);
    for power in [-200, -2, -1, 0, 1, 2, 62, 63, 64, 126, 127, 128, 129, 130, 191, 255, 256, 300] {
        if power <= F::MAX_EXP && power >= F::MIN_EXP {
            let x = one.scalbn(power);
            values.extend([x, x.next_up().value, x.next_down().value, odd.scalbn(power)]);
        }
    }
    let negated: Vec<F> = values.iter().map(|x| -*x).collect();
    values.extend(negated);
    values
}

fn of_format<S: Semantics + UnwindSafe>() {
    for x in values::<IeeeFloat<S>>() {
        compare(x, x);
    }
}

#[test]
fn each_width_is_answered_as_by_the_other_crate() {
    set_hook(Box::new(|info| {
        if info.to_string().contains("assertion `left") {
            eprintln!("{info}");
        }
    }));
    of_format::<HalfS>();
    of_format::<SingleS>();
    of_format::<QuadS>();
    of_format::<X87DoubleExtendedS>();
    of_format::<Float8E4M3FNS>();
    for x in values::<Double>() {
        compare(x, x);
        let pair = DoubleDouble::from_u128(0).value + DoubleDouble::from_bits(x.to_bits());
        compare(pair.value, IeeeFloat::<FallbackS<Double>>::from(pair.value));
    }
}

#[test]
fn one_digit_with_a_sign() {
    let answer = |text: &str| text.parse::<Single>().unwrap().to_i128(1);
    assert_eq!(answer("-1"), Status::OK.and(-1));
    assert_eq!(answer("-0.5"), Status::INEXACT.and(0));
    assert_eq!(answer("-7"), Status::INVALID_OP.and(-1));
    assert_eq!(answer("-inf"), Status::INVALID_OP.and(-1));
}
