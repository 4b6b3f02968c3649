//! Exact reductions against the rows of `tests/rows/by_crate`, which a model in Python computed by fractions. Each sum
//! is also taken in other orders, and in parts that are joined.

use rustc_apfloat::blocks::ElementFormat;
use rustc_apfloat::ieee::*;
use rustc_apfloat::reductions::{self, BlockScaling, BlockVector, DotError, LengthsDiffer, WideSum};
use rustc_apfloat::{ExpInt, Float, Round, Status, StatusAnd};
use std::fs;
use std::path::Path;

const MODES: [(&str, Round); 5] = [
    ("even", Round::NearestTiesToEven),
    ("up", Round::TowardPositive),
    ("down", Round::TowardNegative),
    ("zero", Round::TowardZero),
    ("away", Round::NearestTiesToAway),
];

/// A call with its terms.
struct Reduction<'a, S: Semantics> {
    call: &'a str,
    x: Vec<IeeeFloat<S>>,
    y: Vec<IeeeFloat<S>>,
}

impl<S: Semantics> Reduction<'_, S> {
    fn of_slices(&self, round: Round) -> Result<StatusAnd<IeeeFloat<S>>, LengthsDiffer> {
        match self.call {
            "sum" => Ok(reductions::sum(&self.x, round)),
            "sum_abs" => Ok(reductions::sum_abs(&self.x, round)),
            "sum_square" => Ok(reductions::sum_square(&self.x, round)),
            "dot" => reductions::dot(&self.x, &self.y, round),
            call => panic!("{call}"),
        }
    }

    /// The sum of the terms at these places, one after another.
    fn part(&self, places: impl Iterator<Item = usize>) -> WideSum<S> {
        let mut sum = WideSum::default();
        for i in places {
            match self.call {
                "sum" => sum.add(self.x[i]),
                "sum_abs" => sum.add(self.x[i].abs()),
                "sum_square" => sum.add_product(self.x[i], self.x[i]),
                _ => sum.add_product(self.x[i], self.y[i]),
            }
        }
        sum
    }

    /// The same result in parts, and in another order but for which NaN it is.
    fn check_orders(&self, round: Round, answer: StatusAnd<IeeeFloat<S>>) {
        let count = self.x.len();
        for middle in [0, count / 3, count] {
            let mut first = self.part(0..middle);
            first.join(self.part(middle..count));
            assert!(are_same(first.rounded(round), answer), "parts joined");
        }
        let mut odd_first = self.part((0..count).filter(|i| i % 2 == 1));
        odd_first.join(self.part((0..count).filter(|i| i % 2 == 0)));
        for other in [self.part((0..count).rev()), odd_first] {
            let other = other.rounded(round);
            let are_nans = other.value.is_nan() && answer.value.is_nan() && other.status == answer.status;
            assert!(are_nans || are_same(other, answer), "another order");
        }
    }
}

fn are_same<S: Semantics>(x: StatusAnd<IeeeFloat<S>>, y: StatusAnd<IeeeFloat<S>>) -> bool {
    x.status == y.status && x.value.bitwise_eq(y.value)
}

fn values<S: Semantics>(words: &str) -> Vec<IeeeFloat<S>> {
    let words = words.split(' ').filter(|word| *word != "-");
    words.map(|word| IeeeFloat::from_bits(u128::from_str_radix(word, 16).unwrap())).collect()
}

fn flags(names: &str) -> Status {
    names.split('|').map(|name| Status::from_name(name).unwrap()).collect()
}

/// A format of the most digits that short sums have.
struct Own75S;

impl Semantics for Own75S {
    const BITS: usize = 75;
    const EXP_BITS: usize = 11;
}

/// A format of the most digits and exponents that short sums have.
struct LimitS;

impl Semantics for LimitS {
    const BITS: usize = 0;
    const EXP_BITS: usize = 0;
    const PRECISION: usize = 64;
    const MIN_EXP: ExpInt = -1024;
    const MAX_EXP: ExpInt = 1024;
}

/// What differs from a row.
fn differences<S: Semantics>(row: &str) -> Option<String> {
    let [call, _, mode, operands, value, status, _] = row.split('\t').collect::<Vec<_>>().try_into().unwrap();
    let (x, y) = operands.split_once(" / ").unwrap_or((operands, "-"));
    let reduction = Reduction::<S> { call, x: values(x), y: values(y) };
    let rounds = MODES.iter().filter(|(name, _)| *name == mode || matches!(mode, "any" | "-"));
    for (name, round) in rounds {
        let Ok(answer) = reduction.of_slices(*round) else {
            if value == "LengthsDiffer" {
                continue;
            }
            return Some(format!("{row}: the lengths differ"));
        };
        if value == "LengthsDiffer" || !are_same(answer, flags(status).and(values(value)[0])) {
            return Some(format!("{row}: given {name}: {:x} {:?}", answer.value.to_bits(), answer.status));
        }
        reduction.check_orders(*round, answer);
    }
    None
}

macro_rules! in_format {
    ($kind:expr, $row:expr, $($name:literal: $format:ty,)*) => {
        match $kind {
            $(
                ($name, "") => differences::<$format>($row),
                ($name, "ieee") => differences::<IeeeFlags<$format>>($row),
                ($name, "ieee+before") => differences::<IeeeFlags<TinyBefore<$format>>>($row),
            )*
            kind => panic!("{kind:?}"),
        }
    };
}

#[test]
fn rows_of_reductions() {
    let path = Path::new(env!("CARGO_MANIFEST_DIR")).join("tests/rows/by_crate/reductions.tsv");
    let text = fs::read_to_string(path).unwrap();
    let rows: Vec<&str> = text.lines().filter(|line| !line.starts_with('#')).collect();
    let differences = rows.iter().filter_map(|row| {
        let kind = row.split('\t').nth(1).unwrap();
        in_format! {
            kind.split_once('+').unwrap_or((kind, "")), row,
            "half": HalfS,
            "bfloat": BFloatS,
            "single": SingleS,
            "double": DoubleS,
            "e5m2": Float8E5M2S,
            "e4m3fn": Float8E4M3FNS,
            "e4m3fnuz": Float8E4M3FNUZS,
            "tf32": FloatTF32S,
            "own75": Own75S,
            "x87": X87DoubleExtendedS,
            "quad": QuadS,
        }
    });
    let differences: Vec<String> = differences.collect();
    assert!(differences.is_empty(), "{} rows differ:\n{}", differences.len(), differences.join("\n"));
    assert!(rows.len() > 2000);
}

/// A vector in blocks of a row: its format, the length of its blocks, and the codes of the scales and the elements.
fn vector<'a>(words: &str, bytes: &'a mut [Vec<u8>; 2]) -> BlockVector<'a> {
    let [name, length, scales, codes] = words.split(' ').collect::<Vec<_>>().try_into().unwrap();
    *bytes = [scales, codes].map(|text| {
        let digits = text.trim_matches('-').as_bytes().chunks(2);
        digits.map(|pair| u8::from_str_radix(str::from_utf8(pair).unwrap(), 16).unwrap()).collect()
    });
    let scaling = match name {
        "E5M2" => BlockScaling::Mx(ElementFormat::E5M2),
        "E4M3FN" => BlockScaling::Mx(ElementFormat::E4M3FN),
        "E3M2FN" => BlockScaling::Mx(ElementFormat::E3M2FN),
        "E2M3FN" => BlockScaling::Mx(ElementFormat::E2M3FN),
        "E2M1FN" => BlockScaling::Mx(ElementFormat::E2M1FN),
        _ => BlockScaling::Nvfp4(u32::from_str_radix(name.strip_prefix("NVFP4:").unwrap(), 16).unwrap()),
    };
    BlockVector { scaling, length: length.parse().unwrap(), scales: &bytes[0], codes: &bytes[1] }
}

fn differences_of_blocks<T: Semantics>(row: &str) -> Option<String> {
    let [_, _, mode, operands, value, status, _] = row.split('\t').collect::<Vec<_>>().try_into().unwrap();
    let (left, right) = operands.split_once(" / ").unwrap();
    let (mut left_bytes, mut right_bytes) = Default::default();
    let (x, y) = (vector(left, &mut left_bytes), vector(right, &mut right_bytes));
    let rounds = MODES.iter().filter(|(name, _)| *name == mode || matches!(mode, "any" | "-"));
    for (name, round) in rounds {
        for (x, y) in [(x, y), (y, x)] {
            let answer = reductions::dot_blocks::<T>(x, y, *round);
            let agrees = match (value, answer) {
                ("NotBlocks", answer) => answer.is_err_and(|error| error == DotError::NotBlocks),
                ("LengthsDiffer", answer) => answer.is_err_and(|error| error == DotError::LengthsDiffer),
                (_, Ok(answer)) => are_same(answer, flags(status).and(values(value)[0])),
                (_, Err(_)) => false,
            };
            if !agrees {
                return Some(format!("{row}: given {name}: {answer:?}"));
            }
        }
    }
    None
}

#[test]
fn rows_of_dot_products_of_blocks() {
    let path = Path::new(env!("CARGO_MANIFEST_DIR")).join("tests/rows/by_crate/block_dots.tsv");
    let text = fs::read_to_string(path).unwrap();
    let rows: Vec<&str> = text.lines().filter(|line| !line.starts_with('#')).collect();
    let differences = rows.iter().filter_map(|row| match row.split('\t').nth(1).unwrap() {
        "half" => differences_of_blocks::<HalfS>(row),
        "bfloat" => differences_of_blocks::<BFloatS>(row),
        "single" => differences_of_blocks::<SingleS>(row),
        "single+ieee" => differences_of_blocks::<IeeeFlags<SingleS>>(row),
        "double" => differences_of_blocks::<DoubleS>(row),
        "double+ieee+before" => differences_of_blocks::<IeeeFlags<TinyBefore<DoubleS>>>(row),
        "tf32" => differences_of_blocks::<FloatTF32S>(row),
        "e4m3fn" => differences_of_blocks::<Float8E4M3FNS>(row),
        "e4m3fnuz" => differences_of_blocks::<Float8E4M3FNUZS>(row),
        "quad" => differences_of_blocks::<QuadS>(row),
        kind => panic!("{kind}"),
    });
    let differences: Vec<String> = differences.collect();
    assert!(differences.is_empty(), "{} rows differ:\n{}", differences.len(), differences.join("\n"));
    assert!(rows.len() > 2000);
}

/// The built-in formats have these calls, with each rule of flags.
#[test]
fn every_format() {
    fn check<S: Semantics>() {
        let one = IeeeFloat::<S>::from_u128(1).value;
        let two = Status::OK.and(IeeeFloat::from_u128(2).value);
        assert_eq!(reductions::sum(&[one, one], Round::TowardZero), two);
        assert_eq!(reductions::dot(&[one, one], &[one, one], Round::TowardZero), Ok(two));
    }
    macro_rules! check_all {
        ($($format:ty)*) => {$(
            check::<$format>();
            check::<TinyBefore<$format>>();
            check::<IeeeFlags<$format>>();
            check::<IeeeFlags<TinyBefore<$format>>>();
        )*};
    }
    check_all! {
        HalfS SingleS DoubleS BFloatS Float8E5M2S Float8E4M3FNS Float8E4M3FNUZS Float8E4M3S Float8E5M2FNUZS
        Float8E4M3B11FNUZS FloatTF32S X87DoubleExtendedS QuadS
    }
}

#[test]
fn the_largest_format() {
    type Limit = IeeeFloat<LimitS>;
    let (largest, least) = (Limit::largest(), Limit::SMALLEST);
    let products = |x: &[Limit], y: &[Limit]| reductions::dot(x, y, Round::TowardPositive).unwrap();
    let tiny = (Status::UNDERFLOW | Status::INEXACT).and(least);
    assert_eq!(products(&[largest, least, -largest], &[largest, least, largest]), tiny);
    assert_eq!(products(&[largest, -least, -largest], &[largest, least, largest]).value, -Limit::ZERO);
    let (most, mut minus) = ([largest; 1000], [-largest; 1000]);
    minus[0] = least;
    let past = products(&most, &most);
    assert_eq!((past.value, past.status), (Limit::INFINITY, Status::OVERFLOW | Status::INEXACT));
    let one = Limit::from_u128(1).value;
    let left = products(&[most, minus, [one; 1000]].concat(), &[most, most, [one; 1000]].concat());
    assert_eq!((left.value, left.status), (Limit::INFINITY, Status::OVERFLOW | Status::INEXACT));
    minus[0] = -largest;
    let left = products(&[most, minus, [one; 1000]].concat(), &[most, most, [one; 1000]].concat());
    assert_eq!(left, Status::OK.and(Limit::from_u128(1000).value));
}
