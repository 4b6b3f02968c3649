//! Blocks, elements with random digits and formats of IEEE P3109, against the rows of `tests/rows` that a model in
//! Python computed. `docs/PROGRAMS.md` of the repository says what a row means.

use rustc_apfloat::arrays::Counts;
use rustc_apfloat::blocks::{Block, CodeTooWide, ElementFormat, Nvfp4Block, Nvfp4Error, tensor_scale};
use rustc_apfloat::conversion_modes::{ConversionRound, NanResult, RandomDigits};
use rustc_apfloat::ieee::{Half, IeeeFloat, Semantics, Single, SingleS};
use rustc_apfloat::p3109::{Binary8P1UF, Binary8P3, Binary8P4, Binary8P5, Projected, Projection};
use rustc_apfloat::p3109::{ProjectionRound, ProjectionRule, Saturation};
use rustc_apfloat::storage_formats::{E2M1FN, E2M3FN, E3M2FN, E8M0FNU, Float8E3M4, StorageFormat, StoredFloat, UE4M3};
use rustc_apfloat::{Category, Float, Round, StatusAnd};
use std::cmp::Ordering;
use std::fs;
use std::path::Path;

struct Row {
    call: String,
    formats: String,
    mode: String,
    operands: Vec<String>,
    value: String,
    more: String,
}

fn rows(file: &str) -> Vec<Row> {
    let path = Path::new(env!("CARGO_MANIFEST_DIR")).join("tests/rows").join(file);
    let text = fs::read_to_string(path).unwrap();
    let rows = text.lines().filter(|line| !line.starts_with('#')).map(|line| {
        let columns: Vec<&str> = line.split('\t').collect();
        Row {
            call: columns[0].into(),
            formats: columns[1].into(),
            mode: columns[2].into(),
            operands: columns[3].split(' ').map(String::from).collect(),
            value: columns[4].into(),
            more: columns[6].into(),
        }
    });
    rows.collect()
}

fn round_of(mode: &str) -> Round {
    match mode {
        "even" | "-" => Round::NearestTiesToEven,
        "up" => Round::TowardPositive,
        "down" => Round::TowardNegative,
        "zero" => Round::TowardZero,
        "away" => Round::NearestTiesToAway,
        _ => panic!("{mode}"),
    }
}

fn singles<const N: usize>(words: &[String]) -> [Single; N] {
    let bits = |word: &String| Single::from_bits(u128::from_str_radix(word, 16).unwrap());
    words.iter().map(bits).collect::<Vec<_>>().try_into().unwrap()
}

fn codes(words: &[String]) -> Vec<u8> {
    words.iter().map(|word| u8::from_str_radix(word, 16).unwrap()).collect()
}

fn words_of(values: &[Single]) -> String {
    values.iter().map(|x| format!("{:08x}", x.to_bits())).collect::<Vec<_>>().join(" ")
}

fn element_of(word: &str) -> ElementFormat {
    match word {
        "e5m2" => ElementFormat::E5M2,
        "e4m3fn" => ElementFormat::E4M3FN,
        "e3m2fn" => ElementFormat::E3M2FN,
        "e2m3fn" => ElementFormat::E2M3FN,
        "e2m1fn" => ElementFormat::E2M1FN,
        _ => panic!("{word}"),
    }
}

/// The scale and the codes of a block as a row has them.
fn block_words(scale: u8, codes: &[u8], element: ElementFormat) -> String {
    let digits = if element == ElementFormat::E2M1FN { 1 } else { 2 };
    let codes = codes.iter().map(|code| format!(" {code:0digits$x}"));
    format!("{scale:02x}{}", codes.collect::<String>())
}

fn counts_words(counts: Counts) -> String {
    format!("overflow={} underflow={} inexact={}", counts.overflow, counts.underflow, counts.inexact)
}

/// What the crate gives for a row of blocks of `N` elements: the value, and the counts.
fn of_block<const N: usize>(row: &Row) -> (String, String) {
    let (source, target) = row.formats.split_once('>').unwrap();
    let (round, operands) = (round_of(&row.mode), &row.operands[..]);
    match row.call.as_str() {
        "quantize_block" => {
            let element = element_of(target);
            let (block, counts) = Block::<N>::from_values(element, &singles(operands), round);
            assert_eq!((counts.values, counts.invalid), (N as u64, 0));
            (block_words(block.scale, &block.codes, element), counts_words(counts))
        }
        "dequantize_block" => {
            let (scale, codes) = (codes(&operands[..1])[0], codes(&operands[1..]).try_into().unwrap());
            let block = Block::<N> { element: element_of(source), scale, codes };
            (words_of(&block.to_values::<SingleS>(round).unwrap().0), "-".into())
        }
        "quantize_nvfp4_block" => {
            let [tensor] = singles(&operands[..1]);
            let (block, counts) = Nvfp4Block::<N>::from_values(&singles(&operands[1..]), tensor, round).unwrap();
            (block_words(block.scale, &block.codes, ElementFormat::E2M1FN), counts_words(counts))
        }
        "dequantize_nvfp4_block" => {
            let [tensor] = singles(&operands[..1]);
            let (scale, codes) = (codes(&operands[1..2])[0], codes(&operands[2..]).try_into().unwrap());
            let block = Nvfp4Block::<N> { scale, codes };
            (words_of(&block.to_values::<SingleS>(tensor, round).unwrap().0), "-".into())
        }
        call => panic!("{call}"),
    }
}

#[test]
fn rows_of_blocks() {
    let mut agreeing = 0;
    for row in rows("blocks.tsv") {
        if row.call == "tensor_scale" {
            let bits = |word: &String| Single::from_bits(u128::from_str_radix(word, 16).unwrap());
            let values: Vec<Single> = row.operands.iter().map(bits).collect();
            let scale = tensor_scale(&values).map_or("None".into(), |scale| words_of(&[scale]));
            assert_eq!(scale, row.value);
            agreeing += 1;
            continue;
        }
        let first = match row.call.as_str() {
            "quantize_block" => 0,
            "dequantize_nvfp4_block" => 2,
            _ => 1,
        };
        let (value, counts) = match row.operands.len() - first {
            4 => of_block::<4>(&row),
            16 => of_block::<16>(&row),
            32 => of_block::<32>(&row),
            length => panic!("{length}"),
        };
        let of_counts = if row.more == "-" { "-".into() } else { counts };
        assert_eq!((&value, &of_counts), (&row.value, &row.more), "{} {}", row.call, row.operands.join(" "));
        agreeing += 1;
    }
    assert_eq!(agreeing, 3082);
}

#[test]
fn blocks_that_are_refused() {
    let (round, one) = (Round::TowardZero, Single::from_u128(1).value);
    let block = Block { element: ElementFormat::E2M3FN, scale: 127, codes: [63, 64] };
    assert_eq!(block.to_values::<SingleS>(round).unwrap_err(), CodeTooWide);
    let nan = Block { scale: 255, codes: [1, 2], ..block }.to_values::<SingleS>(round).unwrap();
    assert!(nan.0.iter().all(|x| x.to_bits() == 0x7fc0_0000) && nan.1.nans == 2);
    let values = [one, Single::INFINITY];
    let (block, counts) = Block::from_values(ElementFormat::E5M2, &values, round);
    assert_eq!((block.scale, block.codes, counts.nans, counts.values), (255, [0, 0], 2, 2));
    assert_eq!(Nvfp4Block::from_values(&values, -one, round).unwrap_err(), Nvfp4Error::TensorScale);
    assert_eq!(Nvfp4Block::from_values(&values, one, round).unwrap().0, Nvfp4Block { scale: 127, codes: [0, 0] });
    let signed = Nvfp4Block { scale: 128, codes: [0; 16] };
    assert_eq!(signed.to_values::<SingleS>(one, round).unwrap_err(), Nvfp4Error::BlockScale);
    assert_eq!(tensor_scale(&values).unwrap_err(), Nvfp4Error::NotFinite);
}

/// The checksum of a row about all values.
struct Checksum(u64);

impl Checksum {
    fn add(&mut self, value: u64, flags: u8, loses_info: bool) {
        let result = 64 * value + 2 * u64::from(flags) + u64::from(loses_info);
        self.0 = self.0.wrapping_mul(1_000_003).wrapping_add(result);
    }
}

/// The mode of a row of conversions, after the step of its values.
fn mode_of(row: &Row) -> ConversionRound {
    let numbers: Vec<u32> = row.operands[1..].iter().map(|word| word.parse().unwrap()).collect();
    match (row.call.as_str(), &numbers[..]) {
        ("every_convert_r", []) => ConversionRound::Ieee(round_of(&row.mode)),
        ("every_convert_odd", []) => ConversionRound::ToOdd,
        (_, &[digits, random]) => ConversionRound::Stochastic(RandomDigits::new(digits, random).unwrap()),
        _ => panic!("{}", row.call),
    }
}

/// The checksum of the conversions of halves to codes.
fn of_halves(row: &Row, convert: impl Fn(Half, ConversionRound, &mut bool) -> StatusAnd<u16>) -> u64 {
    let (mut sum, mode) = (Checksum(0), mode_of(row));
    for bits in (0..0x10000).step_by(row.operands[0].parse().unwrap()) {
        let mut loses_info = false;
        let answer = convert(Half::from_bits(bits), mode, &mut loses_info);
        sum.add(answer.value.into(), answer.status.bits(), loses_info);
    }
    sum.0
}

fn elements<F: StorageFormat>(row: &Row) -> u64 {
    let nans = if row.call.ends_with("_all") { NanResult::Largest } else { NanResult::Zero };
    of_halves(row, |x, mode, loses_info| {
        StoredFloat::<F>::from_value_by(x, mode, nans, loses_info).map(|code| code.to_bits().into())
    })
}

struct Binary3P1SF;
struct Binary6P2UE;
struct Binary8P4SF;
struct Binary15P8SE;

macro_rules! projections {
    ($($name:ident = $bits:literal $precision:literal $signed:literal $extended:literal;)*) => {$(
        impl Projection for $name {
            const BITS: usize = $bits;
            const PRECISION: usize = $precision;
            const SIGNED: bool = $signed;
            const EXTENDED: bool = $extended;
        }
    )*};
}

projections! {
    Binary3P1SF = 3 1 true false;
    Binary6P2UE = 6 2 false true;
    Binary8P4SF = 8 4 true false;
    Binary15P8SE = 15 8 true true;
}

fn of_projection<F: Projection>(row: &Row) -> u64 {
    if row.formats.starts_with("half>") {
        return of_halves(row, |x, mode, loses_info| {
            Projected::<F>::from_value_by(x, mode, loses_info).map(Projected::to_bits)
        });
    }
    let codes = |step: &String| (0..1u16 << F::BITS).step_by(step.parse().unwrap()).map(Projected::<F>::from_bits);
    let mut sum = Checksum(0);
    for x in codes(&row.operands[0]) {
        match row.call.as_str() {
            "every_convert_r" => {
                let mut loses_info = false;
                let answer: StatusAnd<Single> = x.convert_r(round_of(&row.mode), &mut loses_info);
                sum.add(answer.value.to_bits() as u64, answer.status.bits(), loses_info);
            }
            "every_category" => {
                let place = match x.category() {
                    Category::NaN => 0,
                    Category::Infinity => 1,
                    Category::Zero => 2,
                    Category::Normal => 3,
                };
                sum.add(place, 0, false);
            }
            "every_next_up" => sum.add(x.next_up().to_bits().into(), 0, false),
            "every_next_down" => sum.add(x.next_down().to_bits().into(), 0, false),
            "every_partial_cmp" => {
                for y in codes(&row.operands[1]) {
                    let place = x.partial_cmp(&y).map_or(0, |order| match order {
                        Ordering::Less => 1,
                        Ordering::Equal => 2,
                        Ordering::Greater => 3,
                    });
                    sum.add(place, 0, false);
                }
            }
            call => panic!("{call}"),
        }
    }
    sum.0
}

#[test]
fn checksums_of_all_values() {
    let mut agreeing = 0;
    for row in rows("conversion_modes.tsv").into_iter().chain(rows("projections.tsv")) {
        let sum = match row.formats.replace("half>", "").replace(">single", "").as_str() {
            "e2m1fn" => elements::<E2M1FN>(&row),
            "e2m3fn" => elements::<E2M3FN>(&row),
            "e3m2fn" => elements::<E3M2FN>(&row),
            "binary8p3se" => of_projection::<Binary8P3>(&row),
            "binary8p4se" => of_projection::<Binary8P4>(&row),
            "binary8p5se" => of_projection::<Binary8P5>(&row),
            "binary8p1uf" => of_projection::<Binary8P1UF>(&row),
            "binary3p1sf" => of_projection::<Binary3P1SF>(&row),
            "binary6p2ue" => of_projection::<Binary6P2UE>(&row),
            "binary8p4sf" => of_projection::<Binary8P4SF>(&row),
            "binary15p8se" => of_projection::<Binary15P8SE>(&row),
            word => panic!("{word}"),
        };
        assert_eq!(format!("{sum:016x}"), row.value, "{} {} {:?}", row.call, row.formats, row.operands);
        agreeing += 1;
    }
    assert_eq!(agreeing, 168);
}

/// The checksum of the conversions of every 61st half by a rule, whose columns are after the format.
fn by_rule<F: Projection>(columns: &[&str]) -> u64 {
    let [saturation, way, digits, random, _] = columns else { panic!("{columns:?}") };
    let bits = || RandomDigits::new(digits.parse().unwrap(), random.parse().unwrap()).unwrap();
    let round = match *way {
        "odd" => ProjectionRound::By(ConversionRound::ToOdd),
        "a" => ProjectionRound::By(ConversionRound::Stochastic(bits())),
        "b" => ProjectionRound::StochasticB(bits()),
        "c" => ProjectionRound::StochasticC(bits()),
        mode => ProjectionRound::By(ConversionRound::Ieee(round_of(mode))),
    };
    let saturation = match *saturation {
        "overflow" => Saturation::Overflow,
        "finite" => Saturation::Finite,
        _ => Saturation::Propagate,
    };
    let mut sum = Checksum(0);
    for bits in (0..0x10000).step_by(61) {
        let (mut loses_info, rule) = (false, ProjectionRule { round, saturation });
        let answer = Projected::<F>::project(Half::from_bits(bits), rule, &mut loses_info);
        sum.add(answer.value.to_bits().into(), answer.status.bits(), loses_info);
    }
    sum.0
}

#[test]
fn rules_of_projections() {
    let rows = include_str!("projection_rules.tsv").lines().filter(|line| !line.starts_with('#'));
    assert_eq!(rows.clone().count(), 720);
    for row in rows {
        let columns: Vec<&str> = row.split('\t').collect();
        let sum = match columns[0] {
            "binary8p3se" => by_rule::<Binary8P3>(&columns[1..]),
            "binary8p4se" => by_rule::<Binary8P4>(&columns[1..]),
            "binary8p5se" => by_rule::<Binary8P5>(&columns[1..]),
            "binary8p1uf" => by_rule::<Binary8P1UF>(&columns[1..]),
            "binary3p1sf" => by_rule::<Binary3P1SF>(&columns[1..]),
            "binary6p2ue" => by_rule::<Binary6P2UE>(&columns[1..]),
            "binary8p4sf" => by_rule::<Binary8P4SF>(&columns[1..]),
            "binary15p8se" => by_rule::<Binary15P8SE>(&columns[1..]),
            word => panic!("{word}"),
        };
        assert_eq!(format!("{sum:016x}"), columns[5], "{row}");
    }
    assert_eq!(Projected::<Binary8P4>::largest().to_bits(), 0x7e);
}

/// The numbers of a format by their fields, in the order of the codes.
fn decoded(code: u32, exponent_bits: u32, digits: u32, bias: i32) -> f64 {
    let (field, fraction) = (code >> digits & ((1 << exponent_bits) - 1), f64::from(code & ((1 << digits) - 1)));
    let unit = f64::powi(2.0, 1.max(field as i32) - bias - digits as i32);
    let magnitude = (fraction + if field == 0 { 0.0 } else { f64::from(1 << digits) }) * unit;
    if code >> (exponent_bits + digits) & 1 == 1 { -magnitude } else { magnitude }
}

#[test]
fn numbers_and_their_texts() {
    fn agrees<T: Semantics>(x: IeeeFloat<T>, text: &str, expected: f64) {
        assert_eq!(x.to_string().parse::<f64>().unwrap(), expected);
        assert_eq!(text, x.to_string());
    }
    for code in 0..64u8 {
        let (x, y) = (StoredFloat::<E3M2FN>::from_bits(code), StoredFloat::<E3M2FN>::from_bits(21));
        let (of_x, of_y) = (decoded(code.into(), 3, 2, 3), decoded(21, 3, 2, 3));
        agrees(x.number(), &x.to_string(), of_x);
        assert_eq!((x.partial_cmp(&y), x == y), (of_x.partial_cmp(&of_y), of_x == of_y));
    }
    for code in 0..0x70u8 {
        let x = Float8E3M4::from_bits(code);
        agrees(x.number(), &x.to_string(), decoded(code.into(), 3, 4, 3));
    }
    for code in 0..127u8 {
        let x = UE4M3::from_bits(code);
        agrees(x.number(), &x.to_string(), decoded(code.into(), 4, 3, 7));
    }
    for code in 0..255u8 {
        let x = E8M0FNU::from_bits(code);
        agrees(x.number(), &x.to_string(), f64::powi(2.0, i32::from(code) - 127));
    }
    assert!(E8M0FNU::from_bits(255).number().is_nan() && E8M0FNU::from_bits(255) != E8M0FNU::from_bits(255));
    assert_eq!(Float8E3M4::from_bits(0xf0).to_string(), "-Inf");
}

#[test]
fn scales_to_odd_and_with_random_digits() {
    // 1.5 is in the middle of two scales: to odd the code is odd, and half of the random numbers lead up.
    let x: Single = "1.5".parse().unwrap();
    let code = |mode| E8M0FNU::from_value_by(x, mode, &mut false).value.to_bits();
    assert_eq!(code(ConversionRound::ToOdd), 127);
    let up = (0..8).filter(|random| code(ConversionRound::Stochastic(RandomDigits::new(3, *random).unwrap())) == 128);
    assert_eq!(up.count(), 4);
    // 1.03125 is a quarter of the way from 1 to 1.125, and half of that from 1 to 1.0625.
    let x: Single = "1.03125".parse().unwrap();
    let modes = (0..4).map(|random| ConversionRound::Stochastic(RandomDigits::new(2, random).unwrap()));
    let unsigned = modes.clone().map(|mode| UE4M3::from_value_by(x, mode, &mut false).value.to_bits());
    assert_eq!(unsigned.collect::<Vec<_>>(), [0x38, 0x38, 0x38, 0x39]);
    let e3m4 = modes.map(|mode| Float8E3M4::from_value_by(x, mode, &mut false).value.to_bits());
    assert_eq!(e3m4.collect::<Vec<_>>(), [0x30, 0x30, 0x31, 0x31]);
    assert_eq!(Float8E3M4::from_value_by(x, ConversionRound::ToOdd, &mut false).value.to_bits(), 0x31);
}
