//! Times one operation of the Rust crate: `crate_bench FORMAT OPERATION FILE`.
//!
//! FILE has a line for each call: the bits of three operands in hexadecimal digits, an integer in
//! hexadecimal digits, or a text. Prints the nanoseconds of a call in the fastest round, from
//! values in memory to results in memory, and the checksum of the results.

mod fastest;

use fastest::fastest;
use rustc_apfloat::ieee::{
    BFloat, Double, Float8E4M3FN, Float8E5M2, Half, Quad, Single, X87DoubleExtended,
};
use rustc_apfloat::ppc::DoubleDouble;
use rustc_apfloat::{Float, FloatConvert, Round, Status, StatusAnd};

const EVEN: Round = Round::NearestTiesToEven;

/// Prints the time of the call in the fastest round, and the checksum of the results.
fn timed<T, R: Copy>(
    operands: Vec<T>,
    blank: R,
    call: impl Fn(&T) -> R,
    written: impl Fn(R) -> (u8, u128),
) {
    let (results, nanoseconds) = fastest(&operands, blank, call);
    let mut sum = 0;
    for result in &results {
        let (status, bits) = written(*result);
        for word in [status as u64, bits as u64, (bits >> 64) as u64] {
            sum = (sum * 31 + word as u128) % ((1 << 61) - 1);
        }
    }
    println!("{nanoseconds} {sum:016x}");
}

/// The status and the bits of a result.
fn written<F: Float>(result: StatusAnd<F>) -> (u8, u128) {
    (result.status.bits(), result.value.to_bits())
}

/// The integer of a word.
fn integer(word: &str) -> u128 {
    u128::from_str_radix(word, 16).unwrap()
}

/// The operands of the calls: three values for each.
fn values<F: Float>(lines: &[String]) -> Vec<[F; 3]> {
    let value = |word| F::from_bits(integer(word));
    let values = lines.iter().map(|line| line.split(' ').map(value).collect::<Vec<_>>());
    values.map(|words| [words[0], words[1], words[2]]).collect()
}

/// Times an operation that stays in a format.
fn in_format<F: Float>(operation: &str, lines: &[String]) {
    let blank = Status::OK.and(F::ZERO);
    macro_rules! calls {
        ($x:ident => $call:expr) => {
            timed(values::<F>(lines), blank, |$x| $call, written)
        };
    }
    match operation {
        "add" => calls!(x => x[0].add_r(x[1], EVEN)),
        "sub" => calls!(x => x[0].sub_r(x[1], EVEN)),
        "mul" => calls!(x => x[0].mul_r(x[1], EVEN)),
        "div" => calls!(x => x[0].div_r(x[1], EVEN)),
        "fma" => calls!(x => x[0].mul_add_r(x[1], x[2], EVEN)),
        "rem" => calls!(x => x[0].ieee_rem(x[1])),
        "mod" => calls!(x => x[0].c_fmod(x[1])),
        "int" => {
            let integers = lines.iter().map(|line| integer(line)).collect();
            timed(integers, blank, |x: &u128| F::from_u128_r(*x, EVEN), written)
        }
        "parse" => timed(
            lines.to_vec(),
            blank,
            |text: &String| F::from_str_r(text, EVEN).unwrap_or(blank),
            written,
        ),
        "toint" => timed(
            values::<F>(lines),
            Status::OK.and(0i128),
            |x| x[0].to_i128_r(64, Round::TowardZero, &mut false),
            |result| (result.status.bits(), result.value as u128),
        ),
        _ => std::process::exit(2),
    }
}

/// Times a conversion.
fn between<F: FloatConvert<T>, T: Float>(lines: &[String]) {
    let blank = Status::OK.and(T::ZERO);
    timed(values::<F>(lines), blank, |x| x[0].convert_r(EVEN, &mut false), written)
}

/// Times any operation of a format.
fn measure<F: FloatConvert<Half> + FloatConvert<Single> + FloatConvert<Double>>(
    operation: &str,
    lines: &[String],
) {
    match operation {
        "conv:half" => between::<F, Half>(lines),
        "conv:single" => between::<F, Single>(lines),
        "conv:double" => between::<F, Double>(lines),
        _ => in_format::<F>(operation, lines),
    }
}

fn main() {
    let words: Vec<String> = std::env::args().skip(1).collect();
    let text = std::fs::read_to_string(&words[2]).unwrap();
    let lines: Vec<String> = text.lines().map(String::from).collect();
    let operation = &words[1];
    match words[0].as_str() {
        "half" => measure::<Half>(operation, &lines),
        "single" => measure::<Single>(operation, &lines),
        "double" => measure::<Double>(operation, &lines),
        "quad" => measure::<Quad>(operation, &lines),
        "bfloat" => measure::<BFloat>(operation, &lines),
        "e5m2" => measure::<Float8E5M2>(operation, &lines),
        "e4m3fn" => measure::<Float8E4M3FN>(operation, &lines),
        "x87" => measure::<X87DoubleExtended>(operation, &lines),
        "dd" => in_format::<DoubleDouble>(operation, &lines),
        _ => std::process::exit(2),
    }
}
