// The calls of one of the two crates: the module that includes this file names it `apfloat`.

use super::{Calls, Line, Measured, first_lines, number_of};
use apfloat::ieee::{Double, Half, Quad, Single, X87DoubleExtended};
use apfloat::ppc::DoubleDouble;
use apfloat::{Float, FloatConvert, Round, Status, StatusAnd};
use std::fmt::Write;

const EVEN: Round = Round::NearestTiesToEven;

/// The status and the bits of a result.
fn written<F: Float>(result: &StatusAnd<F>) -> Vec<u128> {
    vec![result.status.bits().into(), result.value.to_bits()]
}

/// The operands of the calls: three values for each.
fn values<F: Float>(lines: &[String]) -> Vec<[F; 3]> {
    let value = |word| F::from_bits(number_of(word));
    let values = lines.iter().map(|line| line.split(' ').map(value).collect::<Vec<_>>());
    values.map(|words| [words[0], words[1], words[2]]).collect()
}

/// The first number of each line.
fn numbers(lines: &[String]) -> Vec<u128> {
    lines.iter().map(|line| number_of(line.split(' ').next().unwrap())).collect()
}

fn between<F: FloatConvert<T> + 'static, T: Float + 'static>(lines: &[String]) -> Box<dyn Measured> {
    let call = |x: &[F; 3]| x[0].convert_r(EVEN, &mut false);
    Calls::measured(values::<F>(lines), Status::OK.and(T::ZERO), call, written)
}

/// The calls between formats, and those that every type has.
fn of_format<F>(call: &str, lines: &[String]) -> Option<Box<dyn Measured>>
where
    F: FloatConvert<Half>
        + FloatConvert<Single>
        + FloatConvert<Double>
        + FloatConvert<X87DoubleExtended>
        + FloatConvert<Quad>
        + std::fmt::Debug
        + 'static,
{
    Some(match call {
        "to half" => between::<F, Half>(lines),
        "to single" => between::<F, Single>(lines),
        "to double" => between::<F, Double>(lines),
        "to x87" => between::<F, X87DoubleExtended>(lines),
        "to quad" => between::<F, Quad>(lines),
        _ => return of_type::<F>(call, lines),
    })
}

fn of_type<F: Float + std::fmt::Debug + 'static>(call: &str, lines: &[String]) -> Option<Box<dyn Measured>> {
    // A value with its status, a value, a truth value, a number, and a text.
    macro_rules! answer {
        ($x:ident => $call:expr) => {
            Calls::measured(values::<F>(lines), Status::OK.and(F::ZERO), |$x: &[F; 3]| $call, written)
        };
    }
    macro_rules! value {
        ($x:ident => $call:expr) => {
            Calls::measured(values::<F>(lines), F::ZERO, |$x: &[F; 3]| $call, |value| vec![value.to_bits()])
        };
    }
    macro_rules! number {
        ($x:ident => $call:expr) => {
            Calls::measured(values::<F>(lines), 0, |$x: &[F; 3]| $call as i32, |number| vec![*number as u128])
        };
    }
    macro_rules! whole {
        ($x:ident => $call:expr) => {
            Calls::measured(
                values::<F>(lines),
                Status::OK.and(0),
                |$x: &[F; 3]| $call,
                |answer| vec![answer.status.bits().into(), answer.value as u128],
            )
        };
    }
    macro_rules! of_number {
        ($number:ident => $call:expr, $blank:expr, $written:expr) => {
            Calls::measured(numbers(lines), $blank, |$number: &u128| $call, $written)
        };
    }
    macro_rules! text {
        ($form:literal) => {
            Calls::measured(
                values::<F>(first_lines(lines)),
                Line::new(),
                |x: &[F; 3]| {
                    let mut line = Line::new();
                    write!(line, $form, x[0]).unwrap();
                    line
                },
                Line::words,
            )
        };
    }
    let no_answer = Status::OK.and(F::ZERO);
    let bits = |value: &F| vec![value.to_bits()];
    Some(match call {
        "add" => answer!(x => x[0].add_r(x[1], EVEN)),
        "sub" => answer!(x => x[0].sub_r(x[1], EVEN)),
        "mul" => answer!(x => x[0].mul_r(x[1], EVEN)),
        "div" => answer!(x => x[0].div_r(x[1], EVEN)),
        "fma" => answer!(x => x[0].mul_add_r(x[1], x[2], EVEN)),
        "rem" => answer!(x => x[0].ieee_rem(x[1])),
        "mod" => answer!(x => x[0].c_fmod(x[1])),
        "integral" => answer!(x => x[0].round_to_integral(EVEN)),
        "next_up" => answer!(x => x[0].next_up()),
        "next_down" => answer!(x => x[0].next_down()),
        "neg" => value!(x => -x[0]),
        "abs" => value!(x => x[0].abs()),
        "copy_sign" => value!(x => x[0].copy_sign(x[1])),
        "min" => value!(x => x[0].min(x[1])),
        "max" => value!(x => x[0].max(x[1])),
        "minimum" => value!(x => x[0].minimum(x[1])),
        "maximum" => value!(x => x[0].maximum(x[1])),
        "scalbn" => value!(x => x[0].scalbn_r(-17, EVEN)),
        "frexp" => value!(x => x[0].frexp_r(&mut 0, EVEN)),
        "largest" => value!(_x => F::largest()),
        "smallest_normalized" => value!(_x => F::smallest_normalized()),
        "get_exact_inverse" => value!(x => x[0].get_exact_inverse().unwrap_or(F::ZERO)),
        "ilogb" => number!(x => x[0].ilogb()),
        "cmp" => number!(x => x[0].partial_cmp(&x[1]).map_or(2, |order| order as i32)),
        "==" => number!(x => x[0] == x[1]),
        "cmp_abs_normal" => number!(x => x[0].cmp_abs_normal(x[1])),
        "bitwise_eq" => number!(x => x[0].bitwise_eq(x[1])),
        "category" => number!(x => x[0].category()),
        "is_negative" => number!(x => x[0].is_negative()),
        "is_normal" => number!(x => x[0].is_normal()),
        "is_finite" => number!(x => x[0].is_finite()),
        "is_zero" => number!(x => x[0].is_zero()),
        "is_denormal" => number!(x => x[0].is_denormal()),
        "is_infinite" => number!(x => x[0].is_infinite()),
        "is_nan" => number!(x => x[0].is_nan()),
        "is_signaling" => number!(x => x[0].is_signaling()),
        "is_non_zero" => number!(x => x[0].is_non_zero()),
        "is_finite_non_zero" => number!(x => x[0].is_finite_non_zero()),
        "is_pos_zero" => number!(x => x[0].is_pos_zero()),
        "is_neg_zero" => number!(x => x[0].is_neg_zero()),
        "is_pos_infinity" => number!(x => x[0].is_pos_infinity()),
        "is_neg_infinity" => number!(x => x[0].is_neg_infinity()),
        "is_smallest" => number!(x => x[0].is_smallest()),
        "is_smallest_normalized" => number!(x => x[0].is_smallest_normalized()),
        "is_largest" => number!(x => x[0].is_largest()),
        "is_integer" => number!(x => x[0].is_integer()),
        "to_i128" => whole!(x => x[0].to_i128_r(64, Round::TowardZero, &mut false)),
        "to_u128" => whole!(x => x[0].to_u128_r(64, Round::TowardZero, &mut false)),
        "to_bits" => Calls::measured(values::<F>(lines), 0, |x: &[F; 3]| x[0].to_bits(), |bits| vec![*bits]),
        "from_bits" => of_number!(number => F::from_bits(*number), F::ZERO, bits),
        "qnan" => of_number!(number => F::qnan(Some(*number)), F::ZERO, bits),
        "snan" => of_number!(number => F::snan(Some(*number)), F::ZERO, bits),
        "from_i128" => of_number!(number => F::from_i128_r(*number as i128, EVEN), no_answer, written),
        "from_u128" => of_number!(number => F::from_u128_r(*number, EVEN), no_answer, written),
        "from_str" => Calls::measured(
            lines.to_vec(),
            no_answer,
            |text: &String| F::from_str_r(text, EVEN).unwrap(),
            written,
        ),
        "Display" => text!("{}"),
        "Debug" => text!("{:?}"),
        _ => return None,
    })
}

/// The calls of a cell, if there are such.
pub fn cell(format: &str, call: &str, lines: &[String]) -> Option<Box<dyn Measured>> {
    if call.strip_prefix("to ") == Some(format) {
        return None;
    }
    match format {
        "half" => of_format::<Half>(call, lines),
        "single" => of_format::<Single>(call, lines),
        "double" => of_format::<Double>(call, lines),
        "x87" => of_format::<X87DoubleExtended>(call, lines),
        "quad" => of_format::<Quad>(call, lines),
        "dd" => of_type::<DoubleDouble>(call, lines),
        _ => None,
    }
}
