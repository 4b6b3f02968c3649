//! The operations of formats.

use crate::encoding::Encoding;
use crate::erased::rustc_apfloat::ieee::{DoubleS, HalfS, IeeeFloat, Semantics, SingleS};
use crate::erased::rustc_apfloat::{FUSED_LIMIT, Float, FloatConvert, PRODUCT_LIMIT, Round, Status, StatusAnd};
use crate::measure::{Calls, Measured, for_each, measured_calls};
use crate::operands::{Source, drawn_bits, drawn_integers, drawn_texts};
use crate::operation::Operation;
use crate::task::Task;
use crate::wide_numbers::wide_arithmetic;
use std::marker::PhantomData;

/// The operands of a call.
pub type Operands<S> = [IeeeFloat<S>; 3];

/// The measurements of an operation in a format, or `None` if the format does not have it.
pub fn measured_in<S: Semantics>(task: Task) -> Option<Measured> {
    let known = match task.operation {
        Operation::Product if S::PRECISION > PRODUCT_LIMIT => return None,
        Operation::FusedSum if S::PRECISION > FUSED_LIMIT => return None,
        Operation::ToHalf => conversions::<S, HalfS>(task),
        Operation::ToSingle => conversions::<S, SingleS>(task),
        Operation::ToDouble => conversions::<S, DoubleS>(task),
        Operation::ToInteger => integers_out::<S>(task),
        Operation::FromInteger => integers_in::<S>(task),
        Operation::Reading => readings::<S>(task),
        Operation::Bits => bits_both_ways::<S>(task),
        Operation::SquareRoot | Operation::WideProduct | Operation::WideFusedSum => wide_arithmetic::<S>(task),
        _ => arithmetic::<S>(task),
    };
    Some(known)
}

/// Measures an arithmetic operation.
fn arithmetic<S: Semantics>(task: Task) -> Measured {
    let drawn = values::<S>(task);
    let blank = IeeeFloat::<S>::zero();
    measured_calls(task.rounds, Calculates(task), &drawn, blank)
}

/// Computes an operation.
#[derive(Clone, Copy)]
struct Calculates(Task);

impl<S: Semantics> Calls<Operands<S>, IeeeFloat<S>> for Calculates {
    fn make(self, operands: &[Operands<S>], answers: &mut [StatusAnd<IeeeFloat<S>>]) {
        let mode = self.0.mode;
        match self.0.operation {
            Operation::Sum => for_each!(operands, answers, x => x[0].add_r(x[1], mode)),
            Operation::Difference => for_each!(operands, answers, x => x[0].sub_r(x[1], mode)),
            Operation::Product if S::PRECISION <= PRODUCT_LIMIT => {
                for_each!(operands, answers, x => x[0].mul_r(x[1], mode))
            }
            Operation::Quotient => for_each!(operands, answers, x => x[0].div_r(x[1], mode)),
            Operation::FusedSum if S::PRECISION <= FUSED_LIMIT => {
                for_each!(operands, answers, x => x[0].mul_add_r(x[1], x[2], mode))
            }
            Operation::NearestRemainder => for_each!(operands, answers, x => x[0].ieee_rem(x[1])),
            Operation::TruncatedRemainder => for_each!(operands, answers, x => x[0].c_fmod(x[1])),
            _ => {}
        }
    }
}

/// Measures the conversion to the format `T`.
fn conversions<S: Semantics, T: Semantics>(task: Task) -> Measured {
    let drawn = values::<S>(task);
    let blank = IeeeFloat::<T>::zero();
    measured_calls(task.rounds, Converts(task.mode), &drawn, blank)
}

/// Converts to another format.
#[derive(Clone, Copy)]
struct Converts(Round);

impl<S: Semantics, T: Semantics> Calls<Operands<S>, IeeeFloat<T>> for Converts {
    fn make(self, operands: &[Operands<S>], answers: &mut [StatusAnd<IeeeFloat<T>>]) {
        let mode = self.0;
        let mut loses_info = false;
        for_each!(operands, answers, x => x[0].convert_r(mode, &mut loses_info));
    }
}

/// Measures the conversion to integers.
fn integers_out<S: Semantics>(task: Task) -> Measured {
    let set = task.set.for_integers();
    let drawn = values::<S>(Task { set, ..task });
    measured_calls(task.rounds, ToIntegers, &drawn, 0i128)
}

/// Converts to 64-bit integers.
#[derive(Clone, Copy)]
struct ToIntegers;

impl<S: Semantics> Calls<Operands<S>, i128> for ToIntegers {
    fn make(self, operands: &[Operands<S>], answers: &mut [StatusAnd<i128>]) {
        let mut is_exact = false;
        for_each!(operands, answers, x => x[0].to_i128_r(64, Round::TowardZero, &mut is_exact));
    }
}

/// Measures the conversion from integers.
fn integers_in<S: Semantics>(task: Task) -> Measured {
    let drawn = drawn_integers();
    let blank = IeeeFloat::<S>::zero();
    measured_calls(task.rounds, FromIntegers(task.mode), &drawn, blank)
}

/// Converts from integers.
#[derive(Clone, Copy)]
struct FromIntegers(Round);

impl<S: Semantics> Calls<u128, IeeeFloat<S>> for FromIntegers {
    fn make(self, operands: &[u128], answers: &mut [StatusAnd<IeeeFloat<S>>]) {
        let mode = self.0;
        for_each!(operands, answers, x => IeeeFloat::from_u128_r(*x, mode));
    }
}

/// Measures the reading of texts.
fn readings<S: Semantics>(task: Task) -> Measured {
    let drawn = drawn_texts(Encoding::of::<S>(), task.set);
    let blank = IeeeFloat::<S>::zero();
    measured_calls(task.rounds, Reads(task.mode), &drawn, blank)
}

/// Reads texts; a refusal counts as 0 with `INVALID_OP`.
#[derive(Clone, Copy)]
pub struct Reads(pub Round);

impl<S: Semantics> Calls<String, IeeeFloat<S>> for Reads {
    fn make(self, texts: &[String], answers: &mut [StatusAnd<IeeeFloat<S>>]) {
        let refused = Status::INVALID_OP.and(IeeeFloat::zero());
        for_each!(texts, answers, text => IeeeFloat::from_str_r(text, self.0).unwrap_or(refused));
    }
}

/// Measures reading and writing bits.
fn bits_both_ways<S: Semantics>(task: Task) -> Measured {
    let source = Source::Number(Encoding::of::<S>());
    let drawn = drawn_bits(source, task.set);
    let calls = ReadsAndWrites::<S>(PhantomData);
    measured_calls(task.rounds, calls, &drawn, 0u128)
}

/// Reads bits of a format and writes them.
#[derive(Clone, Copy)]
struct ReadsAndWrites<S>(PhantomData<S>);

impl<S: Semantics> Calls<[u128; 3], u128> for ReadsAndWrites<S> {
    fn make(self, operands: &[[u128; 3]], answers: &mut [StatusAnd<u128>]) {
        if S::PRECISION < S::BITS {
            for_each!(operands, answers, x => Status::OK.and(IeeeFloat::<S>::from_bits(x[0]).to_bits()));
        }
    }
}

/// The values of drawn operands.
pub fn values<S: Semantics>(task: Task) -> Vec<Operands<S>> {
    let source = Source::Number(Encoding::of::<S>());
    drawn_bits(source, task.set).into_iter().map(|bits| bits.map(IeeeFloat::from_bits)).collect()
}
