//! The operations of pairs of doubles.

use crate::encoding::Encoding;
use crate::erased::rustc_apfloat::ieee::DoubleS;
use crate::erased::rustc_apfloat::ppc::DoubleDouble;
use crate::erased::rustc_apfloat::{Float, Round, Status, StatusAnd};
use crate::measure::{Calls, Measured, for_each, measured_calls};
use crate::operands::{Source, drawn_bits, drawn_integers, drawn_texts};
use crate::operation::Operation;
use crate::task::Task;

/// The operands of a call.
type Operands = [DoubleDouble; 3];

/// The measurements of an operation on pairs, or `None` if they do not have it.
pub fn measured_pairs(task: Task) -> Option<Measured> {
    let known = match task.operation {
        Operation::FusedSum => return None,
        Operation::WideProduct | Operation::WideFusedSum => return None,
        Operation::ToHalf | Operation::ToSingle | Operation::ToDouble => return None,
        Operation::ToInteger => integers_out(task),
        Operation::FromInteger => integers_in(task),
        Operation::Reading => readings(task),
        Operation::Bits => bits_both_ways(task),
        _ => arithmetic(task),
    };
    Some(known)
}

/// Measures an arithmetic operation.
fn arithmetic(task: Task) -> Measured {
    let drawn = values(task);
    let blank = DoubleDouble::zero();
    measured_calls(task.rounds, Calculates(task), &drawn, blank)
}

/// Computes an operation.
#[derive(Clone, Copy)]
struct Calculates(Task);

impl Calls<Operands, DoubleDouble> for Calculates {
    fn make(self, operands: &[Operands], answers: &mut [StatusAnd<DoubleDouble>]) {
        let mode = self.0.mode;
        match self.0.operation {
            Operation::Sum => for_each!(operands, answers, x => x[0].add_r(x[1], mode)),
            Operation::Difference => for_each!(operands, answers, x => x[0].sub_r(x[1], mode)),
            Operation::Product => for_each!(operands, answers, x => x[0].mul_r(x[1], mode)),
            Operation::Quotient => for_each!(operands, answers, x => x[0].div_r(x[1], mode)),
            Operation::NearestRemainder => for_each!(operands, answers, x => x[0].ieee_rem(x[1])),
            Operation::TruncatedRemainder => for_each!(operands, answers, x => x[0].c_fmod(x[1])),
            Operation::SquareRoot => for_each!(operands, answers, x => x[0].abs().sqrt_r(mode)),
            _ => {}
        }
    }
}

/// Measures the conversion to integers.
fn integers_out(task: Task) -> Measured {
    let set = task.set.for_integers();
    let drawn = values(Task { set, ..task });
    measured_calls(task.rounds, ToIntegers, &drawn, 0i128)
}

/// Converts to 64-bit integers.
#[derive(Clone, Copy)]
struct ToIntegers;

impl Calls<Operands, i128> for ToIntegers {
    fn make(self, operands: &[Operands], answers: &mut [StatusAnd<i128>]) {
        let mut is_exact = false;
        for_each!(operands, answers, x => x[0].to_i128_r(64, Round::TowardZero, &mut is_exact));
    }
}

/// Measures the conversion from integers.
fn integers_in(task: Task) -> Measured {
    let drawn = drawn_integers();
    let blank = DoubleDouble::zero();
    measured_calls(task.rounds, FromIntegers(task.mode), &drawn, blank)
}

/// Converts from integers.
#[derive(Clone, Copy)]
struct FromIntegers(Round);

impl Calls<u128, DoubleDouble> for FromIntegers {
    fn make(self, operands: &[u128], answers: &mut [StatusAnd<DoubleDouble>]) {
        let mode = self.0;
        for_each!(operands, answers, x => DoubleDouble::from_u128_r(*x, mode));
    }
}

/// Measures the reading of texts.
fn readings(task: Task) -> Measured {
    let drawn = drawn_texts(Encoding::of::<DoubleS>(), task.set);
    let blank = DoubleDouble::zero();
    measured_calls(task.rounds, Reads(task.mode), &drawn, blank)
}

/// Reads texts; a refusal counts as 0 with `INVALID_OP`.
#[derive(Clone, Copy)]
struct Reads(Round);

impl Calls<String, DoubleDouble> for Reads {
    fn make(self, texts: &[String], answers: &mut [StatusAnd<DoubleDouble>]) {
        let refused = Status::INVALID_OP.and(DoubleDouble::zero());
        for_each!(texts, answers, text => DoubleDouble::from_str_r(text, self.0).unwrap_or(refused));
    }
}

/// Measures reading and writing bits.
fn bits_both_ways(task: Task) -> Measured {
    let source = Source::Pair(Encoding::of::<DoubleS>());
    let drawn = drawn_bits(source, task.set);
    measured_calls(task.rounds, ReadsAndWrites, &drawn, 0u128)
}

/// Reads bits and writes them.
#[derive(Clone, Copy)]
struct ReadsAndWrites;

impl Calls<[u128; 3], u128> for ReadsAndWrites {
    fn make(self, operands: &[[u128; 3]], answers: &mut [StatusAnd<u128>]) {
        for_each!(operands, answers, x => Status::OK.and(DoubleDouble::from_bits(x[0]).to_bits()));
    }
}

/// The pairs of drawn operands.
fn values(task: Task) -> Vec<Operands> {
    let source = Source::Pair(Encoding::of::<DoubleS>());
    drawn_bits(source, task.set).into_iter().map(|bits| bits.map(DoubleDouble::from_bits)).collect()
}
