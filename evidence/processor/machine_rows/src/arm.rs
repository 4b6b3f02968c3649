//! Compares lines of AArch64 of `evidence/processor/instructions.c` with `rustc_apfloat::machines`, as docs/MACHINES.md says that an
//! interpreter calls it: what FZ, FZ16 and DN do, and all flags of FPSR, that of denormal operands too.

use crate::{Outcome, Tally};
use rustc_apfloat::comparisons::{OnNan, Predicate, compare, round_to_integral_in};
use rustc_apfloat::ieee::{BFloatS, DoubleS, HalfS, IeeeFlags, IeeeFloat, Semantics, SingleS, TinyBefore};
use rustc_apfloat::machines::{
    Flush, Machine, MachineIn, MinimumRule, flushed, greatest, least, settled, settled_conversion, settled_fused,
    settled_signed, settled_unary, settled_unsigned, without_denormal,
};
use rustc_apfloat::more::FloatMore;
use rustc_apfloat::{Float, FloatConvert, Round, Status, StatusAnd};
use std::io::BufRead;

type HalfR = IeeeFlags<TinyBefore<HalfS>>;
type SingleR = IeeeFlags<TinyBefore<SingleS>>;
type DoubleR = IeeeFlags<TinyBefore<DoubleS>>;
type BFloatR = IeeeFlags<TinyBefore<BFloatS>>;

// Controls of FPCR, and the flag of a denormal operand in lines.
const FZ16: u32 = 1 << 19;
const FZ: u32 = 1 << 24;
const DN: u32 = 1 << 25;
const IDC: u32 = 0x20;

/// The flags of lines for a status.
fn flags_of(status: Status) -> u32 {
    [Status::INVALID_OP, Status::DIV_BY_ZERO, Status::OVERFLOW, Status::UNDERFLOW, Status::INEXACT]
        .iter()
        .zip(0..)
        .map(|(&flag, place)| u32::from(status.intersects(flag)) << place)
        .sum()
}

/// FPCR, and the flag of the operands that were flushed.
struct Control {
    word: u32,
    flushed: u32,
}

/// Whether a format is half, which FZ16 flushes in place of FZ.
fn is_half<S: Semantics>() -> bool {
    S::BITS == 16 && S::PRECISION == 11
}

impl Control {
    fn machine(&self) -> Machine {
        if self.word & DN != 0 { Machine::ARM_DEFAULT_NAN } else { Machine::ARM }
    }

    fn machine_in<S: Semantics>(&self) -> MachineIn<S> {
        MachineIn::new(self.machine()).expect("tiny before rounding")
    }

    fn round(&self) -> Round {
        let modes = [Round::NearestTiesToEven, Round::TowardPositive, Round::TowardNegative, Round::TowardZero];
        modes[(self.word >> 22 & 3) as usize]
    }

    fn flushes<S: Semantics>(&self) -> bool {
        self.word & if is_half::<S>() { FZ16 } else { FZ } != 0
    }

    /// An operand of these bits. FZ raises IDC for one that it flushes, beside a NaN too; FZ16 does not.
    fn operand<S: Semantics>(&mut self, bits: u128) -> IeeeFloat<S> {
        let x = IeeeFloat::<S>::from_bits(bits);
        if !x.is_denormal() || !self.flushes::<S>() {
            return x;
        }
        if !is_half::<S>() {
            self.flushed = IDC;
        }
        without_denormal(x)
    }

    fn result<S: Semantics>(&self, answer: StatusAnd<IeeeFloat<S>>) -> StatusAnd<IeeeFloat<S>> {
        if self.flushes::<S>() { flushed(Flush::Arm, answer) } else { answer }
    }

    fn outcome(&self, value: u128, status: Status) -> Outcome {
        Outcome { value, flags: flags_of(status) | self.flushed }
    }
}

/// What the library gives for an operation in one format.
fn in_format<S: Semantics>(name: &str, mut control: Control, operands: &[u128]) -> Outcome {
    let mut drawn = operands.iter().map(|&bits| control.operand::<S>(bits)).collect::<Vec<_>>().into_iter();
    let x = drawn.next().expect("an operand");
    let (machine, in_format, round) = (control.machine(), control.machine_in(), control.round());
    let mut is_exact = false;
    let valued = |answer: StatusAnd<IeeeFloat<S>>| {
        let answer = control.result(answer);
        control.outcome(answer.value.to_bits(), answer.status)
    };
    let unary = |answer| valued(settled_unary(in_format, x, answer));
    match name {
        "fsqrt" => return unary(x.sqrt_r(round)),
        "frinti" => return unary(round_to_integral_in(x, round)),
        "frintx" => return unary(x.round_to_integral(round)),
        "fcvtns" | "fcvtzs" => {
            let round = if name == "fcvtns" { Round::NearestTiesToEven } else { Round::TowardZero };
            let answer = x.to_i128_r(32, round, &mut is_exact);
            let answer = settled_signed(machine, x, 32, answer);
            return control.outcome(answer.value as u128 & 0xffff_ffff, answer.status);
        }
        "fcvtzu" | "fcvtau" => {
            let round = if name == "fcvtau" { Round::NearestTiesToAway } else { Round::TowardZero };
            let answer = x.to_u128_r(32, round, &mut is_exact);
            let answer = settled_unsigned(machine, x, 32, answer).expect("Arm has them");
            return control.outcome(answer.value, answer.status);
        }
        _ => {}
    }
    let y = drawn.next().expect("two operands");
    let two = |answer| valued(settled(in_format, x, y, answer));
    match name {
        "fadd" => two(x.add_r(y, round)),
        "fsub" => two(x.sub_r(y, round)),
        "fmul" | "fnmul" => two(x.mul_r(y, round)),
        "fdiv" => two(x.div_r(y, round)),
        "fminnm" => valued(least(MinimumRule::Number2008, machine, x, y)),
        "fmaxnm" => valued(greatest(MinimumRule::Number2008, machine, x, y)),
        "fmin" => valued(least(MinimumRule::Propagated, machine, x, y)),
        "fmax" => valued(greatest(MinimumRule::Propagated, machine, x, y)),
        "fmadd" | "fmsub" | "fnmadd" | "fnmsub" => {
            let z = drawn.next().expect("three operands");
            let answer = settled_fused(in_format, x, y, z, x.mul_add_r(y, z, round));
            valued(answer.expect("Arm has fused sums"))
        }
        _ => compared(&control, if name == "fcmpe" { OnNan::Signaling } else { OnNan::Quiet }, x, y),
    }
}

/// The order, from less, 0, to unordered, 3.
fn compared<S: Semantics>(control: &Control, on_nan: OnNan, x: IeeeFloat<S>, y: IeeeFloat<S>) -> Outcome {
    let holds = |predicate| compare(predicate, OnNan::Quiet, x, y).value;
    let order = match () {
        _ if holds(Predicate::Less) => 0,
        _ if holds(Predicate::Equal) => 1,
        _ if holds(Predicate::Greater) => 2,
        _ => 3,
    };
    control.outcome(order, compare(Predicate::Equal, on_nan, x, y).status)
}

/// What the library gives for a conversion. Neither operands nor results of half are flushed.
fn converted<S: Semantics, T: Semantics>(mut control: Control, bits: u128) -> Outcome
where
    IeeeFloat<S>: FloatConvert<IeeeFloat<T>>,
{
    control.word &= !FZ16;
    let x = control.operand::<S>(bits);
    let mut loses_info = false;
    let answer = x.convert_r(control.round(), &mut loses_info);
    let answer = control.result(settled_conversion(control.machine_in(), x, answer));
    control.outcome(answer.value.to_bits(), answer.status)
}

/// What the library gives for a line.
fn library(name: &str, word: u32, operands: &[u128]) -> Outcome {
    let control = Control { word, flushed: 0 };
    match name {
        "fcvt_h_s" => converted::<HalfR, SingleR>(control, operands[0]),
        "fcvt_h_d" => converted::<HalfR, DoubleR>(control, operands[0]),
        "fcvt_s_h" => converted::<SingleR, HalfR>(control, operands[0]),
        "fcvt_s_d" => converted::<SingleR, DoubleR>(control, operands[0]),
        "fcvt_d_h" => converted::<DoubleR, HalfR>(control, operands[0]),
        "fcvt_d_s" => converted::<DoubleR, SingleR>(control, operands[0]),
        "bfcvt" => converted::<SingleR, BFloatR>(control, operands[0]),
        _ => match name.rsplit_once('_') {
            Some((call, "h")) => in_format::<HalfR>(call, control, operands),
            Some((call, "s")) => in_format::<SingleR>(call, control, operands),
            _ => in_format::<DoubleR>(name.trim_end_matches("_d"), control, operands),
        },
    }
}

/// Compares all lines of an input, whose operations stand together.
pub fn compare_lines(input: impl BufRead, tally: &mut Tally) {
    let mut rows: Vec<(String, u64, u64)> = Vec::new();
    for line in input.lines() {
        let line = line.expect("a line");
        let (name, numbers) = line.split_once(' ').expect("a name");
        let numbers: Vec<u128> =
            numbers.split(' ').map(|word| u128::from_str_radix(word, 16).expect("a number")).collect();
        let [machine, _, _, _, mode, controls, ref operands @ .., value, flags] = numbers[..] else {
            panic!("too few words: {line}")
        };
        let here = Outcome { value, flags: flags as u32 };
        let flushing = if controls & 2 != 0 { FZ } else { 0 } | if controls & 4 != 0 { FZ16 } else { 0 };
        let default = if machine == 4 { DN } else { 0 };
        let ours = library(name, (mode as u32 & 3) << 22 | flushing | default, operands);
        if rows.last().is_none_or(|(last, ..)| last != name) {
            rows.push((name.to_string(), 0, 0));
        }
        let (_, agreeing, differing) = rows.last_mut().expect("a row");
        if here == ours {
            *agreeing += 1;
            continue;
        }
        *differing += 1;
        if *differing <= 10 {
            println!("{line}: library {ours:x?}");
        }
    }
    for (name, agreeing, differing) in rows {
        println!("{name}: {agreeing} rows agree, {differing} differ");
        tally.differing += differing;
    }
}
