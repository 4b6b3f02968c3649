//! Compares `rustc_apfloat::machines` with this computer's x86-64 processor: values, bits of NaNs, integers and flags.
//!
//!     cargo run --release -- SEED COUNT
//!
//! For each operation, COUNT rows are drawn from a seed. Half of the operands are special: NaNs of both kinds with any
//! payload, infinities, zeros, denormal numbers, the numbers at the ends of the range; in x87 also bits that the unit
//! does not take, and pseudo-denormals. In conversions to integers and to fewer digits a quarter is near the ends of
//! the range or of a digit. SSE takes turns with FTZ and DAZ. The processor has to have FMA, F16C and SSE4; without
//! AVX-512 there are no unsigned integers. Prints each difference, at most ten of an operation, and how many rows of
//! each operation agree; the status is 1 if one differs.
//!
//! `cargo run --release -- arm` compares lines of AArch64 of `evidence/processor/instructions.c`.

mod arm;

use rustc_apfloat::comparisons::{OnNan, Predicate, compare, round_to_integral_in};
use rustc_apfloat::ieee::{DoubleS, HalfS, IeeeFlags, IeeeFloat, Semantics, SingleS, X87DoubleExtendedS};
use rustc_apfloat::machines::{
    Flush, Machine, MachineIn, MinimumRule, flushed, greatest, has_denormal, least, settled, settled_conversion,
    settled_fused, settled_signed, settled_unary, settled_unsigned, without_denormal,
};
use rustc_apfloat::more::FloatMore;
use rustc_apfloat::{Float, FloatConvert, Round, Status, StatusAnd};
use std::arch::asm;

type Half = IeeeFloat<IeeeFlags<HalfS>>;
type Single = IeeeFloat<IeeeFlags<SingleS>>;
type Double = IeeeFloat<IeeeFlags<DoubleS>>;
type Extended = IeeeFloat<IeeeFlags<X87DoubleExtendedS>>;

/// SSE in a format with flags.
fn x86<S: Semantics>() -> MachineIn<S> {
    MachineIn::new(Machine::X86).expect("tiny after rounding")
}

/// The x87 unit in a format with flags.
fn x87<S: Semantics>() -> MachineIn<S> {
    MachineIn::new(Machine::X87).expect("tiny after rounding")
}

/// In the order of the rounding control of MXCSR and of the control word of x87.
const MODES: [Round; 4] = [Round::NearestTiesToEven, Round::TowardNegative, Round::TowardPositive, Round::TowardZero];

// Flags of MXCSR and of the status word of x87; `flags_of` has the others.
const INVALID: u32 = 1;
const DENORMAL: u32 = 2;
const DIV_BY_ZERO: u32 = 4;

// Controls of MXCSR: all flags masked; results flushed to zero; denormal operands taken as zeros.
const MASKED: u32 = 0x1f80;
const FTZ: u32 = 0x8000;
const DAZ: u32 = 0x40;

/// A result as bits or as an integer, with its flags.
#[derive(Clone, Copy, PartialEq, Eq, Debug)]
struct Outcome {
    value: u128,
    flags: u32,
}

/// The bits of MXCSR for a status.
fn flags_of(status: Status) -> u32 {
    [
        (Status::INVALID_OP, INVALID),
        (Status::DIV_BY_ZERO, DIV_BY_ZERO),
        (Status::OVERFLOW, 8),
        (Status::UNDERFLOW, 16),
        (Status::INEXACT, 32),
    ]
    .iter()
    .map(|&(flag, bit)| if status.intersects(flag) { bit } else { 0 })
    .sum()
}

/// The generator splitmix64.
struct Draw(u64);

impl Draw {
    fn word(&mut self) -> u64 {
        self.0 = self.0.wrapping_add(0x9e37_79b9_7f4a_7c15);
        let z = (self.0 ^ self.0 >> 30).wrapping_mul(0xbf58_476d_1ce4_e5b9);
        let z = (z ^ z >> 27).wrapping_mul(0x94d0_49bb_1331_11eb);
        z ^ z >> 31
    }

    fn below(&mut self, count: u64) -> u64 {
        self.word() % count
    }

    /// A number below 2^bits.
    fn digits(&mut self, bits: u32) -> u128 {
        let word = self.word();
        let long = u128::from(word) << 64 | u128::from(self.word());
        long >> (128 - bits)
    }

    /// The bits of a value of a format: a sign, a biased exponent, and `trailing` digits. Half are special.
    fn value(&mut self, exponent_bits: u32, trailing: u32, near: Option<u128>) -> u128 {
        if self.below(2) == 0 {
            self.special(exponent_bits, trailing)
        } else {
            self.usual(exponent_bits, trailing, near)
        }
    }

    /// The operand of a conversion: half are special, and of the others half are drawn by `near`.
    fn converted(&mut self, exponent_bits: u32, trailing: u32, near: impl FnOnce(&mut Draw) -> u128) -> u128 {
        match self.below(4) {
            0 => near(self),
            1 => self.usual(exponent_bits, trailing, None),
            _ => self.special(exponent_bits, trailing),
        }
    }

    fn sign(&mut self, exponent_bits: u32, trailing: u32) -> u128 {
        u128::from(self.below(2)) << (exponent_bits + trailing)
    }

    fn special(&mut self, exponent_bits: u32, trailing: u32) -> u128 {
        let greatest = (1u128 << exponent_bits) - 1;
        let one = 1u128 << trailing;
        let infinity = greatest << trailing;
        let quiet = one >> 1;
        let sign = self.sign(exponent_bits, trailing);
        let magnitude = match self.below(8) {
            0 => infinity | quiet | self.digits(trailing - 1),
            1 => infinity | (self.digits(trailing - 1) | u128::from(self.below(2))).max(1),
            2 => infinity,
            3 => 0,
            4 => self.digits(trailing),
            5 => one - 2 + u128::from(self.below(4)),
            6 => infinity - 1 - u128::from(self.below(2)),
            _ => greatest / 2 << trailing,
        };
        sign | magnitude
    }

    fn usual(&mut self, exponent_bits: u32, trailing: u32, near: Option<u128>) -> u128 {
        let greatest = (1u128 << exponent_bits) - 1;
        let field = match near {
            Some(other) if self.below(4) != 0 => {
                let middle = other >> trailing & greatest;
                (middle + u128::from(self.below(7))).saturating_sub(3)
            }
            _ => u128::from(self.below(greatest as u64)),
        };
        let kept = self.below(u64::from(trailing)) as u32;
        let digits = match self.below(3) {
            0 => self.digits(trailing) >> kept << kept,
            1 => u128::from(self.below(4)),
            _ => self.digits(trailing),
        };
        self.sign(exponent_bits, trailing) | field.min(greatest - 1) << trailing | digits
    }

    fn single(&mut self, near: Option<u128>) -> u128 {
        self.value(8, 23, near)
    }

    fn double(&mut self, near: Option<u128>) -> u128 {
        self.value(11, 52, near)
    }

    fn converted_single(&mut self, near: impl FnOnce(&mut Draw) -> u128) -> u128 {
        self.converted(8, 23, near)
    }

    fn converted_double(&mut self, near: impl FnOnce(&mut Draw) -> u128) -> u128 {
        self.converted(11, 52, near)
    }

    /// Bits of x87: one in sixteen has an integer bit that does not fit its exponent.
    fn extended(&mut self, near: Option<u128>) -> u128 {
        let narrow = near.map(|x| x >> 64 << 63 | x & ((1 << 63) - 1));
        let drawn = self.value(15, 63, narrow);
        self.with_integer_bit(drawn)
    }

    /// The same of a conversion; `near` gives all bits but the integer bit.
    fn converted_extended(&mut self, near: impl FnOnce(&mut Draw) -> u128) -> u128 {
        let drawn = self.converted(15, 63, near);
        self.with_integer_bit(drawn)
    }

    fn with_integer_bit(&mut self, drawn: u128) -> u128 {
        let field = drawn >> 63 & 0x7fff;
        let mut integer_bit = u128::from(field != 0);
        if self.below(16) == 0 {
            integer_bit ^= 1;
        }
        drawn >> 63 << 64 | integer_bit << 63 | drawn & ((1 << 63) - 1)
    }
}

/// Runs instructions of SSE with a control word, and returns the flags that they raised.
macro_rules! sse {
    ($control:expr, $steps:expr, $($operands:tt)*) => {{
        let mut word: u32 = $control;
        // The instructions read and write the named registers and the word alone.
        unsafe {
            asm!(
                "ldmxcsr [{word}]", $steps, "stmxcsr [{word}]",
                word = in(reg) &mut word, $($operands)*
            );
            let usual: u32 = MASKED;
            asm!("ldmxcsr [{usual}]", usual = in(reg) &usual);
        }
        word & 0x3f
    }};
}

/// How operands and results are flushed.
#[derive(Clone, Copy)]
struct Control {
    round: Round,
    word: u32,
}

impl Control {
    fn drawn(draw: &mut Draw) -> Control {
        let mode = draw.below(4) as usize;
        let flushing = [0, 0, FTZ, DAZ, FTZ | DAZ][draw.below(5) as usize];
        Control { round: MODES[mode], word: MASKED | (mode as u32) << 13 | flushing }
    }

    fn operand<S: Semantics>(self, x: IeeeFloat<S>) -> IeeeFloat<S> {
        if self.word & DAZ != 0 { without_denormal(x) } else { x }
    }

    fn result<S: Semantics>(self, answer: StatusAnd<IeeeFloat<S>>) -> StatusAnd<IeeeFloat<S>> {
        if self.word & FTZ != 0 { flushed(Flush::X86, answer) } else { answer }
    }

    /// The flags, with that of a denormal operand where the machine has it.
    fn flags(self, status: Status, has_denormal: bool) -> u32 {
        with_denormal(flags_of(status), has_denormal && self.word & DAZ == 0)
    }

    /// What the library converts a value to, as SSE settles it and then flushes it.
    fn converted<S: Semantics, T: Semantics>(
        self,
        x: IeeeFloat<S>,
        flushed: impl Fn(StatusAnd<IeeeFloat<T>>) -> StatusAnd<IeeeFloat<T>>,
    ) -> Outcome {
        let denormal = has_denormal(x, x);
        let x = self.operand(x);
        let mut loses_info = false;
        let answer = flushed(settled_conversion(x86(), x, x.convert_r(self.round, &mut loses_info)));
        Outcome { value: answer.value.to_bits(), flags: self.flags(answer.status, denormal) }
    }
}

fn with_denormal(flags: u32, has_denormal: bool) -> u32 {
    let is_first = flags & (INVALID | DIV_BY_ZERO) == 0;
    if has_denormal && is_first { flags | DENORMAL } else { flags }
}

/// The disjunction for three operands, if none of them is a NaN.
fn any_denormal<S: Semantics>(x: IeeeFloat<S>, y: IeeeFloat<S>, z: IeeeFloat<S>) -> bool {
    let is_nan = x.is_nan() || y.is_nan() || z.is_nan();
    !is_nan && (has_denormal(x, y) || has_denormal(z, z))
}

/// Counts what agrees, and prints what does not.
struct Tally {
    differing: u64,
}

impl Tally {
    fn rows(&mut self, name: &str, count: u64, mut row: impl FnMut() -> (Outcome, Outcome, String)) {
        let mut wrong = 0;
        for _ in 0..count {
            let (here, ours, given) = row();
            if here != ours {
                wrong += 1;
                if wrong <= 10 {
                    println!("{name} {given}: processor {here:x?}, library {ours:x?}");
                }
            }
        }
        println!("{name}: {} rows agree, {wrong} differ", count - wrong);
        self.differing += wrong;
    }
}

macro_rules! sse_operations {
    ($tally:expr, $draw:expr, $count:expr, $Type:ident, $draws:ident, $converted:ident, $suffix:literal, $bits:ident, $name:literal) => {{
        let (tally, draw, count): (&mut Tally, &mut Draw, u64) = ($tally, $draw, $count);
        macro_rules! two {
            ($call:literal, $instruction:literal, |$x:ident, $y:ident, $control:ident| $library:expr) => {
                tally.rows(concat!($name, " ", $call), count, || {
                    let $control = Control::drawn(draw);
                    let a = draw.$draws(None);
                    let b = draw.$draws(Some(a));
                    let mut left = <$bits>::from_bits(a as _);
                    let right = <$bits>::from_bits(b as _);
                    let flags = sse!($control.word, concat!($instruction, $suffix, " {left}, {right}"),
                        left = inout(xmm_reg) left, right = in(xmm_reg) right,);
                    let here = Outcome { value: left.to_bits().into(), flags };
                    let ($x, $y) = ($Type::from_bits(a), $Type::from_bits(b));
                    let denormal = has_denormal($x, $y);
                    let ($x, $y) = ($control.operand($x), $control.operand($y));
                    let answer: StatusAnd<$Type> = $library;
                    let ours =
                        Outcome { value: answer.value.to_bits(), flags: $control.flags(answer.status, denormal) };
                    (here, ours, format!("{:x} {a:x} {b:x}", $control.word))
                });
            };
        }
        two!("add", "adds", |x, y, c| c.result(settled(x86(), x, y, x.add_r(y, c.round))));
        two!("sub", "subs", |x, y, c| c.result(settled(x86(), x, y, x.sub_r(y, c.round))));
        two!("mul", "muls", |x, y, c| c.result(settled(x86(), x, y, x.mul_r(y, c.round))));
        two!("div", "divs", |x, y, c| c.result(settled(x86(), x, y, x.div_r(y, c.round))));
        two!("min", "mins", |x, y, _c| least(MinimumRule::Second, Machine::X86, x, y));
        two!("max", "maxs", |x, y, _c| greatest(MinimumRule::Second, Machine::X86, x, y));
        tally.rows(concat!($name, " sqrt"), count, || {
            let control = Control::drawn(draw);
            let a = draw.$draws(None);
            let given = <$bits>::from_bits(a as _);
            let mut root = given;
            let flags = sse!(control.word, concat!("sqrts", $suffix, " {root}, {given}"),
                root = inout(xmm_reg) root, given = in(xmm_reg) given,);
            let here = Outcome { value: root.to_bits().into(), flags };
            let x = $Type::from_bits(a);
            // DE only of a root that is not invalid.
            let denormal = has_denormal(x, x);
            let x = control.operand(x);
            let answer = control.result(settled_unary(x86(), x, x.sqrt_r(control.round)));
            let ours = Outcome { value: answer.value.to_bits(), flags: control.flags(answer.status, denormal) };
            (here, ours, format!("{:x} {a:x}", control.word))
        });
        tally.rows(concat!($name, " fma"), count, || {
            let control = Control::drawn(draw);
            let a = draw.$draws(None);
            let b = draw.$draws(Some(a));
            let c = draw.$draws(Some(a));
            let mut product = <$bits>::from_bits(a as _);
            let factor = <$bits>::from_bits(b as _);
            let addend = <$bits>::from_bits(c as _);
            let flags = sse!(control.word, concat!("vfmadd213s", $suffix, " {product}, {factor}, {addend}"),
                product = inout(xmm_reg) product, factor = in(xmm_reg) factor, addend = in(xmm_reg) addend,);
            let here = Outcome { value: product.to_bits().into(), flags };
            // 213 multiplies the second operand by the first, and adds the third: the order is src2, dst, src3.
            let (x, y, z) = ($Type::from_bits(b), $Type::from_bits(a), $Type::from_bits(c));
            let denormal = any_denormal(x, y, z);
            let (x, y, z) = (control.operand(x), control.operand(y), control.operand(z));
            let answer = settled_fused(x86(), x, y, z, x.mul_add_r(y, z, control.round));
            let answer = control.result(answer.expect("x86 has fused sums"));
            let ours = Outcome { value: answer.value.to_bits(), flags: control.flags(answer.status, denormal) };
            (here, ours, format!("{:x} {a:x} {b:x} {c:x}", control.word))
        });
        macro_rules! integral {
            ($call:literal, $steps:expr, $round:expr, $rounded:expr) => {
                tally.rows(concat!($name, " ", $call), count, || {
                    let control = Control::drawn(draw);
                    let a = draw.$draws(None);
                    let given = <$bits>::from_bits(a as _);
                    let mut whole = given;
                    let flags = sse!(control.word, $steps,
                        whole = inout(xmm_reg) whole, given = in(xmm_reg) given,);
                    let here = Outcome { value: whole.to_bits().into(), flags };
                    let x = control.operand($Type::from_bits(a));
                    let round: fn(Control) -> Round = $round;
                    let rounded: fn($Type, Round) -> StatusAnd<$Type> = $rounded;
                    let answer = settled_unary(x86(), x, rounded(x, round(control)));
                    let ours = Outcome { value: answer.value.to_bits(), flags: flags_of(answer.status) };
                    (here, ours, format!("{:x} {a:x}", control.word))
                });
            };
        }
        integral!(
            "to integral",
            concat!("rounds", $suffix, " {whole}, {given}, 4"),
            |c| c.round,
            Float::round_to_integral
        );
        integral!(
            "floor without INEXACT",
            concat!("rounds", $suffix, " {whole}, {given}, 9"),
            |_| Round::TowardNegative,
            round_to_integral_in
        );
        if is_x86_feature_detected!("avx512f") {
            integral!(
                "to integral by VRNDSCALE",
                concat!("vrndscales", $suffix, " {whole}, {whole}, {given}, 4"),
                |c| c.round,
                Float::round_to_integral
            );
        }
        macro_rules! integer {
            ($call:literal, $instruction:expr, $register:literal, $width:literal, $whole:ident, $round:expr) => {
                tally.rows(concat!($name, " ", $call), count, || {
                    let control = Control::drawn(draw);
                    let a = draw.$converted(|draw| {
                        let scale = <$bits>::from_bits(draw.$draws(None) as _);
                        let near = (draw.word() as i64 >> draw.below(63)) as $bits;
                        if scale.is_nan() { scale.to_bits().into() } else { (near + scale % 2.0).to_bits().into() }
                    });
                    let given = <$bits>::from_bits(a as _);
                    let mut whole: $whole = 0;
                    let flags = sse!(control.word, concat!($instruction, " {whole", $register, "}, {given}"),
                        whole = inout(reg) whole, given = in(xmm_reg) given,);
                    let here = Outcome { value: whole as i128 as u128, flags };
                    let x = control.operand($Type::from_bits(a));
                    let round: fn(Control) -> Round = $round;
                    let mut is_exact = false;
                    let converted = x.to_i128_r($width, round(control), &mut is_exact);
                    let answer = settled_signed(Machine::X86, x, $width, converted);
                    let ours = Outcome { value: answer.value as u128, flags: flags_of(answer.status) };
                    (here, ours, format!("{:x} {a:x}", control.word))
                });
            };
        }
        integer!("to i32", concat!("cvts", $suffix, "2si"), ":e", 32, i32, |c| c.round);
        integer!("to i64", concat!("cvts", $suffix, "2si"), ":r", 64, i64, |c| c.round);
        integer!("to i32 toward zero", concat!("cvtts", $suffix, "2si"), ":e", 32, i32, |_| Round::TowardZero);
        if is_x86_feature_detected!("avx512f") {
            macro_rules! unsigned {
                ($call:literal, $register:literal, $width:literal, $whole:ident) => {
                    tally.rows(concat!($name, " ", $call), count, || {
                        let control = Control::drawn(draw);
                        let a = draw.$converted(|draw| {
                            ((draw.word() >> draw.below(63)) as $bits + 0.5).to_bits().into()
                        });
                        let given = <$bits>::from_bits(a as _);
                        let mut whole: $whole = 0;
                        let flags = sse!(control.word,
                            concat!("vcvts", $suffix, "2usi {whole", $register, "}, {given}"),
                            whole = inout(reg) whole, given = in(xmm_reg) given,);
                        let here = Outcome { value: whole.into(), flags };
                        let x = control.operand($Type::from_bits(a));
                        let mut is_exact = false;
                        let converted = x.to_u128_r($width, control.round, &mut is_exact);
                        let answer = settled_unsigned(Machine::X86, x, $width, converted).expect("x86 has them");
                        let ours = Outcome { value: answer.value, flags: flags_of(answer.status) };
                        (here, ours, format!("{:x} {a:x}", control.word))
                    });
                };
            }
            unsigned!("to u32", ":e", 32, u32);
            unsigned!("to u64", ":r", 64, u64);
        }
        macro_rules! comparison {
            ($call:literal, $instruction:literal, $on_nan:expr) => {
                tally.rows(concat!($name, " ", $call), count, || {
                    let control = Control::drawn(draw);
                    let a = draw.$draws(None);
                    let b = if draw.below(4) == 0 { a } else { draw.$draws(Some(a)) };
                    let left = <$bits>::from_bits(a as _);
                    let right = <$bits>::from_bits(b as _);
                    let (mut below, mut unordered): (u8, u8) = (0, 0);
                    let flags = sse!(control.word,
                        concat!($instruction, $suffix, " {left}, {right}\n setb {below}\n setp {unordered}"),
                        left = in(xmm_reg) left, right = in(xmm_reg) right,
                        below = inout(reg_byte) below, unordered = inout(reg_byte) unordered,);
                    let here = Outcome { value: u128::from(below) | u128::from(unordered) << 1, flags };
                    let (x, y) = ($Type::from_bits(a), $Type::from_bits(b));
                    let denormal = has_denormal(x, y);
                    let (x, y) = (control.operand(x), control.operand(y));
                    let less = compare(Predicate::LessUnordered, $on_nan, x, y);
                    let unordered = compare(Predicate::Unordered, OnNan::Quiet, x, y);
                    let value = u128::from(less.value) | u128::from(unordered.value) << 1;
                    let ours = Outcome { value, flags: control.flags(less.status, denormal) };
                    (here, ours, format!("{:x} {a:x} {b:x}", control.word))
                });
            };
        }
        comparison!("quiet comparison", "ucomis", OnNan::Quiet);
        comparison!("signaling comparison", "comis", OnNan::Signaling);
    }};
}

/// Conversions between the formats of SSE.
fn conversions(tally: &mut Tally, draw: &mut Draw, count: u64) {
    macro_rules! conversion {
        ($name:literal, $instruction:literal, $operand:expr, $Given:ident $given:ty, $Made:ident $made:ty) => {
            tally.rows($name, count, || {
                let control = Control::drawn(draw);
                let a = $operand;
                let given = <$given>::from_bits(a as _);
                let mut made: $made = 0.0;
                let flags = sse!(control.word, concat!($instruction, " {made}, {given}"),
                    made = inout(xmm_reg) made, given = in(xmm_reg) given,);
                let here = Outcome { value: made.to_bits().into(), flags };
                let ours = control.converted($Given::from_bits(a), |answer: StatusAnd<$Made>| control.result(answer));
                (here, ours, format!("{:x} {a:x}", control.word))
            });
        };
    }
    let near_single = |draw: &mut Draw| (draw.value(8, 52, None) & !(1 << 60)) | 7 << 59;
    conversion!("double to single", "cvtsd2ss", draw.converted_double(near_single), Double f64, Single f32);
    conversion!("single to double", "cvtss2sd", draw.single(None), Single f32, Double f64);
    // Half precision is neither flushed nor are its denormal numbers taken as zeros; those of single are.
    tally.rows("single to half", count, || {
        let control = Control::drawn(draw);
        let a = draw.converted_single(|draw| draw.value(5, 23, None) + (112 << 23));
        let a = a & 0xffff_ffff;
        let given = f32::from_bits(a as u32);
        let mut narrow = 0f32;
        let flags = sse!(control.word, "vcvtps2ph {narrow}, {given}, 4",
            narrow = inout(xmm_reg) narrow, given = in(xmm_reg) given,);
        let here = Outcome { value: u128::from(narrow.to_bits() & 0xffff), flags };
        let ours = control.converted(Single::from_bits(a), |answer: StatusAnd<Half>| answer);
        (here, ours, format!("{:x} {a:x}", control.word))
    });
    tally.rows("half to single", count, || {
        let control = Control::drawn(draw);
        let a = draw.value(5, 10, None);
        let given = f32::from_bits(a as u32);
        let mut wide = 0f32;
        let flags = sse!(control.word, "vcvtph2ps {wide}, {given}",
            wide = inout(xmm_reg) wide, given = in(xmm_reg) given,);
        let here = Outcome { value: wide.to_bits().into(), flags };
        let x = Half::from_bits(a);
        let mut loses_info = false;
        let converted: StatusAnd<Single> = x.convert_r(control.round, &mut loses_info);
        let answer = settled_conversion(x86(), x, converted);
        let ours = Outcome { value: answer.value.to_bits(), flags: flags_of(answer.status) };
        (here, ours, format!("{:x} {a:x}", control.word))
    });
}

/// The bytes of a register of x87 in memory.
#[repr(C, align(16))]
#[derive(Clone, Copy)]
struct Register([u8; 16]);

impl Register {
    fn of(bits: u128) -> Register {
        Register(bits.to_le_bytes())
    }

    fn bits(self) -> u128 {
        u128::from_le_bytes(self.0) & ((1 << 80) - 1)
    }
}

/// Runs instructions of x87 on values in memory, with a control word, and returns the flags that they raised.
macro_rules! x87 {
    ($control:expr, $steps:expr, $($name:ident = $place:expr),*) => {{
        let control: u16 = $control;
        let mut status: u16 = 0;
        // The instructions read and write the named places and the stack of the unit, which they leave empty.
        unsafe {
            asm!(
                "fninit", "fldcw word ptr [{control}]", $steps, "fnstsw word ptr [{status}]", "fninit",
                control = in(reg) &control, status = in(reg) &mut status, $($name = in(reg) $place,)*
                out("st(0)") _, out("st(1)") _, out("st(2)") _, out("st(3)") _,
                out("st(4)") _, out("st(5)") _, out("st(6)") _, out("st(7)") _,
            );
        }
        u32::from(status) & 0x3f
    }};
}

/// Whether an operand is denormal for the unit: with an exponent of zero, pseudo-denormals too.
fn is_denormal_for_unit(bits: u128) -> bool {
    bits >> 64 & 0x7fff == 0 && bits << 64 != 0
}

/// Whether an operand raises the flag of a denormal one, beside another.
fn unit_denormal(bits: &[u128]) -> bool {
    let is_nan = bits.iter().any(|&x| Extended::from_bits(x).is_nan());
    !is_nan && bits.iter().any(|&x| is_denormal_for_unit(x))
}

/// The operations of x87, with 64 digits.
fn unit(tally: &mut Tally, draw: &mut Draw, count: u64) {
    fn drawn_mode(draw: &mut Draw) -> (Round, u16) {
        let mode = draw.below(4) as usize;
        (MODES[mode], 0x37f | (mode as u16) << 10)
    }
    macro_rules! two {
        ($call:literal, $instruction:literal, |$x:ident, $y:ident, $round:ident| $library:expr) => {
            tally.rows(concat!("x87 ", $call), count, || {
                let ($round, control) = drawn_mode(draw);
                let a = draw.extended(None);
                let b = draw.extended(Some(a));
                let (left, right) = (Register::of(a), Register::of(b));
                let mut result = Register::of(0);
                let flags = x87!(
                    control,
                    concat!(
                        "fld tbyte ptr [{left}]\n fld tbyte ptr [{right}]\n ",
                        $instruction,
                        "\n fstp tbyte ptr [{result}]"
                    ),
                    left = &left,
                    right = &right,
                    result = &mut result
                );
                let here = Outcome { value: result.bits(), flags };
                let ($x, $y) = (Extended::from_bits(a), Extended::from_bits(b));
                let answer = settled(x87(), $x, $y, $library);
                let flags = with_denormal(flags_of(answer.status), unit_denormal(&[a, b]));
                (here, Outcome { value: answer.value.to_bits(), flags }, format!("{control:x} {a:x} {b:x}"))
            });
        };
    }
    two!("add", "faddp", |x, y, round| x.add_r(y, round));
    two!("sub", "fsubp", |x, y, round| x.sub_r(y, round));
    two!("mul", "fmulp", |x, y, round| x.mul_r(y, round));
    two!("div", "fdivp", |x, y, round| x.div_r(y, round));
    macro_rules! one {
        ($call:literal, $instruction:literal, |$x:ident, $round:ident| $library:expr) => {
            tally.rows(concat!("x87 ", $call), count, || {
                let ($round, control) = drawn_mode(draw);
                let a = draw.extended(None);
                let given = Register::of(a);
                let mut result = Register::of(0);
                let flags = x87!(
                    control,
                    concat!("fld tbyte ptr [{given}]\n ", $instruction, "\n fstp tbyte ptr [{result}]"),
                    given = &given,
                    result = &mut result
                );
                let here = Outcome { value: result.bits(), flags };
                let $x = Extended::from_bits(a);
                let answer = settled_unary(x87(), $x, $library);
                let flags = with_denormal(flags_of(answer.status), unit_denormal(&[a]));
                (here, Outcome { value: answer.value.to_bits(), flags }, format!("{control:x} {a:x}"))
            });
        };
    }
    one!("sqrt", "fsqrt", |x, round| x.sqrt_r(round));
    one!("to integral", "frndint", |x, round| x.round_to_integral(round));
    macro_rules! stored {
        ($call:literal, $instruction:literal, $Type:ident, $mask:expr) => {
            tally.rows(concat!("x87 ", $call), count, || {
                let (round, control) = drawn_mode(draw);
                let a = draw.converted_extended(|draw| {
                    let around = if $mask >> 32 == 0 { 0x3f70 } else { 0x3bf0 };
                    let field = around + u128::from(draw.below(2 * (0x4000 - around as u64)));
                    let sign = draw.sign(15, 63);
                    sign | field << 63 | draw.digits(63) >> draw.below(2) * 40 << draw.below(2) * 40 & (1 << 63) - 1
                });
                let given = Register::of(a);
                let mut result = Register::of(0);
                let flags = x87!(
                    control,
                    concat!("fld tbyte ptr [{given}]\n ", $instruction, " [{result}]"),
                    given = &given,
                    result = &mut result
                );
                let here = Outcome { value: result.bits() & $mask, flags };
                let x = Extended::from_bits(a);
                let mut loses_info = false;
                let converted: StatusAnd<$Type> = x.convert_r(round, &mut loses_info);
                let answer = settled_conversion(x87(), x, converted);
                let ours = Outcome { value: answer.value.to_bits(), flags: flags_of(answer.status) };
                (here, ours, format!("{control:x} {a:x}"))
            });
        };
    }
    stored!("to single", "fstp dword ptr", Single, 0xffff_ffffu128);
    stored!("to double", "fstp qword ptr", Double, 0xffff_ffff_ffff_ffffu128);
    macro_rules! loaded {
        ($call:literal, $instruction:literal, $Type:ident, $draws:ident) => {
            tally.rows(concat!("x87 ", $call), count, || {
                let (round, control) = drawn_mode(draw);
                let a = draw.$draws(None);
                let given = Register::of(a);
                let mut result = Register::of(0);
                let flags = x87!(
                    control,
                    concat!($instruction, " [{given}]\n fstp tbyte ptr [{result}]"),
                    given = &given,
                    result = &mut result
                );
                let here = Outcome { value: result.bits(), flags };
                let x = $Type::from_bits(a);
                let mut loses_info = false;
                let converted: StatusAnd<Extended> = x.convert_r(round, &mut loses_info);
                let answer = settled_conversion(x87(), x, converted);
                let flags = with_denormal(flags_of(answer.status), has_denormal(x, x));
                (here, Outcome { value: answer.value.to_bits(), flags }, format!("{control:x} {a:x}"))
            });
        };
    }
    loaded!("from single", "fld dword ptr", Single, single);
    loaded!("from double", "fld qword ptr", Double, double);
    macro_rules! integer {
        ($call:literal, $instruction:literal, $width:literal, $whole:ident, $round:expr) => {
            tally.rows(concat!("x87 ", $call), count, || {
                let (mode, control) = drawn_mode(draw);
                let a = draw.converted_extended(|draw| {
                    let field = 0x3ffd + u128::from(draw.below(68));
                    draw.sign(15, 63) | field << 63 | draw.digits(63)
                });
                let given = Register::of(a);
                let mut whole: $whole = 0;
                let flags = x87!(
                    control,
                    concat!("fld tbyte ptr [{given}]\n ", $instruction, " [{whole}]"),
                    given = &given,
                    whole = &mut whole
                );
                let here = Outcome { value: whole as i128 as u128, flags };
                let round: fn(Round) -> Round = $round;
                let x = Extended::from_bits(a);
                let mut is_exact = false;
                let converted = x.to_i128_r($width, round(mode), &mut is_exact);
                let answer = settled_signed(Machine::X87, x, $width, converted);
                let ours = Outcome { value: answer.value as u128, flags: flags_of(answer.status) };
                (here, ours, format!("{control:x} {a:x}"))
            });
        };
    }
    integer!("to i16", "fistp word ptr", 16, i16, |round| round);
    integer!("to i32", "fistp dword ptr", 32, i32, |round| round);
    integer!("to i64", "fistp qword ptr", 64, i64, |round| round);
    integer!("to i64 toward zero", "fisttp qword ptr", 64, i64, |_| Round::TowardZero);
}

fn main() {
    let words: Vec<String> = std::env::args().skip(1).collect();
    let mut tally = Tally { differing: 0 };
    if words == ["arm"] {
        arm::compare_lines(std::io::stdin().lock(), &mut tally);
    } else {
        compare_processor(&words, &mut tally);
    }
    if tally.differing != 0 {
        println!("{} rows differ", tally.differing);
        std::process::exit(1);
    }
}

/// Compares the processor at hand: the words are the seed and the count.
fn compare_processor(words: &[String], tally: &mut Tally) {
    let mut numbers = words.iter().map(|word| word.parse().expect("a number"));
    let seed = numbers.next().unwrap_or(1);
    let count = numbers.next().unwrap_or(1_000_000);
    let mut draw = Draw(seed);
    sse_operations!(tally, &mut draw, count, Single, single, converted_single, "s", f32, "single");
    sse_operations!(tally, &mut draw, count, Double, double, converted_double, "d", f64, "double");
    conversions(tally, &mut draw, count);
    unit(tally, &mut draw, count);
}
