//! Calls of the Rust crate that the library for C does not have, for a counter of instructions: values written in
//! digits. It prints lines as `instructions.c` does, and `instructions` runs both.

mod line;

use line::Line;
use rustc_apfloat::decimal_digits::{digit_count, write_digits};
use rustc_apfloat::hex_digits::write_hex;
use rustc_apfloat::ieee::{Double, Half, IeeeFloat, Quad, Semantics, Single, X87DoubleExtended};
use rustc_apfloat::{Float, Round};
use std::arch::global_asm;
use std::fmt::Write;
use std::hint::black_box;

global_asm!(include_str!("memory.s"), options(att_syntax));

unsafe extern "C" {
    safe fn nothing();
}

const CALLS: usize = 128;
const MOST_DIGITS: usize = 12_000;

/// What the counter counts.
#[unsafe(no_mangle)]
#[inline(never)]
extern "C" fn measured(calls: &mut Calls) {
    (calls.0)();
    black_box(());
}

struct Calls<'a>(&'a mut dyn FnMut());

/// Counts the calls of a cell. The first count is that of a loop that calls nothing.
fn count(counted: &mut usize, name: &str, format: &str, operands: &str, calls: &mut dyn FnMut()) {
    measured(&mut Calls(calls));
    *counted += 1;
    println!("{name}\t{format}\t{operands}\t{CALLS}\t1\t0\t{counted}");
}

/// splitmix64
fn draw(state: &mut u64) -> u64 {
    *state = state.wrapping_add(0x9e37_79b9_7f4a_7c15);
    let z = (*state ^ *state >> 30).wrapping_mul(0xbf58_476d_1ce4_e5b9);
    let z = (z ^ z >> 27).wrapping_mul(0x94d0_49bb_1331_11eb);
    z ^ z >> 31
}

/// Numbers whose exponents are at most so far from 0.
fn operands<S: Semantics>(spread: u64) -> Vec<IeeeFloat<S>> {
    let (mut state, digits) = (S::BITS as u64, S::PRECISION - 1);
    let drawn = |_| {
        let exponent = (1 << (S::EXP_BITS - 1)) - 1 + draw(&mut state) % (2 * spread + 1) - spread;
        let fraction = (u128::from(draw(&mut state)) << 64 | u128::from(draw(&mut state))) >> (128 - digits);
        let sign = u128::from(draw(&mut state) % 2) << (S::BITS - 1);
        let explicit = S::BITS - 1 - S::EXP_BITS - digits;
        IeeeFloat::from_bits(
            sign | u128::from(exponent) << (digits + explicit) | (explicit as u128) << digits | fraction,
        )
    };
    (0..CALLS).map(drawn).collect()
}

fn count_format<S: Semantics>(counted: &mut usize, format: &str) {
    let mut digits = vec![0; MOST_DIGITS];
    let mut line = Line::<8192> { bytes: [0; 8192], length: 0 };
    let even = Round::NearestTiesToEven;
    for (kind, spread) in [("near 1", 4), ("any exponent", (1 << (S::EXP_BITS.min(10) - 1)) - 2)] {
        let xs = operands::<S>(spread);
        let mut of = |name: &str, call: &mut dyn FnMut(IeeeFloat<S>)| {
            count(counted, name, format, kind, &mut || xs.iter().for_each(|x| call(*black_box(x))));
        };
        of("write_digits, 17", &mut |x| {
            let _ = black_box(write_digits(x, even, &mut digits[..17]));
        });
        of("digit_count", &mut |x| {
            let _ = black_box(digit_count(x));
        });
        of("write_digits, all", &mut |x| {
            let all = digit_count(x).map_or(1, |count| count as usize);
            let _ = black_box(write_digits(x, even, &mut digits[..all]));
        });
        of("write_hex", &mut |x| {
            let _ = black_box(write_hex(x, &mut digits));
        });
        of("Display", &mut |x| {
            line.length = 0;
            write!(line, "{x}").unwrap();
        });
        of("Display, 6 digits", &mut |x| {
            line.length = 0;
            write!(line, "{x:.6}").unwrap();
        });
    }
}

fn main() {
    measured(&mut Calls(&mut || (0..CALLS).for_each(|_| nothing())));
    let mut counted = 0;
    count_format::<<Half as Typed>::S>(&mut counted, "half");
    count_format::<<Single as Typed>::S>(&mut counted, "single");
    count_format::<<Double as Typed>::S>(&mut counted, "double");
    count_format::<<X87DoubleExtended as Typed>::S>(&mut counted, "x87");
    count_format::<<Quad as Typed>::S>(&mut counted, "quad");
}

/// The format of a type.
trait Typed {
    type S: Semantics;
}

impl<S: Semantics> Typed for IeeeFloat<S> {
    type S = S;
}
