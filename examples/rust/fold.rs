//! A constant folder: reads lines FORMAT OP MODE OPERAND.., and prints the bits and the flags of each result.
//!
//! OP is add, sub, mul, div, rem or mod of two values, fma of three, sqrt of one, or parse of a text. A value is its
//! bits, 1 to 32 hexadecimal digits, with or without 0x before them. Words are separated by spaces and tabs. Any other
//! line is refused with -1, as is one of more than 4000 bytes or with a zero byte; a line that the library refuses is
//! refused with the library's code. Build it at the top of the repository, after `rt lib` in crates/apfloat_c:
//!
//! ```text
//! rustc --edition 2021 -O examples/rust/fold.rs -L crates/apfloat_c/out -l static=apfloat_c -o fold_rs
//! ```
//!
//! and run it as `./fold_rs < examples/c/lines`.
use std::io::BufRead;

/// 128 bits as two 64-bit words.
#[repr(C)]
#[derive(Clone, Copy, Default)]
struct Halves {
    low: u64,
    high: u64,
}

/// The result of a call.
#[repr(C)]
#[derive(Clone, Copy, Default)]
struct Answer {
    bits: Halves,
    status: u32,
    number: i32,
}

// Defined for all values of their arguments; only `apfloat_parse` takes a pointer that can be invalid.
unsafe extern "C" {
    safe fn apfloat_add(format: u32, mode: u32, x: Halves, y: Halves, answer: &mut Answer) -> u32;
    safe fn apfloat_sub(format: u32, mode: u32, x: Halves, y: Halves, answer: &mut Answer) -> u32;
    safe fn apfloat_mul(format: u32, mode: u32, x: Halves, y: Halves, answer: &mut Answer) -> u32;
    safe fn apfloat_div(format: u32, mode: u32, x: Halves, y: Halves, answer: &mut Answer) -> u32;
    safe fn apfloat_rem(format: u32, x: Halves, y: Halves, answer: &mut Answer) -> u32;
    safe fn apfloat_mod(format: u32, x: Halves, y: Halves, answer: &mut Answer) -> u32;
    safe fn apfloat_fma(
        format: u32,
        mode: u32,
        x: Halves,
        y: Halves,
        z: Halves,
        answer: &mut Answer,
    ) -> u32;
    safe fn apfloat_sqrt(format: u32, mode: u32, x: Halves, answer: &mut Answer) -> u32;
    fn apfloat_parse(
        format: u32,
        mode: u32,
        text: *const u8,
        length: usize,
        answer: &mut Answer,
    ) -> u32;
}

const FORMATS: [&str; 10] =
    ["half", "single", "double", "quad", "bfloat", "e5m2", "e4m3fn", "e4m3fnuz", "x87", "dd"];
const MODES: [&str; 5] = ["even", "up", "down", "zero", "away"];
const MOST_BYTES: usize = 4000;
const FLAGS: [&str; 5] = ["INVALID_OP", "DIV_BY_ZERO", "OVERFLOW", "UNDERFLOW", "INEXACT"];

/// The index of a name, or one that the library refuses if the name is unknown.
fn place(names: &[&str], name: &str) -> u32 {
    names.iter().position(|known| *known == name).map_or(99, |at| at as u32)
}

/// 1 to 32 hexadecimal digits of either case, with or without 0x before them, as bits.
fn bits(word: &str) -> Option<Halves> {
    let digits = word.strip_prefix("0x").unwrap_or(word);
    if digits.len() > 32 || digits.starts_with('+') {
        return None;
    }
    let bits = u128::from_str_radix(digits, 16).ok()?;
    Some(Halves { low: bits as u64, high: (bits >> 64) as u64 })
}

fn parse(format: u32, mode: u32, text: &str, answer: &mut Answer) -> u32 {
    // SAFETY: the pointer and the length are those of one slice.
    unsafe { apfloat_parse(format, mode, text.as_ptr(), text.len(), answer) }
}

/// The result of a line, or the library's error code; -1 if the operation or an operand is malformed.
fn fold(line: &[u8]) -> Result<Answer, i32> {
    if line.len() > MOST_BYTES || line.contains(&0) {
        return Err(-1);
    }
    let line = String::from_utf8_lossy(line);
    let words: Vec<&str> =
        line.split([' ', '\t', '\r']).filter(|word| !word.is_empty()).collect();
    let &[format, op, mode, first, ref rest @ ..] = words.as_slice() else { return Err(-1) };
    let (format, mode) = (1 + place(&FORMATS, format), place(&MODES, mode));
    let mut answer = Answer::default();
    let code = if op == "parse" && rest.is_empty() {
        parse(format, mode, first, &mut answer)
    } else {
        let x = bits(first).ok_or(-1)?;
        let rest: Option<Vec<Halves>> = rest.iter().map(|word| bits(word)).collect();
        match (op, rest.ok_or(-1)?.as_slice()) {
            ("add", &[y]) => apfloat_add(format, mode, x, y, &mut answer),
            ("sub", &[y]) => apfloat_sub(format, mode, x, y, &mut answer),
            ("mul", &[y]) => apfloat_mul(format, mode, x, y, &mut answer),
            ("div", &[y]) => apfloat_div(format, mode, x, y, &mut answer),
            ("rem", &[y]) => apfloat_rem(format, x, y, &mut answer),
            ("mod", &[y]) => apfloat_mod(format, x, y, &mut answer),
            ("sqrt", &[]) => apfloat_sqrt(format, mode, x, &mut answer),
            ("fma", &[y, z]) => apfloat_fma(format, mode, x, y, z, &mut answer),
            _ => return Err(-1),
        }
    };
    if code == 0 { Ok(answer) } else { Err(code as i32) }
}

fn flags(status: u32) -> String {
    let raised: Vec<&str> =
        (0..5).filter(|at| status >> at & 1 == 1).map(|at| FLAGS[at]).collect();
    if raised.is_empty() { "OK".to_string() } else { raised.join("|") }
}

fn main() {
    for line in std::io::stdin().lock().split(b'\n') {
        match fold(&line.expect("a line")) {
            Ok(answer) => {
                let bits = (answer.bits.high as u128) << 64 | answer.bits.low as u128;
                println!("{bits:#x} {}", flags(answer.status));
            }
            Err(code) => println!("refused: {code}"),
        }
    }
}
