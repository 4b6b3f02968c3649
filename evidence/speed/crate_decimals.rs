//! Times how the Rust crate reads and writes decimals: `crate_decimals FORMAT read|write FILE`.
//!
//! FILE has a text on each line, or the bits of a value in hexadecimal digits. Prints the
//! nanoseconds of a call in the fastest round, and for `read` a checksum of the bits. With the
//! format `f32` or `f64` it times Rust's own `parse` and `{:e}`, which writes the fewest digits.

mod fastest;
mod line;

use fastest::fastest;
use line::Line;
use rustc_apfloat::Float;
use rustc_apfloat::ieee::{Double, Quad, Single, X87DoubleExtended};
use std::fmt::Write;
use std::hint::black_box;

/// Prints the time of the call in the fastest round, and returns the results.
fn timed<T, R: Clone>(operands: &[T], blank: R, call: impl Fn(&T) -> R) -> Vec<R> {
    let (results, nanoseconds) = fastest(operands, blank, call);
    print!("{nanoseconds}");
    results
}

/// Prints a checksum of the bits.
fn print_checksum(values: impl Iterator<Item = u128>) {
    let mut sum = 0;
    for bits in values {
        for word in [bits as u64, (bits >> 64) as u64] {
            sum = (sum * 31 + word as u128) % ((1 << 61) - 1);
        }
    }
    println!(" {sum:016x}");
}

/// Times reading.
fn reading<T: Copy>(lines: &[String], blank: T, read: impl Fn(&str) -> T, bits: impl Fn(T) -> u128) {
    let values = timed(lines, blank, |line| read(line));
    print_checksum(values.into_iter().map(bits));
}

/// Times writing.
fn writing<T>(lines: &[String], value: impl Fn(u128) -> T, write: impl Fn(&T, &mut Line<128>)) {
    let values: Vec<T> = lines.iter().map(|x| value(u128::from_str_radix(x, 16).unwrap())).collect();
    timed(&values, 0, |value| {
        let mut line = Line { bytes: [0; 128], length: 0 };
        write(value, &mut line);
        black_box(&line).length
    });
    println!();
}

/// Times a format of the crate.
fn of_crate<F: Float>(operation: &str, lines: &[String]) {
    match operation {
        "read" => reading(lines, F::ZERO, |text| text.parse().ok().unwrap(), |x: F| x.to_bits()),
        _ => writing(lines, F::from_bits, |x: &F, line| write!(line, "{x}").unwrap()),
    }
}

fn main() {
    let words: Vec<String> = std::env::args().skip(1).collect();
    let text = std::fs::read_to_string(&words[2]).unwrap();
    let lines: Vec<String> = text.lines().map(String::from).collect();
    let operation = words[1].as_str();
    match (words[0].as_str(), operation) {
        ("single", _) => of_crate::<Single>(operation, &lines),
        ("double", _) => of_crate::<Double>(operation, &lines),
        ("x87", _) => of_crate::<X87DoubleExtended>(operation, &lines),
        ("quad", _) => of_crate::<Quad>(operation, &lines),
        ("f32", "read") => reading(&lines, 0.0, |x| x.parse().unwrap(), |x: f32| x.to_bits().into()),
        ("f64", "read") => reading(&lines, 0.0, |x| x.parse().unwrap(), |x: f64| x.to_bits().into()),
        ("f32", _) => {
            let value = |bits| f32::from_bits(bits as u32);
            writing(&lines, value, |x, line| write!(line, "{x:e}").unwrap());
        }
        ("f64", _) => {
            let value = |bits| f64::from_bits(bits as u64);
            writing(&lines, value, |x, line| write!(line, "{x:e}").unwrap());
        }
        _ => std::process::exit(1),
    }
}
