//! Measures the calls of this library's crate, `ours`, and of the Rust crate, `theirs`, in turn in one run:
//! `in_rust FOLDER time|count [CALL]`.
//!
//! FOLDER has the operands of each cell, as `in_rust.py` writes them. `time` prints for each cell the nanoseconds of a
//! call of either in its fastest round, and whether all results are the same. `count` is for callgrind: it asks for a
//! dump of the instructions of each cell in place of the times. CALL leaves out all other calls.

use std::fmt;
use std::hint::black_box;
use std::time::{Duration, Instant};

mod library {
    use ours as apfloat;
    include!("in_rust_calls.rs");
}

mod other {
    use theirs as apfloat;
    include!("in_rust_calls.rs");
}

const FORMATS: [&str; 6] = ["half", "single", "double", "x87", "quad", "dd"];
/// Every call of the Rust crate, but for those that only name another one: operators, calls without a mode.
const CALLS: &[&str] = &[
    "add", "sub", "mul", "div", "fma", "rem", "mod", "integral", "next_up", "next_down", "to half", "to single",
    "to double", "to x87", "to quad", "to_i128", "to_u128", "from_i128", "from_u128", "from_str", "from_bits",
    "to_bits", "qnan", "snan", "largest", "smallest_normalized", "neg", "abs", "copy_sign", "cmp", "==",
    "cmp_abs_normal", "bitwise_eq", "min", "max", "minimum", "maximum", "category", "is_negative", "is_normal",
    "is_finite", "is_zero", "is_denormal", "is_infinite", "is_nan", "is_signaling", "is_non_zero",
    "is_finite_non_zero", "is_pos_zero", "is_neg_zero", "is_pos_infinity", "is_neg_infinity", "is_smallest",
    "is_smallest_normalized", "is_largest", "is_integer", "get_exact_inverse", "ilogb", "scalbn", "frexp", "Display",
    "Debug",
];
/// Calls whose operands are integers, the same in both sets.
const OF_INTEGERS: [&str; 4] = ["from_i128", "from_u128", "qnan", "snan"];
const SETS: [&str; 2] = ["normal", "denormal"];

/// The calls of a cell with their operands and results.
pub trait Measured {
    /// Makes each call once.
    fn round(&mut self) {
        self.calls(self.count());
    }

    /// Makes so many of the calls, from the first one on.
    fn calls(&mut self, count: usize);

    /// How many calls that is.
    fn count(&self) -> usize;

    /// What the results are.
    fn results(&self) -> Vec<Vec<u128>>;
}

pub struct Calls<T, R, C> {
    operands: Vec<T>,
    results: Vec<R>,
    call: C,
    written: fn(&R) -> Vec<u128>,
}

impl<T: 'static, R: Clone + 'static, C: Fn(&T) -> R + 'static> Calls<T, R, C> {
    pub fn measured(operands: Vec<T>, blank: R, call: C, written: fn(&R) -> Vec<u128>) -> Box<dyn Measured> {
        let results = vec![blank; operands.len()];
        Box::new(Calls { operands, results, call, written })
    }
}

impl<T, R, C: Fn(&T) -> R> Measured for Calls<T, R, C> {
    fn calls(&mut self, count: usize) {
        for (operand, result) in black_box(&self.operands)[..count].iter().zip(self.results.iter_mut()) {
            *result = (self.call)(operand);
        }
        black_box(&mut self.results);
    }

    fn count(&self) -> usize {
        self.operands.len()
    }

    fn results(&self) -> Vec<Vec<u128>> {
        self.results.iter().map(self.written).collect()
    }
}

/// A text of bounded length, so that writing allocates nothing.
#[derive(Clone, Copy)]
pub struct Line {
    bytes: [u8; 192],
    length: usize,
}

impl Line {
    pub fn new() -> Self {
        Line { bytes: [0; 192], length: 0 }
    }

    pub fn words(&self) -> Vec<u128> {
        self.bytes[..self.length].iter().map(|byte| u128::from(*byte)).collect()
    }
}

impl fmt::Write for Line {
    fn write_str(&mut self, text: &str) -> fmt::Result {
        let end = self.length + text.len();
        let room = self.bytes.get_mut(self.length..end).ok_or(fmt::Error)?;
        room.copy_from_slice(text.as_bytes());
        self.length = end;
        Ok(())
    }
}

/// The number that hexadecimal digits spell.
pub fn number_of(word: &str) -> u128 {
    u128::from_str_radix(word, 16).unwrap()
}

/// Fewer lines, for calls that take up to milliseconds in the Rust crate.
pub fn first_lines(lines: &[String]) -> &[String] {
    &lines[..lines.len().min(64)]
}

/// The file of the operands of a cell, which is named as `compare.py` does.
fn file_of(format: &str, call: &str, set: &str) -> String {
    match call {
        _ if OF_INTEGERS.contains(&call) => format!("{format} integers"),
        "from_str" => format!("{format} texts {set}"),
        "to_i128" | "to_u128" | "integral" => format!("{format} integer {set}"),
        _ => format!("{format} {set}"),
    }
}

/// The lines at which the Rust crate does not panic, as it does at some pairs and at magnitudes without an order.
fn without_panics(format: &str, call: &str, lines: Vec<String>) -> Vec<String> {
    if format != "dd" && call != "cmp_abs_normal" {
        return lines;
    }
    let hook = std::panic::take_hook();
    std::panic::set_hook(Box::new(|_| {}));
    let made = |line: &String| {
        let line = std::slice::from_ref(line);
        std::panic::catch_unwind(|| other::cell(format, call, line).map(|mut made| made.round())).is_ok()
    };
    let lines = lines.into_iter().filter(made).collect();
    std::panic::set_hook(hook);
    lines
}

/// The fastest rounds of both in turn, until a fifth of a second is spent.
fn timed(sides: &mut [Box<dyn Measured>; 2]) -> [f64; 2] {
    let mut least = [Duration::MAX; 2];
    let start = Instant::now();
    for _ in 0..300 {
        for (side, least) in sides.iter_mut().zip(&mut least) {
            let start = Instant::now();
            side.round();
            *least = start.elapsed().min(*least);
        }
        if start.elapsed() > Duration::from_millis(200) {
            break;
        }
    }
    let count = sides[0].count() as f64;
    least.map(|time| time.as_nanos() as f64 / count)
}

/// Asks valgrind, if the program runs under it.
fn ask_callgrind(request: u64, argument: *const u8) {
    let arguments = [0x4354_0000 + request, argument as u64, 0, 0, 0, 0];
    // SAFETY: valgrind's sequence, which changes no register but the one of the answer.
    unsafe {
        std::arch::asm!(
            "rol rdi, 3", "rol rdi, 13", "rol rdi, 61", "rol rdi, 51", "xchg rbx, rbx",
            inout("rdx") 0u64 => _, in("rax") arguments.as_ptr(),
        );
    }
}

const TOGGLE_COLLECT: u64 = 2;
const DUMP_STATS_AT: u64 = 3;

/// One call and all of them, so that what begins and ends the loop can be taken off.
fn count(side: &mut Box<dyn Measured>, name: &str) {
    side.round();
    for made in [1, side.count()] {
        ask_callgrind(TOGGLE_COLLECT, std::ptr::null());
        side.calls(made);
        ask_callgrind(TOGGLE_COLLECT, std::ptr::null());
        let name = format!("{name}\t{made}\0");
        ask_callgrind(DUMP_STATS_AT, name.as_ptr());
    }
}

fn main() {
    let words: Vec<String> = std::env::args().skip(1).collect();
    let counts = words[1] == "count";
    let wanted = words.get(2).map(String::as_str);
    for set in SETS {
        for call in CALLS.iter() {
            for format in FORMATS {
                let is_again = OF_INTEGERS.contains(call) && set != SETS[0];
                if is_again || wanted.is_some_and(|wanted| wanted != *call) {
                    continue;
                }
                let text = std::fs::read_to_string(format!("{}/{}", words[0], file_of(format, call, set))).unwrap();
                let lines = without_panics(format, call, text.lines().map(String::from).collect());
                let lines = if counts { first_lines(&lines) } else { &lines };
                let sides = [library::cell(format, call, lines), other::cell(format, call, lines)];
                let [Some(library), Some(other)] = sides else { continue };
                let mut sides = [library, other];
                let name = format!("{set}\t{call}\t{format}");
                let mut times = [0.0; 2];
                if counts {
                    count(&mut sides[0], &format!("{name}\tlibrary"));
                    count(&mut sides[1], &format!("{name}\tcrate"));
                } else {
                    times = timed(&mut sides);
                }
                let [ours, theirs] = times;
                let same = if sides[0].results() == sides[1].results() { "same" } else { "different" };
                println!("{name}\t{ours:.1}\t{theirs:.1}\t{same}");
            }
        }
    }
}
