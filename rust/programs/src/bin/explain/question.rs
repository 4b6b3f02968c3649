//! The question that the words of a command line ask.

use crate::erased::apfloat_machines::Machine;
use crate::erased::formats_at_run_time::{Arithmetic, BuiltInFormat, BuiltInKind, IeeeFormat, mode_named};
use crate::erased::rustc_apfloat::Round;
use crate::grid::Element;
use crate::machine_words::MACHINES_BY_WORD;

/// The help; `packaging/manual` makes the man page and the completions of it.
pub const HELP: &str = "\
usage: explain [--machine NAME] [--svg FILE] FORMAT OP MODE A [B [C]]
       explain [--machine NAME] [--svg FILE] FORMAT A
       explain --help | --version

Shows how an operation in the format FORMAT gets its result, or what the value
A is.

FORMAT   half single double quad bfloat e5m2 e4m3fn e4m3fnuz x87 e4m3
         e5m2fnuz e4m3b11fnuz tf32
OP       add sub mul div rem mod   of A and B
         fma                       A times B plus C
         sqrt                      of A
         e2m1fn e2m3fn e3m2fn      A in that format, among all its numbers
MODE     even    to the nearest value, ties to even
         up      toward positive
         down    toward negative
         zero    toward zero
         away    to the nearest value, ties away from zero
A, B, C  a value as its bits, in hexadecimal digits, with or without 0x; or as
         a number: 0.1, -1e-7, 0x1.8p-1, inf, nan

A word with a dot is a number, and so is a number followed by d: 10.0 and 10d
are ten, and 1e5d is 100000. Any other word of hexadecimal digits is bits if
the format has that many: 10, 1e5, 3c0d, and 0x10d, where 10d would be ten. If
a word could have been either, the output says how it was read.

--machine NAME  shows the result as a machine gives it, with its NaN and its
                flags: x86 x87 arm arm_default_nan arm_alternate risc_v power
                s390x arm_alternate_default_nan webassembly ptx mips_2008
                loongarch sparc m68k; in half single double quad bfloat e5m2
                x87. A value is the same on each machine
--svg FILE      draws it into FILE, in SVG, and writes nothing else

--help, -h  writes this text
--version   writes the name and the version of the program

The exit status is 0 for an explanation, 2 for other arguments, 3 if there is
not enough memory for them, and 1 if a write fails.

    explain half add even 3c01 1000
    explain double add even 0.1 0.2
    explain half 3c00
    explain --machine arm single add even 7fc00001 ff800002
    explain --svg sum.svg double add even 0.1 0.2
";

/// The words of the operations.
pub static OPERATIONS: &[&str] =
    &["add", "sub", "mul", "div", "rem", "mod", "fma", "sqrt", "e2m1fn", "e2m3fn", "e3m2fn"];

/// The options.
pub static OPTIONS: &[&str] = &["--help", "-h", "--machine", "--svg", "--version"];

/// The operations on two values by their words.
const OF_TWO: [(&str, Arithmetic); 6] = [
    ("add", Arithmetic::Sum),
    ("sub", Arithmetic::Difference),
    ("mul", Arithmetic::Product),
    ("div", Arithmetic::Quotient),
    ("rem", Arithmetic::NearestRemainder),
    ("mod", Arithmetic::TruncatedRemainder),
];

/// The words of the machines.
pub static MACHINES: &[&str] = &[
    "x86",
    "x87",
    "arm",
    "arm_default_nan",
    "arm_alternate",
    "risc_v",
    "power",
    "s390x",
    "arm_alternate_default_nan",
    "webassembly",
    "ptx",
    "mips_2008",
    "loongarch",
    "sparc",
    "m68k",
];

/// The machine of this name.
fn machine_named(word: &str) -> Option<Machine> {
    MACHINES_BY_WORD.iter().find(|(known, _)| *known == word).map(|(_, machine)| *machine)
}

/// The computation that is explained.
#[derive(Clone, Copy)]
pub enum Operation {
    /// Nothing: a value is shown.
    Value,
    /// An operation on two values.
    OfTwo(Arithmetic),
    /// The product of two values plus a third.
    FusedSum,
    /// The square root of a value.
    SquareRoot,
    /// A value in a storage format.
    Into(Element),
}

impl Operation {
    /// The operation of this name.
    pub fn named(word: &str) -> Option<Operation> {
        if let Some((_, arithmetic)) = OF_TWO.iter().find(|(known, _)| *known == word) {
            return Some(Operation::OfTwo(*arithmetic));
        }
        match word {
            "fma" => Some(Operation::FusedSum),
            "sqrt" => Some(Operation::SquareRoot),
            _ => Element::named(word).map(Operation::Into),
        }
    }

    /// How many operands it has.
    pub fn operand_count(self) -> usize {
        match self {
            Operation::Value | Operation::SquareRoot | Operation::Into(_) => 1,
            Operation::OfTwo(_) => 2,
            Operation::FusedSum => 3,
        }
    }
}

/// A question: what is to be explained.
#[derive(Clone, Copy)]
pub struct Question<'a> {
    /// The machine and its word, if the result is to be that of a machine.
    pub machine: Option<(Machine, &'a str)>,
    /// The file that it is drawn into.
    pub svg: Option<&'a str>,
    /// The word of the format.
    pub format_word: &'a str,
    /// The format.
    pub format: BuiltInFormat,
    /// The operation.
    pub operation: Operation,
    /// The rounding mode.
    pub round: Round,
    /// The words of the operands.
    pub operands: &'a [String],
}

/// Why there is nothing to explain.
#[derive(Clone, Copy)]
pub enum Fault<'a> {
    /// There are too few words.
    TooFew,
    /// There are more words than operands.
    TooMany,
    /// No option has this name.
    Option(&'a str),
    /// No format has this name.
    Format(&'a str),
    /// No operation has this name.
    Operation(&'a str),
    /// No mode has this name.
    Mode(&'a str),
    /// This is not a value of the format.
    Value(&'a str),
    /// No machine has this name.
    Machine(&'a str),
    /// The machine of this name has no fused sums, or machines do not have the format.
    Lacks(&'a str),
}

impl<'a> Question<'a> {
    /// The question that these words ask, or the first fault.
    pub fn named(words: &'a [String]) -> Result<Question<'a>, Fault<'a>> {
        let (mut machine, mut svg, mut rest) = (None, None, words);
        loop {
            let (option, after) = rest.split_first().ok_or(Fault::TooFew)?;
            if !option.starts_with('-') {
                return Question::asked(machine, svg, rest);
            }
            if !matches!(option.as_str(), "--machine" | "--svg") {
                return Err(Fault::Option(option));
            }
            let (name, after) = after.split_first().ok_or(Fault::TooFew)?;
            if option == "--svg" {
                svg = Some(name.as_str());
            } else {
                machine = Some((machine_named(name).ok_or(Fault::Machine(name))?, name.as_str()));
            }
            rest = after;
        }
    }

    /// The question that the words after the options ask, or the first fault.
    fn asked(
        machine: Option<(Machine, &'a str)>,
        svg: Option<&'a str>,
        words: &'a [String],
    ) -> Result<Question<'a>, Fault<'a>> {
        if words.len() < 2 || words.len() == 3 {
            return Err(Fault::TooFew);
        }
        let format_word = &words[0];
        let Some(BuiltInKind::OfFormat(format)) = BuiltInKind::named(format_word) else {
            return Err(Fault::Format(format_word));
        };
        if words.len() == 2 {
            return Ok(Question {
                machine,
                svg,
                format_word,
                format,
                operation: Operation::Value,
                round: Round::NearestTiesToEven,
                operands: &words[1..],
            });
        }
        let Some(operation) = Operation::named(&words[1]) else {
            return Err(Fault::Operation(&words[1]));
        };
        let Some(round) = mode_named(&words[2]) else {
            return Err(Fault::Mode(&words[2]));
        };
        if let Some((known, name)) = machine
            && is_lacking(known, format, operation)
        {
            return Err(Fault::Lacks(name));
        }
        let operands = &words[3..];
        if operands.len() < operation.operand_count() {
            return Err(Fault::TooFew);
        }
        if operands.len() > operation.operand_count() {
            return Err(Fault::TooMany);
        }
        Ok(Question { machine, svg, format_word, format, operation, round, operands })
    }
}

/// Whether no result of a machine is known: in a format that machines do not have, of a conversion, and of a fused sum
/// if it has none.
fn is_lacking(machine: Machine, format: BuiltInFormat, operation: Operation) -> bool {
    let is_fused = matches!(operation, Operation::FusedSum);
    IeeeFormat::of(BuiltInKind::OfFormat(format)).is_none()
        || matches!(operation, Operation::Into(_))
        || (is_fused && !machine.has_fused)
}
