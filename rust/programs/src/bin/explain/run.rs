//! Runs the program.

use crate::compute::Computation;
use crate::erased::commands::{About, FORMATS, MODES, WrongWord, suggested, write_fault};
use crate::explanation::Explanation;
use crate::picture::write_explanation;
use crate::question::{Fault, HELP, MACHINES, OPERATIONS, OPTIONS, Question};
use crate::svg::write_svg;
use std::fs::File;
use std::io::{self, BufWriter, ErrorKind, Write};

const PROGRAM: &str = "explain";

/// The formats, for messages.
const FORMAT_WORDS: &str = "half single double quad bfloat e5m2 e4m3fn e4m3fnuz x87 e4m3 e5m2fnuz e4m3b11fnuz tf32";

/// The operations, for messages.
const OPERATION_WORDS: &str = "add sub mul div rem mod fma sqrt e2m1fn e2m3fn e3m2fn";

/// The modes, for messages.
const MODE_WORDS: &str = "even up down zero away";

/// The machines, for messages.
const MACHINE_WORDS: &str = "x86 x87 arm arm_default_nan arm_alternate risc_v power s390x \
    arm_alternate_default_nan webassembly ptx mips_2008 loongarch sparc m68k";

/// The formats that machines have, for messages.
const MACHINE_FORMATS: &str = "half single double quad bfloat e5m2 x87";

const FAILED: u8 = 1;

const OTHER_WORDS: u8 = 2;

const NO_MEMORY: u8 = 3;

/// Runs the program with the arguments from the system, and returns its exit status.
pub fn run(given: io::Result<Vec<String>>, in_colour: bool, out: &mut impl Write, err: &mut impl Write) -> u8 {
    match given {
        Ok(words) => answer(&words, in_colour, out, err).unwrap_or(FAILED),
        Err(error) => refuse_words(error, err).unwrap_or(FAILED),
    }
}

/// The exit status, or the error of a write.
fn answer(words: &[String], in_colour: bool, out: &mut impl Write, err: &mut impl Write) -> io::Result<u8> {
    if let Some(about) = About::among(words) {
        about.answer(PROGRAM, HELP, out)?;
        return Ok(0);
    }
    let question = match Question::named(words) {
        Ok(question) => question,
        Err(fault) => return refuse(fault, err),
    };
    let computation = Computation { question };
    match question.format.run(computation) {
        Ok(explanation) => match question.svg {
            Some(name) => draw(question, &explanation, name, err),
            None => write_explanation(question, &explanation, in_colour, out).map(|()| 0),
        },
        Err(word) => refuse(Fault::Value(word), err),
    }
}

/// Draws an explanation into a file.
fn draw(question: Question, explanation: &Explanation, name: &str, err: &mut impl Write) -> io::Result<u8> {
    let drawn = File::create(name).map(BufWriter::new).and_then(|mut file| {
        write_svg(question, explanation, &mut file)?;
        file.flush()
    });
    match drawn {
        Ok(()) => Ok(0),
        Err(error) => {
            writeln!(err, "explain: {name}: {error}")?;
            Ok(FAILED)
        }
    }
}

/// Reports why there is nothing to explain.
fn refuse(fault: Fault, err: &mut impl Write) -> io::Result<u8> {
    write_refusal(fault, err)?;
    Ok(OTHER_WORDS)
}

/// Writes why there is nothing to explain.
fn write_refusal(fault: Fault, err: &mut impl Write) -> io::Result<()> {
    match fault {
        Fault::TooFew => write_fault(PROGRAM, "too few words", err),
        Fault::TooMany => write_fault(PROGRAM, "too many operands", err),
        Fault::Option(word) => {
            let wrong = WrongWord { fault: "no such option", word, known: OPTIONS };
            wrong.write(PROGRAM, err)
        }
        Fault::Format(word) => write_unknown("format", word, FORMAT_WORDS, FORMATS, err),
        Fault::Operation(word) => write_unknown("operation", word, OPERATION_WORDS, OPERATIONS, err),
        Fault::Mode(word) => write_unknown("mode", word, MODE_WORDS, MODES, err),
        Fault::Machine(word) => write_unknown("machine", word, MACHINE_WORDS, MACHINES, err),
        Fault::Lacks(word) => {
            let lacking = "x87 and m68k have no fma";
            writeln!(err, "explain: no such operation on '{word}' ({lacking}; the formats are {MACHINE_FORMATS})")
        }
        Fault::Value(word) => {
            writeln!(err, "explain: no value '{word}' of the format (hexadecimal bits, or a number such as 0.1)")
        }
    }
}

/// Writes that nothing of this kind has the word, and the words that there are.
fn write_unknown(kind: &str, word: &str, words: &str, known: &[&'static str], err: &mut impl Write) -> io::Result<()> {
    write!(err, "explain: no {kind} '{word}' ({words})")?;
    suggest(word, known, err)
}

/// Ends a line about a wrong word, with the word that was meant if it is one edit away.
fn suggest(word: &str, known: &[&'static str], err: &mut impl Write) -> io::Result<()> {
    match suggested(word, known) {
        Some(meant) => writeln!(err, "; did you mean '{meant}'?"),
        None => writeln!(err),
    }
}

/// Reports why there are no arguments.
fn refuse_words(error: io::Error, err: &mut impl Write) -> io::Result<u8> {
    match error.kind() {
        ErrorKind::OutOfMemory => {
            writeln!(err, "explain: no memory for the words")?;
            Ok(NO_MEMORY)
        }
        _ => {
            write_fault(PROGRAM, "the words are not valid text", err)?;
            Ok(OTHER_WORDS)
        }
    }
}
