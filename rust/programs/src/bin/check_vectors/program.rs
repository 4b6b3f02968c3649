//! The arguments of the program, and how it ends.

use crate::check::{Check, Lines, Tally, Task};
use crate::erased::commands::{About, WrongWord, write_fault};
use crate::failure::Failure;
use crate::lines::{Fpgen, TestFloat};
use std::fs::File;
use std::io::{self, BufRead, BufReader, BufWriter, ErrorKind, Write};

const PROGRAM: &str = "check_vectors";

/// The help; `packaging/manual` makes the man page and the completions of it.
const HELP: &str = "\
usage: check_vectors [--summary] [--first N] [FILE]
       check_vectors [--summary] [--first N] [--skip-unknown]
                     --testfloat FUNCTION [OPTION..] [FILE]
       check_vectors [--summary] [--first N] [--skip-unknown]
                     --fpgen [OPTION..] [FILE]
       check_vectors --help | --version

Checks rows of test vectors: whether the library gives what the rows of FILE
say, or those of standard input if there is no FILE or it is `-`. A row is a
line of columns separated by tabs: a command of the program vectors and its
reply, or a call, its format, its mode, its operands, its value, its flags and
what else it returns.

    half int even 464<TAB>5f40 OK
    add_r<TAB>half<TAB>any<TAB>3c00 3c00<TAB>4000<TAB>OK<TAB>-

--summary       writes only counts, by call and format
--first N       ends the check after N rows that differ
--testfloat     the lines are those of testfloat_gen for this function
--fpgen         the lines are those of IBM's FPgen
--skip-unknown  skips lines whose call the library does not have
--help, -h      writes this text
--version       writes the name and the version of the program

FUNCTION is an operation on f16, f32, f64, extF80 or f128, which is one of _add
_sub _mul _mulAdd _div _rem _sqrt _roundToInt, as in f64_add, a comparison _eq
_le _lt _eq_signaling _le_quiet _lt_quiet, or a conversion of these to each
other, from or to ui32, ui64, i32 or i64, as in f64_to_i32. Those to integers,
and _roundToInt, may end in _r_ROUND or _rx_ROUND, where ROUND is near_even,
near_maxMag, minMag, min or max, and _roundToInt in _x: x compares the inexact
flag too.

With --testfloat FUNCTION may stand -rnear_even -rmax -rmin -rminMag
-rnear_maxMag -rodd -precision32 -precision64 -precision80 -tininessafter
-tininessbefore -notexact -exact -checkNaNs -checkInvInts -checkAll --any-nan,
and with --fpgen -tininessafter -tininessbefore, before or after it. Of a NaN
only that it is quiet is compared, with -checkNaNs all bits, with --any-nan
nothing, and integers of invalid conversions only with -checkInvInts; -checkAll
is both. After --, the name of FILE may begin with -.

Empty lines and comments, which begin with #, are skipped. The program writes
each row that differs and each malformed line with its number, and at the end
how many lines of each kind there were. If standard error is a terminal, a line
there every two seconds says how many lines were read. docs/PROGRAMS.md has the
calls, the formats, and what the words in each column mean.

The exit status is the first of these that holds: 4 if the input could not be
opened or read, or something could not be written; 3 if there was not enough
memory; 2 for other arguments than above, a malformed line, or an input without
a row; 1 if a row differs; 0 if all rows agree.

    check_vectors --first 10 rows
    testfloat_gen f64_add | check_vectors --testfloat f64_add
";

/// The options before the name of a file of rows.
static OPTIONS: &[&str] =
    &["--summary", "--first", "--skip-unknown", "--testfloat", "--fpgen", "--help", "-h", "--version"];

/// The same before one of TestFloat's lines.
static OPTIONS_OF_TESTFLOAT: &[&str] = &[
    "--summary",
    "--first",
    "--skip-unknown",
    "--testfloat",
    "--any-nan",
    "-checkNaNs",
    "-checkInvInts",
    "-checkAll",
    "-rnear_even",
    "-rmax",
    "-rmin",
    "-rminMag",
    "-rnear_maxMag",
    "-rodd",
    "-precision32",
    "-precision64",
    "-precision80",
    "-tininessafter",
    "-tininessbefore",
    "-notexact",
    "-exact",
];

/// The same before one of FPgen's lines.
static OPTIONS_OF_FPGEN: &[&str] =
    &["--summary", "--first", "--skip-unknown", "--fpgen", "-tininessafter", "-tininessbefore"];

/// Runs the program with the words of the command line. If `err` is a terminal, the progress of a long check is written
/// to it. Returns the exit status.
pub fn run(words: io::Result<Vec<String>>, is_terminal: bool, out: &mut impl Write, err: &mut impl Write) -> u8 {
    let words = match words {
        Ok(words) => words,
        Err(error) => return refuse(&error, err),
    };
    match Job::of(&words) {
        Ok(Job::Check(task, file)) => check_input(file, task.showing_progress(is_terminal), out, err),
        Ok(Job::About(about)) => answer(about, out, err),
        Err(wrong) => status_after(wrong.write(PROGRAM, err), 2),
    }
}

/// What the arguments ask for.
enum Job<'a> {
    /// To answer a question about the program.
    About(About),
    /// To check the lines of a file or of standard input.
    Check(Task, Option<&'a str>),
}

impl Job<'_> {
    /// What the arguments ask for, or the first word that is wrong.
    fn of(words: &[String]) -> Result<Job<'_>, WrongWord<'_>> {
        if let Some(about) = About::among(words) {
            return Ok(Job::About(about));
        }
        let (task, left) = task_of(words)?;
        Ok(Job::Check(task, file_of(left, options_before(task.lines))?))
    }
}

/// What the options before a file ask for, and the words after them. An option of lines may stand before the one that
/// says of which program they are.
fn task_of(words: &[String]) -> Result<(Task, &[String]), WrongWord<'_>> {
    let (mut task, mut left) = (Task::of(lines_of(words)?), words);
    while let Some((changed, others)) = next_option(task, left)? {
        (task, left) = (changed, others);
    }
    Ok((task, left))
}

/// The kind of lines that the options before a file ask for.
fn lines_of(words: &[String]) -> Result<Lines, WrongWord<'_>> {
    let skips_unknown = options(words).any(|(option, _)| option == "--skip-unknown");
    let mut lines = Lines::Rows;
    for (option, others) in options(words) {
        match option {
            "--testfloat" => lines = testfloat(skips_unknown, option, others)?,
            "--fpgen" => lines = Lines::Fpgen(Fpgen::new().skipping(skips_unknown)),
            _ => {}
        }
    }
    Ok(lines)
}

/// The options before a file, each with the words after it.
fn options(words: &[String]) -> impl Iterator<Item = (&str, &[String])> {
    let mut left = words;
    std::iter::from_fn(move || {
        let (option, others) = left.split_first()?;
        if option == "--" || option == "-" || !option.starts_with('-') {
            return None;
        }
        left = if takes_word(option) { others.get(1..).unwrap_or_default() } else { others };
        Some((option.as_str(), others))
    })
}

/// Whether the word after an option belongs to it.
fn takes_word(option: &str) -> bool {
    matches!(option, "--first" | "--testfloat")
}

/// The task with the next option and the words after it, if an option is next.
fn next_option(task: Task, words: &[String]) -> Result<Option<(Task, &[String])>, WrongWord<'_>> {
    let Some((option, others)) = words.split_first() else {
        return Ok(None);
    };
    let (task, others) = match option.as_str() {
        "--summary" => (Task { is_summary: true, ..task }, others),
        "--first" => limited(task, option, others)?,
        "--testfloat" => (task, others.get(1..).unwrap_or_default()),
        "--fpgen" | "--skip-unknown" => (task, others),
        word => match task.lines.with(word) {
            Some(lines) => (Task { lines, ..task }, others),
            None => return Ok(None),
        },
    };
    Ok(Some((task, others)))
}

/// The task that ends after as many rows that differ as the word after the option says.
fn limited<'a>(task: Task, option: &'a str, words: &'a [String]) -> Result<(Task, &'a [String]), WrongWord<'a>> {
    let (count, others) = words.split_first().ok_or(wrong("a word is missing after", option))?;
    let first = count.parse().map_err(|_| wrong("no count of rows", count))?;
    Ok((Task { first: Some(first), ..task }, others))
}

/// The lines of the function of TestFloat that the word after the option names.
fn testfloat<'a>(skips_unknown: bool, option: &'a str, others: &'a [String]) -> Result<Lines, WrongWord<'a>> {
    let name = others.first().ok_or(wrong("a word is missing after", option))?;
    match TestFloat::named(name) {
        Some(function) => Ok(Lines::TestFloat(function)),
        None if skips_unknown => Ok(Lines::Unknown),
        None => Err(wrong("no such function of TestFloat", name)),
    }
}

/// A word that is wrong, and which no list of words corrects.
fn wrong<'a>(fault: &'static str, word: &'a str) -> WrongWord<'a> {
    WrongWord { fault, word, known: &[] }
}

/// The options that may stand before the name of a file with these lines.
fn options_before(lines: Lines) -> &'static [&'static str] {
    match lines {
        Lines::Rows => OPTIONS,
        Lines::TestFloat(_) | Lines::Unknown => OPTIONS_OF_TESTFLOAT,
        Lines::Fpgen(_) => OPTIONS_OF_FPGEN,
    }
}

/// The file that the last words name, or `None` for standard input. A word that begins with `-` is a wrong option, with
/// the known ones.
fn file_of<'a>(words: &'a [String], known: &'static [&'static str]) -> Result<Option<&'a str>, WrongWord<'a>> {
    match words {
        [] => Ok(None),
        [word] if word == "-" => Ok(None),
        [mark, name] if mark == "--" => Ok(Some(name)),
        [word, ..] if word.starts_with('-') => Err(WrongWord { fault: "no such option", word, known }),
        [word] => Ok(Some(word)),
        [_, word, ..] => Err(wrong("a word too many", word)),
    }
}

/// Reports that the system could not give the arguments. Returns the exit status.
fn refuse(error: &io::Error, err: &mut impl Write) -> u8 {
    match error.kind() {
        ErrorKind::OutOfMemory => report("arguments", &Failure::Memory, err),
        _ => status_after(write_fault(PROGRAM, "the words are not valid text", err), 2),
    }
}

/// Answers a question about the program. Returns the exit status.
fn answer(about: About, out: &mut impl Write, err: &mut impl Write) -> u8 {
    match about.answer(PROGRAM, HELP, out) {
        Ok(()) => 0,
        Err(error) => report("help", &Failure::from(error), err),
    }
}

/// Checks the lines of a file, or of standard input. Returns the exit status.
fn check_input(file: Option<&str>, task: Task, out: &mut impl Write, err: &mut impl Write) -> u8 {
    let Some(name) = file else {
        return check_lines("standard input", &mut io::stdin().lock(), task, out, err);
    };
    match File::open(name) {
        Ok(file) => check_lines(name, &mut BufReader::new(file), task, out, err),
        Err(error) => report(name, &Failure::of_input("open", error), err),
    }
}

/// Checks the lines of an input; messages call it `name`. Returns the exit status.
fn check_lines(name: &str, input: &mut impl BufRead, task: Task, out: &mut impl Write, err: &mut impl Write) -> u8 {
    let mut out = BufWriter::new(out);
    let mut check = Check::new(task);
    let ended = check.take(input, &mut out, err);
    if let Err(Failure::Output(error)) = ended {
        return report(name, &Failure::Output(error), err);
    }
    // The counts include what was checked before a failure.
    let written = check.write_counts(&mut out).and_then(|()| out.flush());
    status_of_check(name, ended, written, check.tally(), err)
}

/// Reports how a check ended whose counts were written, unless there is nothing to report. Returns the exit status.
fn status_of_check(
    name: &str,
    ended: Result<(), Failure>,
    written: io::Result<()>,
    tally: Tally,
    err: &mut impl Write,
) -> u8 {
    if let Err(error) = written {
        return report(name, &Failure::from(error), err);
    }
    match ended {
        Err(failure) => report(name, &failure, err),
        Ok(()) if tally.is_empty() => status_after(writeln!(err, "check_vectors: {name}: no rows"), 2),
        Ok(()) => tally.status(),
    }
}

/// Reports the failure that ended the program. Returns the exit status.
fn report(name: &str, failure: &Failure, err: &mut impl Write) -> u8 {
    let reported = writeln!(err, "check_vectors: {name}: {failure}");
    status_after(reported, failure.status())
}

/// The exit status after a write: 4 if it failed.
fn status_after(written: io::Result<()>, status: u8) -> u8 {
    match written {
        Ok(()) => status,
        Err(_) => 4,
    }
}
