//! The rows of `tests/rows`: known answers, from elsewhere, of calls and commands. `docs/PROGRAMS.md` of the repository
//! says what a row means.
//!
//! `check_vectors` checks them by the library's text, and this by the crate. It is the same program: the sources that
//! read and judge rows are the program's, and only the paths of `erased` and `library` lead to the crate here.
#![allow(dead_code, unused_imports)]

#[path = "by_crate/calls.rs"]
mod calls;
#[path = "../rust/programs/src/bin/check_vectors/check.rs"]
mod check;
#[path = "by_crate/erased.rs"]
mod erased;
#[path = "../rust/programs/src/bin/check_vectors/failure.rs"]
mod failure;
#[path = "by_crate/library.rs"]
mod library;
#[path = "../rust/programs/src/bin/check_vectors/lines/mod.rs"]
mod lines;
#[path = "../rust/programs/src/progress.rs"]
mod progress;
#[path = "../rust/programs/src/bin/check_vectors/summary.rs"]
mod summary;

use check::{Check, Lines, Task};
use std::collections::BTreeSet;
use std::fs;
use std::io::sink;
use std::path::{Path, PathBuf};

/// What the calls of the library refuse in a text that is a decimal; those of the crate read it.
const REFUSED_DECIMAL: &str = "Not a special or hexadecimal literal";

/// A row as a call: that of its command, if it has one. None for a row of no call, and for one that the crate means to
/// answer otherwise.
fn called(row: &str) -> Option<String> {
    if row.contains(REFUSED_DECIMAL) {
        return None;
    }
    let Some((command, reply)) = row.split_once('\t').filter(|(_, reply)| !reply.contains('\t')) else {
        return Some(row.to_owned());
    };
    let mut words = command.splitn(4, ' ').map(|word| if word == "\"\"" { "" } else { word });
    let (format, operation, mode, operands) = (words.next()?, words.next()?, words.next()?, words.next()?);
    let call = match operation {
        "add" => "add_r",
        "sub" => "sub_r",
        "mul" => "mul_r",
        "div" => "div_r",
        "rem" => "ieee_rem",
        "mod" => "c_fmod",
        "fma" => "mul_add_r",
        "int" if operands.starts_with('-') => "from_i128_r",
        "int" => "from_u128_r",
        "parse" => "from_str_r",
        _ => return None,
    };
    let (value, flags) = match reply.strip_prefix("refused: ") {
        // Words that the commands' program refuses are of no call.
        Some(why) if operation == "parse" && why.len() > 12 => (why, "ParseError"),
        Some(_) => return None,
        None => reply.split_once(' ')?,
    };
    let mode = if matches!(operation, "rem" | "mod") { "-" } else { mode };
    Some([call, format, mode, operands, value, flags, "-"].join("\t"))
}

/// Checks the rows of a file, and gives how many agree, and which calls of the others the crate does not have.
fn agreeing(file: &Path) -> (u64, BTreeSet<String>) {
    let text = fs::read_to_string(file).unwrap();
    let rows: String = text.lines().filter_map(called).map(|row| row + "\n").collect();
    let (mut check, mut written) = (Check::new(Task::of(Lines::Rows)), Vec::new());
    assert!(check.take(&mut rows.as_bytes(), &mut written, &mut sink()).is_ok());
    let (tally, written) = (check.tally(), String::from_utf8(written).unwrap());
    assert_eq!(tally.differing, 0, "{}: {written}", file.display());
    let name = |line: &str| Some(line.split_once("no such call here: `")?.1.split_once('`')?.0.to_owned());
    let without = written.lines().map(|line| name(line).unwrap_or_else(|| panic!("{}: {line}", file.display())));
    (tally.agreeing, without.collect())
}

fn folder() -> PathBuf {
    Path::new(env!("CARGO_MANIFEST_DIR")).join("tests/rows")
}

#[test]
fn stored_rows() {
    let (agreeing, without) = agreeing(&folder().join("stored"));
    assert!(without.iter().eq(["MULTIPLIES", "debug"]), "{without:?}");
    assert_eq!(agreeing, 51_023);
}

#[test]
fn rows_of_files() {
    // Blocks, formats of IEEE P3109, and storage formats with other modes: `small_values.rs` checks them.
    const OF_THE_LIBRARY: [&str; 3] = ["blocks", "conversion_modes", "projections"];
    let files = fs::read_dir(folder()).unwrap().map(|entry| entry.unwrap().path());
    for file in files.filter(|file| file.extension().is_some_and(|extension| extension == "tsv")) {
        let (agreeing, without) = agreeing(&file);
        let is_of_the_library = OF_THE_LIBRARY.iter().any(|name| file.file_stem().is_some_and(|stem| stem == *name));
        assert_eq!((agreeing == 0, without.is_empty()), (is_of_the_library, !is_of_the_library), "{}", file.display());
    }
}
