//! `erase CRATES OUT [NAME..]`: erases crates of the folder CRATES, those of the library if none is named, into OUT.
//!
//! `HELP` explains the arguments.
#![forbid(unsafe_code)]

mod suggestions;

use std::fs;
use std::path::Path;
use std::process::ExitCode;
use suggestions::suggested;

const HELP: &str = "\
usage: erase CRATES OUT [NAME..]
       erase --help | --version

Leaves the contracts out of proved crates; what remains is Rust. Reads the
crates of these names in the folder CRATES, those of the library if none is
named, and writes to OUT a folder for each, and erased.rs, which declares a
module for each.

--help, -h  writes this text
--version   writes the name and the version of the program

The exit status is 0; 1 if a text is refused, or if a file cannot be read or
written, and 2 for other arguments.

    erase crates out apfloat_model apfloat_words
";

const OPTIONS: [&str; 3] = ["--help", "-h", "--version"];

fn main() -> ExitCode {
    let words: Vec<String> = std::env::args().skip(1).collect();
    let words: Vec<&str> = words.iter().map(String::as_str).collect();
    match words.iter().find(|word| OPTIONS.contains(word)) {
        Some(&"--version") => {
            println!("erase {}", env!("CARGO_PKG_VERSION"));
            return ExitCode::SUCCESS;
        }
        Some(_) => {
            print!("{HELP}");
            return ExitCode::SUCCESS;
        }
        None => {}
    }
    if let Some(option) = words.iter().find(|word| word.starts_with('-')) {
        return wrong_word("no such option", option, &OPTIONS);
    }
    let [crates, out, names @ ..] = words.as_slice() else {
        eprintln!("erase: too few words; see `erase --help`");
        return ExitCode::from(2);
    };
    let crates = Path::new(crates);
    if let Some(name) = names.iter().find(|name| !is_crate(&crates.join(name))) {
        let known = crates_in(crates);
        return wrong_word("no such crate", name, &known.iter().map(String::as_str).collect::<Vec<_>>());
    }
    let names = if names.is_empty() { erase::LIBRARY } else { names };
    match erase::erase(crates, names, Path::new(out)) {
        Ok(()) => ExitCode::SUCCESS,
        Err(refusal) => {
            eprintln!("erase: {refusal}");
            ExitCode::FAILURE
        }
    }
}

/// Writes the line about a word that is wrong, with the word that was meant, or where to look.
fn wrong_word(fault: &str, word: &str, known: &[&str]) -> ExitCode {
    match suggested(word, known) {
        Some(meant) => eprintln!("erase: {fault}: `{word}`; did you mean `{meant}`?"),
        None => eprintln!("erase: {fault}: `{word}`; see `erase --help`"),
    }
    ExitCode::from(2)
}

fn is_crate(folder: &Path) -> bool {
    folder.join("src/lib.rt").is_file()
}

/// The names of the crates in a folder, in order.
fn crates_in(folder: &Path) -> Vec<String> {
    let entries = fs::read_dir(folder).into_iter().flatten().flatten();
    let crates = entries.filter(|entry| is_crate(&entry.path()));
    let mut names: Vec<String> = crates.filter_map(|entry| entry.file_name().into_string().ok()).collect();
    names.sort();
    names
}
