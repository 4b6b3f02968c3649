//! What the program says of itself, and of words that are wrong.

use std::process::Command;

const CRATES: &str = concat!(env!("CARGO_MANIFEST_DIR"), "/../../crates");

/// The exit status, and what is written to standard output and to standard error.
fn run(words: &[&str]) -> (Option<i32>, String, String) {
    let output = Command::new(env!("CARGO_BIN_EXE_erase")).args(words).output().unwrap();
    let text = |bytes| String::from_utf8(bytes).unwrap();
    (output.status.code(), text(output.stdout), text(output.stderr))
}

#[test]
fn it_answers_questions_about_itself() {
    let (status, help, err) = run(&["--help"]);
    assert!(status == Some(0) && help.starts_with("usage: erase CRATES OUT [NAME..]\n") && err.is_empty());
    assert_eq!(run(&["crates", "-h"]), (Some(0), help, String::new()));
    assert_eq!(run(&["--version"]), (Some(0), "erase 0.1.0\n".into(), String::new()));
}

#[test]
fn it_names_the_word_that_was_meant() {
    let refused = |words: &[&str], line: &str| {
        assert_eq!(run(words), (Some(2), String::new(), format!("erase: {line}\n")), "{words:?}");
    };
    refused(&["--hlep"], "no such option: `--hlep`; did you mean `--help`?");
    refused(&["--all"], "no such option: `--all`; see `erase --help`");
    refused(&["crates"], "too few words; see `erase --help`");
    refused(&[], "too few words; see `erase --help`");
    refused(&[CRATES, "out", "apfloat_modle"], "no such crate: `apfloat_modle`; did you mean `apfloat_model`?");
    refused(&[CRATES, "out", "model"], "no such crate: `model`; see `erase --help`");
}
