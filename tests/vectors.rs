//! The program `vectors`: the stored commands, each with its reply and its exit status, and commands of no such form. With
//! the variable `PROVED_VECTORS`, the path of the proved program, that has to reply as this one does.

use std::env;
use std::ffi::OsStr;
use std::fs::{self, File};
use std::process::{Command, Output, Stdio};
use std::thread;

/// What a program writes, and its exit status.
#[derive(Debug, PartialEq, Eq)]
struct Reply {
    out: String,
    err: String,
    status: Option<i32>,
}

impl Reply {
    /// The reply that a row of the stored commands has.
    fn of_row(row: &str) -> Reply {
        let line = format!("{row}\n");
        if row.starts_with("refused: ") {
            return Reply { out: String::new(), err: line, status: Some(2) };
        }
        Reply { out: line, err: String::new(), status: Some(0) }
    }
}

impl From<Output> for Reply {
    fn from(output: Output) -> Reply {
        Reply {
            out: String::from_utf8(output.stdout).unwrap(),
            err: String::from_utf8(output.stderr).unwrap(),
            status: output.status.code(),
        }
    }
}

/// The reply of this program, which is that of the proved one if that is there.
fn reply<S: AsRef<OsStr>>(words: &[S]) -> Reply {
    let run = |program: &OsStr| Reply::from(Command::new(program).args(words).output().unwrap());
    let given = run(env!("CARGO_BIN_EXE_vectors").as_ref());
    if let Some(proved) = env::var_os("PROVED_VECTORS") {
        let words: Vec<&OsStr> = words.iter().map(S::as_ref).collect();
        assert_eq!(given, run(&proved), "{words:?}");
    }
    given
}

/// The words of a stored command.
fn words_of(command: &str) -> Vec<&str> {
    command.split(' ').map(|word| if word == "\"\"" { "" } else { word }).collect()
}

#[test]
fn stored_commands_have_their_replies() {
    let rows = fs::read_to_string(concat!(env!("CARGO_MANIFEST_DIR"), "/tests/rows/stored")).unwrap();
    let commands: Vec<(&str, &str)> = rows
        .lines()
        .filter(|line| !line.starts_with('#'))
        .filter_map(|line| line.split_once('\t').filter(|(_, reply)| !reply.contains('\t')))
        .collect();
    assert!(commands.len() > 9000, "{} commands", commands.len());
    let processors = thread::available_parallelism().map_or(1, |count| count.get());
    thread::scope(|scope| {
        for part in commands.chunks(commands.len().div_ceil(processors)) {
            scope.spawn(move || {
                for (command, expected) in part {
                    assert_eq!(reply(&words_of(command)), Reply::of_row(expected), "{command}");
                }
            });
        }
    });
}

#[test]
fn commands_of_other_forms_are_refused() {
    let commands: [(&[&str], &str); 14] = [
        (&[], "arguments"),
        (&["--help"], "arguments"),
        (&["--version"], "arguments"),
        (&["half", "int", "even"], "arguments"),
        (&["half", "int", "even", "1", "1"], "arguments"),
        (&["half", "fma", "even", "1", "1", "1", "1"], "arguments"),
        (&["half", "add", "even", "1"], "arguments"),
        (&["halve", "plus", "odd", "x"], "halve"),
        (&["half", "plus", "odd", "x"], "plus"),
        (&["half", "add", "odd", "x"], "odd"),
        (&["half", "add", "even", "x", "y"], "x"),
        (&["half", "add", "even", "", "y"], ""),
        // Pairs of doubles have no fused sum, and a quad has no product in this program.
        (&["dd", "fma", "even", "0", "0", "0"], "fma"),
        (&["quad", "mul", "even", "0", "0"], "mul"),
    ];
    for (words, refused) in commands {
        assert_eq!(reply(words), Reply::of_row(&format!("refused: {refused}")), "{words:?}");
    }
}

#[cfg(unix)]
#[test]
fn words_that_are_no_text_end_the_program() {
    use std::os::unix::ffi::OsStrExt;

    let words = ["half", "parse", "even"].map(str::as_bytes).into_iter().chain([&b"\xff"[..]]);
    let words: Vec<&OsStr> = words.map(OsStr::from_bytes).collect();
    assert_eq!(reply(&words), Reply { out: String::new(), err: String::new(), status: Some(1) });
}

#[cfg(target_os = "linux")]
#[test]
fn a_reply_that_cannot_be_written_is_a_failure() {
    for words in [["half", "int", "even", "464"], ["half", "int", "odd", "464"]] {
        let full = || Stdio::from(File::options().write(true).open("/dev/full").unwrap());
        let mut command = Command::new(env!("CARGO_BIN_EXE_vectors"));
        let status = command.args(words).stdout(full()).stderr(full()).status().unwrap();
        assert_eq!(status.code(), Some(1), "{words:?}");
    }
}
