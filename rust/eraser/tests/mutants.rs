//! Texts of the library with random faults: each is erased or refused, and the eraser never panics.
//!
//! `MUTANTS` is how many texts are tried: 100,000 in a release build if it is not set, and 20,000 in another.

use std::fs;
use std::panic::{catch_unwind, set_hook, take_hook};
use std::path::Path;

const COUNT: usize = if cfg!(debug_assertions) { 20_000 } else { 100_000 };

/// What is put in: marks, words and characters that the eraser looks at, and some that no text has.
const ODD: &[&str] = &[
    "{",
    "}",
    "(",
    ")",
    "[",
    "]",
    "<",
    ">",
    ";",
    ",",
    "!",
    "#",
    "#!",
    "$",
    "::",
    "..",
    "=>",
    "->",
    "=",
    "\"",
    "'",
    "\\",
    "/*",
    "*/",
    "//",
    "///",
    "/**",
    "r#\"",
    "b'",
    "'a",
    "\r",
    "\0",
    "\u{feff}",
    "λ",
    "→",
    "é",
    "💡",
    " ",
    "\n",
    "\n\n",
    "ghost ",
    "requires ",
    "ensures ",
    "ensures* ",
    "final ",
    "use ",
    "mod ",
    "impl ",
    "Model ",
    "struct ",
    "pub ",
    "fn ",
    "const ",
    "macro_rules! ",
    "prove!",
    "matches!",
    "write!",
    "std::",
    "crate::",
    "super::",
    "apfloat_model",
    "#[tactic(",
    "#[derive(",
    "#[derive_where(Clone, Copy)]",
    "#[unsafe(no_mangle)]",
    "#[macro_export]",
    "#[cfg(test)]",
    "0",
    "1e",
    "0x",
    "1.",
    "Drop",
    "unsafe",
];

/// A generator of 64 random bits (xorshift64*).
struct Random(u64);

impl Random {
    fn next(&mut self) -> u64 {
        self.0 ^= self.0 >> 12;
        self.0 ^= self.0 << 25;
        self.0 ^= self.0 >> 27;
        self.0.wrapping_mul(0x2545_f491_4f6c_dd1d)
    }

    /// A number below a bound that is not 0.
    fn below(&mut self, bound: usize) -> usize {
        (self.next() % bound as u64) as usize
    }
}

/// Adds the items of all texts below a folder, as runs of lines that a blank line ends before one without an indent.
fn read_items(folder: &Path, items: &mut Vec<String>) {
    let mut paths: Vec<_> = fs::read_dir(folder).unwrap().map(|entry| entry.unwrap().path()).collect();
    paths.sort();
    for path in paths {
        if path.is_dir() {
            read_items(&path, items);
        } else if path.extension().is_some_and(|extension| extension == "rt") {
            let text = fs::read_to_string(&path).unwrap();
            let mut item = String::new();
            for line in text.split_inclusive('\n') {
                if item.ends_with("\n\n") && !line.starts_with([' ', '}', '\n']) {
                    items.push(std::mem::take(&mut item));
                }
                item.push_str(line);
            }
            items.push(item);
        }
    }
}

/// The words of a text, its runs of white space and its other characters.
fn parts(text: &str) -> Vec<&str> {
    let class = |c: char| match c {
        _ if c.is_alphanumeric() || c == '_' => 1,
        _ if c.is_whitespace() => 2,
        _ => 0,
    };
    let (mut parts, mut start) = (Vec::new(), 0);
    let mut before = None;
    for (at, c) in text.char_indices() {
        if before.is_some_and(|before| before == 0 || before != class(c)) {
            parts.push(&text[start..at]);
            start = at;
        }
        before = Some(class(c));
    }
    parts.push(&text[start..]);
    parts
}

/// Deletes, doubles, swaps, cuts off or puts in some parts.
fn mutate<'a>(parts: &mut Vec<&'a str>, all: &[&'a str], random: &mut Random) {
    for _ in 0..1 + random.below(4) {
        let at = random.below(parts.len());
        match random.below(8) {
            0 => {
                parts.remove(at);
            }
            1 => {
                let end = (at + 1 + random.below(20)).min(parts.len());
                parts.drain(at..end);
            }
            2 => parts.insert(at, parts[at]),
            3 => {
                let other = random.below(parts.len());
                parts.swap(at, other);
            }
            4 => parts.truncate(at + 1),
            5 => {
                parts.drain(..at);
            }
            6 => parts.insert(at, all[random.below(all.len())]),
            _ => parts.insert(at, ODD[random.below(ODD.len())]),
        }
        if parts.is_empty() {
            parts.push("");
        }
    }
}

#[test]
fn each_text_is_erased_or_refused() {
    let count = std::env::var("MUTANTS").map_or(COUNT, |count| count.parse().unwrap());
    let mut items = Vec::new();
    read_items(Path::new(concat!(env!("CARGO_MANIFEST_DIR"), "/../../crates")), &mut items);
    assert!(items.len() > 1000, "{} items", items.len());
    let mut random = Random(0x6177_6c6d_6172_6f6f);
    let (mut erased, mut panicked) = (0, Vec::new());
    // What a panic says is said at the end.
    let hook = take_hook();
    set_hook(Box::new(|_| {}));
    for _ in 0..count {
        let first = random.below(items.len());
        let text = items[first..items.len().min(first + 1 + random.below(3))].concat();
        let all = parts(&text);
        // The first and last bytes of a long item come seldom.
        let start = random.below(all.len().div_ceil(400)) * 400;
        let mut some = all[start..all.len().min(start + 1200)].to_vec();
        mutate(&mut some, &all, &mut random);
        let mutant = some.concat();
        let name = ["apfloat_base", "apfloat_arrays", "commands"][random.below(3)];
        match catch_unwind(|| erase::erase_text(&mutant, name).is_ok()) {
            Ok(is_erased) => erased += usize::from(is_erased),
            Err(_) => panicked.push(mutant),
        }
    }
    set_hook(hook);
    assert!(panicked.is_empty(), "{} panics, the first for\n{}", panicked.len(), panicked[0]);
    // Some faults are not seen here but by rustc, such as a name that is missing.
    assert!(erased > count / 100 && erased < count, "{erased} of {count} texts are erased");
}
