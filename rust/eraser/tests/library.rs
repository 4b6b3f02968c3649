//! The crates of the repository.

use std::fs;
use std::path::Path;

/// Compares the lines of each erased file with those of its source, and counts the files.
fn compare(source: &Path, erased: &Path) -> usize {
    let mut count = 0;
    for entry in fs::read_dir(erased).unwrap() {
        let path = entry.unwrap().path();
        if path.is_dir() {
            count += compare(&source.join(path.file_name().unwrap()), &path);
            continue;
        }
        let name = Path::new(path.file_name().unwrap()).with_extension("rt");
        let text = fs::read_to_string(&path).unwrap();
        let original = fs::read_to_string(source.join(&name)).unwrap();
        assert!(!text.contains("\n\n\n"), "{}: a run of blank lines", path.display());
        // What is left of a line is what it had, but for paths and the few forms that are rewritten, and in order.
        let mut left = original.lines();
        for (number, line) in text.lines().enumerate() {
            let rewritten = [
                "export! { fn ",
                "crate::erased::",
                "::core::",
                "fn fmt(&self",
                "pub(crate) use ",
                "pub fn ",
                "#[derive(",
            ];
            let is_same = |from: &str| {
                let from = from.trim().trim_start_matches("final ");
                from == line.trim()
                    || matches!(line.trim(), ";" | "")
                    || from.starts_with(&format!("{} ensures", line.trim()))
            };
            let known = rewritten.iter().any(|form| line.contains(form)) || left.any(is_same);
            assert!(known, "{}:{}: {line}", path.display(), number + 1);
            assert!(line.contains("//") || !["ghost ", "requires ", "ensures "].iter().any(|word| line.contains(word)));
        }
        count += 1;
    }
    count
}

#[test]
fn the_library_is_erased_line_by_line() {
    let crates = Path::new(concat!(env!("CARGO_MANIFEST_DIR"), "/../../crates"));
    let out = Path::new(env!("CARGO_TARGET_TMPDIR")).join("library");
    let _ = fs::remove_dir_all(&out);
    let names: Vec<&str> = [erase::LIBRARY, erase::FOR_C, erase::OF_PROGRAMS].concat();
    if let Err(refusal) = erase::erase(crates, &names, &out) {
        panic!("{refusal}");
    }
    let count: usize = names.iter().map(|name| compare(&crates.join(name).join("src"), &out.join(name))).sum();
    assert!(count > 100, "{count} files");
    let modules = fs::read_to_string(out.join("erased.rs")).unwrap();
    assert_eq!(modules.matches("mod ").count(), names.len());
}

/// The crates that a crate uses.
fn used<'a>(lines: &'a str, name: &str) -> Vec<&'a str> {
    let words = lines.lines().map(|line| line.split_once(':').unwrap_or((line, "")));
    let of = words.clone().find(|(head, _)| head.split(' ').next() == Some(name));
    let (_, names) = of.unwrap_or_else(|| panic!("crates.txt has no {name}"));
    names.split_whitespace().filter(|used| *used != "bitflags").collect()
}

fn all_stand_above_those_that_they_use(lines: &str, names: &[&str]) {
    for (place, name) in names.iter().enumerate() {
        for below in used(lines, name) {
            assert!(names[..place].contains(&below), "{name} uses {below}, which does not stand before it");
        }
    }
}

#[test]
fn each_crate_stands_above_those_that_it_uses() {
    let lines = fs::read_to_string(concat!(env!("CARGO_MANIFEST_DIR"), "/../../crates.txt")).unwrap();
    all_stand_above_those_that_they_use(&lines, &[erase::LIBRARY, erase::FOR_C].concat());
    // None stands there for C but those with the exports, and what one of these uses.
    let for_c: Vec<&str> = erase::FOR_C.iter().flat_map(|name| used(&lines, name)).collect();
    let exports = ["apfloat_c", "arrays_for_c"];
    assert!(erase::FOR_C.iter().all(|name| exports.contains(name) || for_c.contains(name)));
}

#[test]
fn the_program_has_each_crate_that_it_uses() {
    let lines = fs::read_to_string(concat!(env!("CARGO_MANIFEST_DIR"), "/../../crates.txt")).unwrap();
    all_stand_above_those_that_they_use(&lines, &erase::VECTORS.concat());
}

#[test]
fn the_package_has_the_crates_that_it_erases() {
    let manifest = fs::read_to_string(concat!(env!("CARGO_MANIFEST_DIR"), "/../../Cargo.toml")).unwrap();
    let mut included: Vec<&str> = manifest
        .lines()
        .filter_map(|line| line.trim().strip_prefix("\"/crates/")?.strip_suffix("/src/**/*.rt\","))
        .collect();
    let mut erased = [erase::LIBRARY, &erase::VECTORS.concat()[..]].concat();
    included.sort_unstable();
    erased.sort_unstable();
    erased.dedup();
    assert_eq!(included, erased);
}

#[test]
fn a_crate_that_is_not_there_is_refused() {
    let out = Path::new(env!("CARGO_TARGET_TMPDIR")).join("none");
    let refusal = erase::erase(Path::new("nowhere"), &["none"], &out).unwrap_err();
    assert!(refusal.to_string().starts_with("nowhere/none/src/lib.rt: "), "{refusal}");
}
