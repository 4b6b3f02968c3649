//! Leaves out what a proved crate has beside its code: contracts, ghost items, hints to the prover. What remains is
//! Rust, as modules of one crate.
//!
//! README.md says which forms are known. A text with any other is refused, with its file and line.
#![forbid(unsafe_code)]

mod forms;
mod lines;
mod refusal;
mod tokens;
mod walk;

pub use refusal::Refusal;

use std::fs;
use std::path::{Path, PathBuf};
use walk::{Erased, Place};

/// The crates of the library, lowest first.
pub const LIBRARY: &[&str] = &[
    "apfloat_model",
    "apfloat_words",
    "apfloat_base",
    "apfloat_pair_theory",
    "apfloat_rounding",
    "apfloat_arithmetic",
    "apfloat_conversions",
    "apfloat_ieee",
    "rustc_apfloat",
    "apfloat_decimals",
    "apfloat_digits",
    "ieee_operations",
    "round_to_odd",
    "apfloat_machines",
    "small_formats",
    "exact_reductions",
    "p3109_formats",
    "fast_bits",
    "formats_at_run_time",
    "apfloat_arrays",
];

/// The crates that the library for C has above those.
pub const FOR_C: &[&str] = &["coded_calls", "apfloat_c", "arrays_for_c"];

/// The crates that the program `vectors` is made of, lowest first: those of the library up to `rustc_apfloat`, and two
/// above them, of which the last one is the program but for its `main`.
pub const VECTORS: [&[&str]; 2] = [LIBRARY.split_at(9).0, &["formats_at_run_time", "commands"]];

/// The crates that have the standard library, since they are of programs.
pub const OF_PROGRAMS: &[&str] = &["commands"];

/// Modules that are left out, since no call of the erased crates uses them. They work with handles of the runtime: with
/// buffers that a program has allocated, its clock, its arguments.
const WITHOUT: [(&str, &[&str]); 2] =
    [("apfloat_arrays", &["block_call", "conversion"]), ("commands", &["progress", "system_words"])];

/// The crates that are not of the repository: whoever builds the erased ones writes a module in place of each.
const GIVEN: [&str; 1] = ["bitflags"];

/// The path of the module in which the crates become modules.
const ROOT: &str = "crate::erased";

/// Erases the crates of these names in the folder `crates`, and writes them to `out`: a folder for each, and the file
/// `erased.rs`, which declares a module for each. It is to be included in a module `erased` of a crate, beside a module
/// `bitflags` and, if there are functions for C, a macro `export` that takes the head of each.
pub fn erase(crates: &Path, names: &[&str], out: &Path) -> Result<(), Refusal> {
    let known: Vec<&str> = names.iter().chain(&GIVEN).copied().collect();
    let mut modules = String::new();
    for &name in names {
        let place =
            Place { name, root: ROOT, crates: &known, without: without(name), of_program: OF_PROGRAMS.contains(&name) };
        let (source, target) = (crates.join(name).join("src"), out.join(name));
        let macros = write_module(&place, &source, &target, &[])?;
        let uses: String = macros
            .iter()
            .filter(|(module, _)| !module.is_empty())
            .map(|(module, name)| format!("pub(crate) use self::{}::{name};\n", module.join("::")))
            .collect();
        let root = target.join("lib.rs");
        let text = fs::read_to_string(&root).map_err(|error| failed(&root, &error))?;
        write(&root, &format!("{text}{uses}"))?;
        modules += &format!("#[path = \"{name}/lib.rs\"]\npub mod {name};\n");
    }
    write(&out.join("erased.rs"), &modules)
}

/// Erases one text, as a file of the crate `name`.
pub fn erase_text(text: &str, name: &str) -> Result<String, Refusal> {
    let known: Vec<&str> = LIBRARY.iter().chain(FOR_C).chain(&GIVEN).copied().collect();
    let place =
        Place { name, root: ROOT, crates: &known, without: without(name), of_program: OF_PROGRAMS.contains(&name) };
    erased(text, &place, Path::new(name)).map(|erased| erased.text)
}

fn without(name: &str) -> &'static [&'static str] {
    WITHOUT.iter().find(|(of, _)| *of == name).map_or(&[], |(_, modules)| modules)
}

fn erased(text: &str, place: &Place<'_>, file: &Path) -> Result<Erased, Refusal> {
    // Where lines end as on Windows, Rust reads a newline, in strings too.
    let text = text.replace("\r\n", "\n");
    walk::erase(&text, place).map_err(|fault| Refusal { file: file.to_owned(), line: fault.line, why: fault.why })
}

/// A macro and the module that exports it.
type Exported = (Vec<String>, String);

/// Erases a module and those that it declares, and gives the macros that they export.
fn write_module(place: &Place<'_>, source: &Path, target: &Path, module: &[String]) -> Result<Vec<Exported>, Refusal> {
    let path: PathBuf = if module.is_empty() { "lib".into() } else { module.iter().collect() };
    let file = source.join(&path).with_extension("rt");
    let text = fs::read_to_string(&file).map_err(|error| failed(&file, &error))?;
    let erased = erased(&text, place, &file)?;
    write(&target.join(&path).with_extension("rs"), &erased.text)?;
    let mut macros: Vec<Exported> = erased.macros.into_iter().map(|name| (module.to_vec(), name)).collect();
    for name in erased.modules {
        let mut inner = module.to_vec();
        inner.push(name);
        macros.extend(write_module(place, source, target, &inner)?);
    }
    Ok(macros)
}

fn write(file: &Path, text: &str) -> Result<(), Refusal> {
    let folder = file.parent().unwrap_or(Path::new("."));
    fs::create_dir_all(folder).map_err(|error| failed(folder, &error))?;
    fs::write(file, text).map_err(|error| failed(file, &error))
}

fn failed(file: &Path, error: &std::io::Error) -> Refusal {
    Refusal { file: file.to_owned(), line: 0, why: error.to_string() }
}
