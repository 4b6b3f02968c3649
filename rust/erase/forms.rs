//! The forms that are known, as tables. What is in none of them is refused.

/// What becomes of an attribute.
pub(crate) enum Attribute {
    /// It stays: Rust has it, with the same meaning.
    Stays,
    /// It is a hint to the prover, and is left out.
    Goes,
    /// `derive(..)`: without `Drop`, which says that a value may be let go, as any value of Rust may.
    Derives,
    /// `derive_where(Clone, Copy)`: both are written out below the type.
    DerivesBelow,
    /// `repr(C)` on a struct: it stays.
    OfStructs,
    /// `unsafe(no_mangle)` on `pub extern "C" fn`: the function stays a function of Rust, and after it stands the macro
    /// `export!` with its head, by which whoever builds the erased text makes it one that C calls.
    ExportsToC,
    /// `macro_export`: the macro is made known to the other crates by a `use`, since all become modules of one crate.
    Exports,
    /// `cfg(test)` on `mod name;`: both are left out, since such a file is of the proved language's tests.
    Tests,
}

/// The attributes, without spaces; of those with arguments that vary, the part before them.
pub(crate) const ATTRIBUTES: [(&str, Attribute); 12] = [
    ("inline", Attribute::Stays),
    ("inline(always)", Attribute::Stays),
    ("inline(never)", Attribute::Stays),
    ("cold", Attribute::Stays),
    ("must_use", Attribute::Stays),
    ("repr(C)", Attribute::OfStructs),
    ("tactic(", Attribute::Goes),
    ("derive(", Attribute::Derives),
    ("derive_where(Clone,Copy)", Attribute::DerivesBelow),
    ("unsafe(no_mangle)", Attribute::ExportsToC),
    ("macro_export", Attribute::Exports),
    ("cfg(test)", Attribute::Tests),
];

/// The traits that a `derive` may name, other than `Drop`: each does what it does in Rust.
pub(crate) const DERIVED: [&str; 8] = ["Clone", "Copy", "Debug", "Default", "Eq", "Ord", "PartialEq", "PartialOrd"];

/// The items of `std` that are the same in both languages. `std` becomes `core`, which has each of them.
pub(crate) const STD: [&str; 18] = [
    "std::cmp::Ordering",
    "std::fmt",
    "std::marker::PhantomData",
    "std::ops::Add",
    "std::ops::AddAssign",
    "std::ops::Div",
    "std::ops::DivAssign",
    "std::ops::Mul",
    "std::ops::MulAssign",
    "std::ops::Neg",
    "std::ops::Not",
    "std::ops::Rem",
    "std::ops::RemAssign",
    "std::ops::Sub",
    "std::ops::SubAssign",
    "std::str::FromStr",
    "std::str::from_utf8",
    "std::marker::Model",
];

/// Those that programs use beside them. `core` has none of these, so in a program `std` stays.
pub(crate) const STD_OF_PROGRAMS: [&str; 3] = ["std::io", "std::io::ErrorKind", "std::io::Write"];

/// The trait by which contracts see a type. Its import is left out, and so is `impl Model for ..`, which has ghost
/// members alone.
pub(crate) const MODEL: &str = "std::marker::Model";

/// The types of numbers that C can pass, and be given: each of their bit patterns is a value.
pub(crate) const NUMBERS: [&str; 10] = ["i8", "i16", "i32", "i64", "isize", "u8", "u16", "u32", "u64", "usize"];

/// The macros that are the same in both languages, and those that the library's crates export.
pub(crate) const MACROS: [&str; 5] = ["bitflag_items", "matches", "unpack", "unreachable", "write"];

/// Those of them that the library's crates export.
pub(crate) const OF_LIBRARY: [&str; 2] = ["bitflag_items", "unpack"];

/// Those that programs use beside them.
pub(crate) const MACROS_OF_PROGRAMS: [&str; 1] = ["writeln"];

/// Assertions that are proved, as Rust's that are tested in a debug build.
pub(crate) const PROVED: [(&str, &str); 3] =
    [("prove", "debug_assert"), ("prove_eq", "debug_assert_eq"), ("prove_ne", "debug_assert_ne")];

/// Words of the code that are refused outside of the forms that are known, with the reason.
pub(crate) const REFUSED: [(&str, &str); 21] = [
    ("requires", "a clause outside the head of a function"),
    ("ensures", "a clause outside the head of a function"),
    ("final", "`final` before anything but a `fn`"),
    ("Model", "`Model` outside `impl Model for ..` and its import"),
    ("Drop", "`Drop` outside a derive: a drop is another function in Rust"),
    ("clone", "`clone` returns a `Result` in the proved language"),
    ("Vec", "what allocates is passed its allocator"),
    ("String", "what allocates is passed its allocator"),
    ("Box", "what allocates is passed its allocator"),
    ("Rc", "what allocates is passed its allocator"),
    ("HostRuntime", "a handle of the runtime"),
    ("Abort", "a handle of the runtime"),
    ("Wait", "a handle of the runtime"),
    ("Threads", "a handle of the runtime"),
    ("Net", "a handle of the runtime"),
    ("Processes", "a handle of the runtime"),
    ("Owns", "a form of unsafe code"),
    ("unsafe", "unsafe code"),
    ("extern", "a foreign function"),
    ("async", "no form of the proved language"),
    ("dyn", "a value without its type"),
];

/// Those of these words that programs use. What is passed an allocator there does not compile in Rust.
pub(crate) const WORDS_OF_PROGRAMS: [&str; 2] = ["String", "Vec"];

/// How `fmt` is written in the proved language, and in Rust. The former is generic in what it writes to.
pub(crate) const FMT: (&[&str], &str) = (
    &[
        "fn",
        "fmt",
        "<",
        "W",
        ":",
        "fmt",
        "::",
        "Write",
        ">",
        "(",
        "&",
        "self",
        ",",
        "f",
        ":",
        "&",
        "mut",
        "fmt",
        "::",
        "Formatter",
        "<",
        "W",
        ">",
        ")",
    ],
    "fn fmt(&self, f: &mut fmt::Formatter<'_>)",
);
