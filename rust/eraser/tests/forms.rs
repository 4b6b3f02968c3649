//! Each form that is left out or rewritten, and each refusal.

use erase::erase_text;

/// The text without its contracts.
#[track_caller]
fn becomes(text: &str, expected: &str) {
    match erase_text(text, "apfloat_base") {
        Ok(erased) => {
            assert_eq!(erased, expected);
            assert!(!erased.contains("\n\n\n"), "a run of blank lines");
        }
        Err(refusal) => panic!("{refusal}"),
    }
}

#[track_caller]
fn stays(text: &str) {
    becomes(text, text);
}

/// The text is refused, at that line, for that reason.
#[track_caller]
fn is_refused(text: &str, line: usize, why: &str) {
    match erase_text(text, "apfloat_base") {
        Ok(erased) => panic!("not refused: {text} becomes {erased}"),
        Err(refusal) => {
            assert!(refusal.why.contains(why), "{text} is refused for another reason: {refusal}");
            assert_eq!(refusal.line, line, "{text}: {refusal}");
        }
    }
}

#[test]
fn code_stays() {
    stays("//! A file.\n\n/* a /* nested */ comment */\n/// An item.\npub const LIMIT: usize = 0x40_usize;\n");
    stays("static TABLE: [u8; 2] = [1, 2];\n");
    stays("pub struct Point { x: u8, pub(crate) y: [u8; 4], }\nenum Kind { A, B(u8), C { d: u8 } }\n");
    stays("fn f(x: u8) -> u8 {\n    let y = [x as u16; 2];\n    if x != 1 { y[0] as u8 } else { x }\n}\n");
    stays(
        "fn f<'a>(s: &'a [u8]) -> &'a [u8] {
    match s {
        [b'e' | b'E', tail @ ..] => tail,
        _ => &s[1..],
    }
}
",
    );
    stays(
        "impl<S: Bound, T> Trait<T> for Type<S> {\n    type Output = u8;\n    const N: u8 = 1;\n    fn f(self) {}\n}\n",
    );
    stays(
        "fn f() -> u128 {
    'outer: for i in 0..10 {
        if i == 1_000 { break 'outer; }
    }
    u128::MAX
}
",
    );
    stays(
        "fn f(c: char) -> bool {
    c == '\\'' || c == '\"' || c == '{' || \"// { \\\" ghost\".len() == 3 || r#\"a\"b\"#.is_empty()
}
",
    );
    stays(
        "fn f(x: Option<u8>) -> Option<u8> {
    let Some(y) = x else { return None; };
    Some(if !true { y } else { 0 })
}
",
    );
    stays("pub(super) fn f() {}\ntrait T { fn g(&self) -> u8; }\n");
    becomes(
        "pub const fn f(x: u8) -> u8\n    ensures { result ≡ x }\n{\n    x\n}\n",
        "pub const fn f(x: u8) -> u8\n{\n    x\n}\n",
    );
    stays(
        "fn f(g: fn(u8) -> u8) -> u8 {
    fn inner() -> u8 { 1 }
    g(inner())
}
const N: [u8; 2] = { [1, 2] };
type T = u8;
",
    );
    stays("#[inline(always)]\n#[cold]\n#[must_use]\nfn f() -> f64 { 1.5e-3 }\n");
}

#[test]
fn clauses_are_left_out() {
    becomes(
        "fn f(x: u8) -> u8\n    requires { x < 2 }\n    ensures name { result ≡ x + 1 }\n{\n    x + 1\n}\n",
        "fn f(x: u8) -> u8\n{\n    x + 1\n}\n",
    );
    becomes("fn f()\n    ensures* { (n : ℕ) → λ x. { [\"}\"] } }\n{}\n", "fn f()\n{}\n");
    becomes("fn f() ensures { \"a\\n\" } {}\n", "fn f() {}\n");
    becomes("fn f() ensures { a ⟦<P as Q>⟧ } {}\n", "fn f() {}\n");
    becomes(
        "trait T {\n    fn f(self) -> bool\n        ensures { result ≡ (a\n            × b) };\n}\n",
        "trait T {\n    fn f(self) -> bool\n        ;\n}\n",
    );
}

#[test]
fn ghost_items_are_left_out() {
    becomes(
        "ghost use Rattle.std.specs.Prelude.{◌≡◌, [], ◌∷◌};\nuse crate::a;\n",
        "use crate::erased::apfloat_base::a;\n",
    );
    becomes("#![tactic(auto)]\n\nghost use A.{b};\n", "");
    becomes(
        "trait T {
    /// What it adds.
    ghost adds: { Self → ℕ };

    ghost valid: { ℕ } = { 1 };
    fn f();
}
",
        "trait T {\n    fn f();\n}\n",
    );
    becomes("impl T for U {\n    ghost adds = { λ x.\n        x };\n}\n", "impl T for U {\n}\n");
    becomes(
        "pub struct P {\n    value: u8,\n    pub ghost small: { value ≤ 100 },\n}\n",
        "pub struct P {\n    value: u8,\n}\n",
    );
    becomes("struct P { value: u8, ghost small: { value ≤ 100 } }\n", "struct P { value: u8, }\n");
}

#[test]
fn docs_go_with_what_they_document() {
    let kept = "/// Kept.\nfn f() {}\n";
    for (before, after) in [
        ("/// Gone.\nghost a = { 1 };\n", ""),
        ("/// Gone,\n// and why.\n/// Gone.\npub ghost a = { 1 };\n", "// and why.\n"),
        ("/** Gone. */\nghost use A.{b};\n", ""),
        ("/* Stays. */ /** Gone. */\n#[tactic(auto)]\nghost a = { 1 };\n", "/* Stays. */\n"),
        ("/// Gone.\n#[tactic(auto)]\nimpl Model for P {\n    /// Gone.\n    ghost Value = { ℕ };\n}\n", ""),
        ("/// Gone.\npub use std::marker::Model;\n", ""),
        ("/// Gone.\n#[cfg(test)]\nmod tests;\n", ""),
        ("//! Stays.\n\n/// Gone.\nghost a = { 1 };\n", "//! Stays.\n\n"),
        ("//// Stays.\nghost a = { 1 };\n", "//// Stays.\n"),
    ] {
        becomes(&format!("{before}{kept}"), &format!("{after}{kept}"));
    }
    becomes(
        "struct P {\n    /// Gone.\n    ghost a: { b },\n    /// Kept.\n    x: u8,\n}\n",
        "struct P {\n    /// Kept.\n    x: u8,\n}\n",
    );
}

#[test]
fn blank_lines_stand_alone() {
    becomes(
        "\n\nuse crate::a;\n\nghost use A.{b};\n\n\n// c\n\nfn f()\n    ensures { a }\n\n{\n}\n\n",
        "use crate::erased::apfloat_base::a;\n\n// c\n\nfn f()\n\n{\n}\n",
    );
    becomes("trait T {\n    ghost a: { b };\n\n    fn f();\n\n    ghost c: { d };\n}\n", "trait T {\n    fn f();\n}\n");
    let text = "const A: &str = \"a  \n\n\n  b\";\n\n/* c  \n\n\n d */\nfn f() {}";
    assert_eq!(erase_text(text, "apfloat_base").unwrap(), text);
}

#[test]
fn models_are_left_out() {
    becomes(
        "use std::marker::Model;\n\n/// What is seen.\nimpl<S: Bound> Model for P<S> {\n    ghost Value = { ℕ };\n}\n",
        "",
    );
    becomes("use std::marker::{Model, PhantomData};\n", "use ::core::marker::{ PhantomData};\n");
}

#[test]
fn attributes_are_known() {
    becomes("#[tactic(auto, using(a, b))]\nfn f() {}\n", "fn f() {}\n");
    becomes("#[derive(Drop)]\nstruct P;\n", "struct P;\n");
    becomes("#[derive(Debug, Drop)]\nstruct P;\n", "#[derive(Debug)]\nstruct P;\n");
    stays("#[derive(Clone, Copy, PartialEq, Eq, PartialOrd, Ord, Debug, Default)]\nstruct P;\n");
    becomes("#[cfg(test)]\nmod tests;\nfn f() {}\n", "fn f() {}\n");
    becomes(
        "#[derive_where(Clone, Copy)]\npub struct P<S: Bound> {\n    marker: PhantomData<S>,\n}\n",
        "pub struct P<S: Bound> {
    marker: PhantomData<S>,
} impl<S: Bound> ::core::marker::Copy for P<S> {} impl<S: Bound> ::core::clone::Clone for P<S> { \
         fn clone(&self) -> Self { *self } }
",
    );
}

#[test]
fn derives_below_keep_lifetimes() {
    becomes(
        "#[derive_where(Clone, Copy)]
struct P<'a, S: Bound> {
    s: &'a S,
}
",
        "struct P<'a, S: Bound> {
    s: &'a S,
} impl<'a, S: Bound> ::core::marker::Copy for P<'a, S> {} impl<'a, S: Bound> ::core::clone::Clone for P<'a, S> { \
         fn clone(&self) -> Self { *self } }
",
    );
}

#[test]
fn functions_for_c_are_followed_by_their_heads() {
    stays("#[repr(C)]\n#[derive(Clone, Copy)]\npub struct P {\n    pub x: u64,\n}\n");
    becomes(
        "/// A sum.
#[unsafe(no_mangle)]
pub extern \"C\" fn f(x: u32, y: P, b: &[u8], r: &mut [u8], a: &mut P) -> u32
    requires { x < 2 }
    ensures* name { result ≡ x }
{
    if x == 0 { 0 } else { 1 }
}
fn f() {}
",
        "/// A sum.
pub fn f(x: u32, y: P, b: &[u8], r: &mut [u8], a: &mut P) -> u32
{
    if x == 0 { 0 } else { 1 }
} crate::erased::export! { fn f ( x : u32 , y : P , b : & [ u8 ] , r : & mut [ u8 ] , a : & mut P ) -> u32 }
fn f() {}
",
    );
    becomes(
        "#[unsafe(no_mangle)]\npub extern \"C\" fn f(\n    x: u8,\n) -> u32 {\n    g(x)\n}\n",
        "pub fn f(
    x: u8,
) -> u32 {
    g(x)
} crate::erased::export! { fn f ( x : u8 , ) -> u32 }
",
    );
}

#[test]
fn modules_of_streams_are_left_out() {
    let text = "mod array;\nmod conversion;\n\npub use array::A;\npub use conversion::{B, C};\nuse array::D;\n";
    let erased = erase_text(text, "apfloat_arrays").unwrap();
    assert_eq!(erased, "mod array;\n\npub use array::A;\nuse array::D;\n");
    stays(text);
    let refusal = erase_text("#[inline]\nmod conversion;\nfn f() {}\n", "apfloat_arrays").unwrap_err();
    assert!(refusal.why.contains("an item that is left out, in an unknown place"), "{refusal}");
}

#[test]
fn paths_are_of_one_crate() {
    becomes("use crate::a::{b, c};\n", "use crate::erased::apfloat_base::a::{b, c};\n");
    becomes("use apfloat_model::Round;\n", "use crate::erased::apfloat_model::Round;\n");
    becomes("pub use apfloat_model as model;\n", "pub use crate::erased::apfloat_model as model;\n");
    becomes(
        "fn f() { apfloat_model::g(crate::h()) }\n",
        "fn f() { crate::erased::apfloat_model::g(crate::erased::apfloat_base::h()) }\n",
    );
    becomes("use std::ops::{Add, Neg};\nuse std::fmt;\n", "use ::core::ops::{Add, Neg};\nuse ::core::fmt;\n");
    becomes("fn f(s: &[u8]) { std::str::from_utf8(s) }\n", "fn f(s: &[u8]) { ::core::str::from_utf8(s) }\n");
    stays("mod a;\npub use a::b;\nuse super::c;\n");
}

#[test]
fn functions_are_rewritten() {
    becomes("trait T {\n    final fn f() {}\n}\n", "trait T {\n    fn f() {}\n}\n");
    becomes(
        "trait T: Copy {\n    /// The same.\n    #[inline]\n    final fn f(self) -> Self\n        ensures { result ≡ self }\n    {\n        self\n    }\n}\n",
        "trait T: Copy {\n    /// The same.\n    #[inline]\n    fn f(self) -> Self\n    {\n        self\n    }\n}\n",
    );
    becomes(
        "impl fmt::Display for P {
    fn fmt<W: fmt::Write>(&self, f: &mut fmt::Formatter<W>) -> fmt::Result {
        write!(f, \"\")
    }
}
",
        "impl fmt::Display for P {
    fn fmt(&self, f: &mut fmt::Formatter<'_>) -> fmt::Result {
        write!(f, \"\")
    }
}
",
    );
    becomes("fn f(x: u8) { prove!(x > 0); }\n", "fn f(x: u8) { ::core::debug_assert!(x > 0); }\n");
    becomes("const _: () = prove_eq!(A, B);\n", "const _: () = ::core::assert_eq!(A, B);\n");
}

#[test]
fn macros_are_known() {
    becomes(
        "#[macro_export]\nmacro_rules! unpack {\n    ($e:expr) => { $crate::f($e) };\n}\n",
        "macro_rules! unpack {
    ($e:expr) => { $crate::erased::apfloat_base::f($e) };
} pub(crate) use unpack;
",
    );
    stays("fn f(b: u8) -> bool { matches!(b, b'0'..=b'9') }\n");
    becomes(
        "macro_rules! debug_assert { () => {} }\nfn f() { prove!(a); debug_assert!() }\n",
        "macro_rules! debug_assert { () => {} }\nfn f() { ::core::debug_assert!(a); debug_assert!() }\n",
    );
    stays("macro_rules! one {\n    () => { 1 };\n}\nfn f() -> u8 { one!() }\n");
    stays("fn f() -> u8 { unreachable!() }\n");
    stays(
        "macro_rules! each {
    ($taker:ident($($given:tt)*)) => { $taker! { ($($given)*) A B } };
}
macro_rules! first {
    (($of:expr) $($name:ident)*) => { $of };
}
fn f(x: u8) -> u8 { each!(first(x)) }
",
    );
    stays("bitflag_items! {\n    impl S: u8 {\n        /// None.\n        const OK = 0x00;\n    }\n}\n");
}

/// The texts in `refused`, which says what its columns are.
#[test]
fn unknown_forms_are_refused() {
    for row in include_str!("refused").lines().filter(|row| !row.is_empty() && !row.starts_with('#')) {
        let [line, why, text] = row.split('\t').collect::<Vec<_>>()[..] else { panic!("not three columns: {row}") };
        is_refused(&text.replace(r"\n", "\n"), line.parse().unwrap(), why);
    }
}

#[test]
fn ranges_without_an_end_are_refused() {
    for text in [
        "for i in a[0].. {}",
        "for c in 'a'.. {}",
        "for i in {3}.. {}",
        "for i in g()?.. {}",
        "let r = 0..;",
        "let r = P { a: 0.. };",
        "g(0.., 1);",
        "for r in [0..] {}",
        "if let [0..] = a {}",
        "match b { 5.. => {} _ => {} }",
        "match b { 5.. | 3 => {} _ => {} }",
    ] {
        is_refused(&format!("fn f() {{\n    {text}\n}}\n"), 2, "a range without an end");
    }
    stays("fn f(a: &[u8]) { g(&a[1..], &a[..1], &a[..], a.b()[h(1)..], a[0][1..]) }\n");
    stays("fn f(a: &[u8]) { match a { [.., b] | [b, ..] | [b, .., 1..=2] => {} P { x, .. } => {} } }\n");
    stays("fn f(x: Option<u8>) { let Some(..) = x else { return; }; }\n");
}

#[test]
fn a_refusal_names_the_file_and_the_line() {
    let refusal = erase_text("fn f() {}\nunsafe fn g() {}\n", "apfloat_base").unwrap_err();
    assert_eq!(refusal.to_string(), "apfloat_base:2: `unsafe`: unsafe code");
}

#[test]
fn ends_of_lines_may_be_those_of_windows() {
    let erased = erase_text("fn f()\r\n    ensures { 1 }\r\n{}\r\n", "apfloat_base").unwrap();
    assert_eq!(erased, "fn f()\n{}\n");
    is_refused("fn f() {}\r", 1, "the character '\\r'");
}

#[test]
fn programs_have_the_standard_library() {
    let text = "use std::io;\nuse std::io::{ErrorKind, Write};\npub static KNOWN: &[&str] = &[\"a\"];\n\
        fn f<W: Write>(words: &[String], out: &mut W) -> io::Result<()> {\n    writeln!(out, \"{}\", words.len())\n}\n";
    assert_eq!(erase_text(text, "commands").unwrap(), text);
    is_refused(text, 1, "`std::io` is not known");
    for (text, why) in [
        ("fn f(rt: HostRuntime) {}\n", "a handle of the runtime"),
        ("use std::fs;\n", "`std::fs` is not known"),
        ("fn f() {\n    println!()\n}\n", "the macro `println!`"),
        ("fn f(x: Box<u8>) {}\n", "is passed its allocator"),
    ] {
        let refusal = erase_text(text, "commands").unwrap_err();
        assert!(refusal.why.contains(why), "{refusal}");
    }
}
