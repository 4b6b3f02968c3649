//! One file: its tokens, each kept, left out or replaced.

use super::forms::{
    ATTRIBUTES, Attribute, DERIVED, FMT, MACROS, MACROS_OF_PROGRAMS, MODEL, NUMBERS, OF_LIBRARY, PROVED, REFUSED, STD,
    STD_OF_PROGRAMS, WORDS_OF_PROGRAMS,
};
use super::lines::Lines;
use super::refusal::Fault;
use super::tokens::{Kind, Token, tokens};
use std::collections::HashMap;

/// A file without its contracts.
#[derive(Debug, PartialEq, Eq)]
pub(crate) struct Erased {
    /// The text. A line of which nothing is left is left out too.
    pub text: String,
    /// The modules that it declares in files of their own.
    pub modules: Vec<String>,
    /// The macros that it exports.
    pub macros: Vec<String>,
}

/// Where a file belongs.
pub(crate) struct Place<'a> {
    /// The crate's name.
    pub name: &'a str,
    /// The path of the module that has a module for each crate, as `crate::erased`.
    pub root: &'a str,
    /// The names of the crates.
    pub crates: &'a [&'a str],
    /// The modules of this crate that are left out.
    pub without: &'a [&'a str],
    /// Whether the crate is of a program, and has the standard library.
    pub of_program: bool,
}

/// What is between the innermost brackets.
#[derive(Clone, Copy, Debug, PartialEq, Eq)]
enum Within {
    /// Items: the file, an `impl`, a trait.
    Items,
    /// The fields of a struct or the variants of an enum.
    Fields,
    /// Code: the body of a function, the value of a constant.
    Code,
    /// Parentheses and square brackets outside of code.
    Group,
}

/// The file without its contracts.
pub(crate) fn erase(text: &str, place: &Place<'_>) -> Result<Erased, Fault> {
    let tokens = tokens(text)?;
    let seen = (0..tokens.len()).filter(|&i| !matches!(tokens[i].kind, Kind::Space | Kind::Comment)).collect();
    let mut walk = Walk {
        tokens: &tokens,
        seen,
        place,
        replaced: HashMap::new(),
        within: vec![Within::Items],
        signature: None,
        item: "",
        modules: Vec::new(),
        macros: Vec::new(),
        defined: Vec::new(),
        takers: Vec::new(),
        exports: false,
    };
    let mut at = 0;
    while at < walk.seen.len() {
        at = walk.step(at)?;
    }
    if walk.within.len() != 1 {
        return Fault::new(tokens.last().map_or(0, |token| token.line), "a bracket without its end");
    }
    let mut lines = Lines::new(text.len());
    for (i, token) in tokens.iter().enumerate() {
        match walk.replaced.get(&i) {
            Some(new) if new.is_empty() => lines.leave_out(),
            Some(new) => lines.write(new),
            None if token.kind == Kind::Space => lines.space(token.text),
            None => lines.write(token.text),
        }
    }
    Ok(Erased { text: lines.text(), modules: walk.modules, macros: walk.macros })
}

struct Walk<'a, 'p> {
    tokens: &'a [Token<'a>],
    /// The places of all tokens but spaces and comments. A place in the walk is one in this list.
    seen: Vec<usize>,
    place: &'p Place<'p>,
    replaced: HashMap<usize, String>,
    within: Vec<Within>,
    /// In the head of a function: how many brackets are open around it.
    signature: Option<usize>,
    /// The first word of the item that has begun and not ended, or a `pub` before it.
    item: &'a str,
    modules: Vec<String>,
    macros: Vec<String>,
    /// The macros that the file has defined.
    defined: Vec<&'a str>,
    /// Those of them that use a macro which is named first in their arguments.
    takers: Vec<&'a str>,
    /// Whether `#[macro_export]` stands before the item.
    exports: bool,
}

impl<'a> Walk<'a, '_> {
    fn text(&self, at: usize) -> &'a str {
        self.seen.get(at).map_or("", |&i| self.tokens[i].text)
    }

    fn kind(&self, at: usize) -> Option<Kind> {
        self.seen.get(at).map(|&i| self.tokens[i].kind)
    }

    fn before(&self, at: usize) -> &'a str {
        if at == 0 { "" } else { self.text(at - 1) }
    }

    fn is_word(&self, at: usize) -> bool {
        self.kind(at) == Some(Kind::Word)
    }

    fn innermost(&self) -> Within {
        self.within.last().copied().unwrap_or(Within::Items)
    }

    fn fault<T>(&self, at: usize, why: impl Into<String>) -> Result<T, Fault> {
        let last = self.seen.len().saturating_sub(1);
        let line = self.seen.get(at.min(last)).map_or(0, |&i| self.tokens[i].line);
        Fault::new(line, why)
    }

    /// Leaves out what stands from one place up to another.
    fn leave_out(&mut self, from: usize, to: usize) {
        for i in self.seen[from]..=self.seen[to - 1] {
            self.replaced.insert(i, String::new());
        }
    }

    fn is_left_out(&self, i: usize) -> bool {
        self.replaced.get(&i).is_some_and(String::is_empty)
    }

    fn replace(&mut self, at: usize, new: impl Into<String>) {
        self.replaced.insert(self.seen[at], new.into());
    }

    fn append(&mut self, at: usize, more: &str) {
        let i = self.seen[at];
        let new = format!("{}{more}", self.replaced.get(&i).map_or(self.tokens[i].text, |new| new));
        self.replaced.insert(i, new);
    }

    /// The place after the bracket that opens at a place.
    fn after_bracket(&self, at: usize) -> Result<usize, Fault> {
        if !matches!(self.text(at), "(" | "[" | "{") {
            return self.fault(at, "no bracket where one has to open");
        }
        let (mut depth, mut end) = (0usize, at);
        loop {
            match self.text(end) {
                "(" | "[" | "{" => depth += 1,
                ")" | "]" | "}" => depth -= 1,
                "" => return self.fault(at, "a bracket without its end"),
                _ => {}
            }
            end += 1;
            if depth == 0 {
                return Ok(end);
            }
        }
    }

    /// The place after the `<..>` that opens at a place, or that place if none does.
    fn after_generics(&self, at: usize) -> Result<usize, Fault> {
        if self.text(at) != "<" {
            return Ok(at);
        }
        let (mut depth, mut end) = (0usize, at);
        loop {
            match self.text(end) {
                "<" => depth += 1,
                ">" => depth -= 1,
                "" | "{" | "}" | ";" => return self.fault(at, "type parameters of an unknown form"),
                _ => {}
            }
            end += 1;
            if depth == 0 {
                return Ok(end);
            }
        }
    }

    /// The text from one place up to another, without spaces.
    fn joined(&self, from: usize, to: usize) -> String {
        (from..to).map(|at| self.text(at)).collect()
    }

    /// Whether an item, a member or a field can begin here, and the place of its first word, a `pub` included.
    fn beginning(&self, at: usize) -> Option<usize> {
        let mut first = at;
        if self.before(first) == ")" && first >= 4 && self.text(first - 4) == "pub" {
            first -= 4;
        } else if self.before(first) == "pub" {
            first -= 1;
        }
        matches!(self.before(first), "" | ";" | "{" | "}" | "," | "]").then_some(first)
    }

    /// The place where the item begins that has its first word, or its `pub`, at a place, if no attribute that stays
    /// is before it.
    fn beginning_alone(&self, at: usize) -> Option<usize> {
        let first = self.beginning(at)?;
        (self.before(first) != "]" || self.is_left_out(self.seen[first - 1])).then_some(first)
    }

    /// Leaves out the item that begins at a place, with its docs, up to another place.
    fn leave_out_with_docs(&mut self, first: usize, end: usize) {
        self.leave_out(first, end);
        for i in (0..self.seen[first]).rev() {
            let token = self.tokens[i];
            match token.kind {
                Kind::Space => {}
                Kind::Comment if documents(token.text) => {
                    self.replaced.insert(i, String::new());
                }
                Kind::Comment => {}
                _ if self.is_left_out(i) => {}
                _ => break,
            }
        }
    }

    /// Handles what stands at a place, and gives the next one.
    fn step(&mut self, at: usize) -> Result<usize, Fault> {
        match self.kind(at) {
            Some(Kind::Word) => self.step_word(at),
            Some(Kind::Mark) => self.step_mark(at),
            Some(Kind::Clause) => self.fault(at, "a clause in an unknown place"),
            _ => Ok(at + 1),
        }
    }

    fn step_mark(&mut self, at: usize) -> Result<usize, Fault> {
        match self.text(at) {
            "#" => return self.attribute(at),
            "(" | "[" => {
                let within = if self.innermost() == Within::Code { Within::Code } else { Within::Group };
                self.within.push(within);
            }
            "{" => {
                let within = self.brace(at)?;
                self.within.push(within);
                if within == Within::Items {
                    self.item = "";
                }
            }
            ")" | "]" | "}" => {
                if self.within.len() == 1 {
                    return self.fault(at, "a bracket that closes none");
                }
                self.within.pop();
                if self.text(at) == "}" && self.innermost() == Within::Items {
                    self.item = "";
                }
            }
            ";" => {
                if self.signature == Some(self.within.len()) {
                    self.signature = None;
                }
                if self.innermost() == Within::Items {
                    self.item = "";
                }
            }
            ".." => self.range(at)?,
            _ => {}
        }
        Ok(at + 1)
    }

    /// `..`: what begins somewhere has to end, but as an index, where it is a slice. Without a beginning, it stands for
    /// the rest of a pattern.
    fn range(&self, at: usize) -> Result<(), Fault> {
        let begins = !matches!(self.before(at), "" | "(" | "[" | "{" | "," | ";" | "@" | "=" | "=>" | "|" | "&");
        let ends = match self.text(at + 1) {
            "]" => self.is_index(at),
            after => !matches!(after, ")" | "{" | "}" | "," | ";" | "." | "?" | "=>" | "|" | "if" | ""),
        };
        if begins && !ends {
            return self.fault(at, "a range without an end, which ends elsewhere in Rust");
        }
        Ok(())
    }

    /// Whether the innermost brackets around a place are square, and have an index.
    fn is_index(&self, at: usize) -> bool {
        let (mut depth, mut open) = (1usize, at);
        while depth > 0 && open > 0 {
            open -= 1;
            match self.text(open) {
                "(" | "[" | "{" => depth -= 1,
                ")" | "]" | "}" => depth += 1,
                _ => {}
            }
        }
        let of = self.before(open);
        let is_keyword = matches!(of, "in" | "if" | "while" | "match" | "return" | "break" | "else" | "let" | "mut");
        let is_value = open > 0 && self.is_word(open - 1) && !is_keyword || matches!(of, ")" | "]" | "?");
        depth == 0 && self.text(open) == "[" && is_value
    }

    /// What a brace begins.
    fn brace(&mut self, at: usize) -> Result<Within, Fault> {
        if self.signature == Some(self.within.len()) {
            self.signature = None;
            return Ok(Within::Code);
        }
        match (self.innermost(), self.item) {
            (Within::Code, _) => Ok(Within::Code),
            (Within::Items, "impl" | "trait") => Ok(Within::Items),
            (Within::Items, "struct" | "enum") => Ok(Within::Fields),
            (Within::Fields, "enum") => Ok(Within::Fields),
            (Within::Items, "const") => Ok(Within::Code),
            _ => self.fault(at, "a brace that begins no known item"),
        }
    }

    fn step_word(&mut self, at: usize) -> Result<usize, Fault> {
        let word = self.text(at);
        match word {
            "ghost" => return self.ghost(at),
            "requires" | "ensures" if self.signature == Some(self.within.len()) => return self.clause(at),
            "final" if self.text(at + 1) == "fn" => {
                self.leave_out(at, at + 1);
                return Ok(at + 1);
            }
            _ => {}
        }
        self.known_word(at)?;
        if self.is_invocation(at) {
            return self.invocation(at);
        }
        if self.innermost() == Within::Items && matches!(self.item, "" | "pub") {
            return self.begin_item(at);
        }
        if word == "fn" && self.is_word(at + 1) {
            return self.function(at);
        }
        self.path(at)
    }

    /// Refuses the words that stand only in forms that are known.
    fn known_word(&self, at: usize) -> Result<(), Fault> {
        let word = self.text(at);
        match REFUSED.iter().find(|(refused, _)| *refused == word) {
            Some(_) if self.place.of_program && WORDS_OF_PROGRAMS.contains(&word) => Ok(()),
            Some((_, why)) => self.fault(at, format!("`{word}`: {why}")),
            None => Ok(()),
        }
    }

    /// Whether `name!` stands here.
    fn is_invocation(&self, at: usize) -> bool {
        let keyword = matches!(self.text(at), "if" | "while" | "match" | "return" | "in" | "as" | "break");
        !keyword && self.text(at + 1) == "!" && self.text(at + 2) != "="
    }

    /// Whether the macro is the same in both languages, or the file or the library defines it; and so the macro that it
    /// takes first, if it uses one.
    fn known_macro(&self, at: usize) -> Result<(), Fault> {
        let name = self.text(at);
        let is_of_programs = self.place.of_program && MACROS_OF_PROGRAMS.contains(&name);
        if !is_of_programs && !MACROS.contains(&name) && !self.defined.contains(&name) {
            return self.fault(at, format!("the macro `{name}!`"));
        }
        if self.takers.contains(&name) { self.known_macro(at + 3) } else { Ok(()) }
    }

    /// The first word of an item, after a `pub`.
    fn begin_item(&mut self, at: usize) -> Result<usize, Fault> {
        let word = self.text(at);
        self.item = word;
        let exports = if word == "pub" { self.exports } else { std::mem::take(&mut self.exports) };
        self.exports = exports && word == "pub";
        match word {
            "pub" => {
                let visibility = self.text(at + 1) == "(";
                if visibility && !matches!(self.joined(at + 1, at + 4).as_str(), "(crate)" | "(super)") {
                    return self.fault(at, "a visibility of an unknown form");
                }
                Ok(if visibility { at + 4 } else { at + 1 })
            }
            "fn" => self.function(at),
            "const" | "type" | "struct" | "enum" | "trait" => Ok(at + 1),
            "static" if self.text(at + 1) != "mut" => Ok(at + 1),
            "impl" => self.implementation(at),
            "use" => self.import(at),
            "mod" if self.text(at + 2) == ";" && self.place.without.contains(&self.text(at + 1)) => {
                self.leave_out_item(at, at + 3)
            }
            "mod" if self.is_word(at + 1) && self.text(at + 2) == ";" => {
                self.modules.push(self.text(at + 1).to_owned());
                Ok(at + 2)
            }
            _ => self.fault(at, format!("an item that begins with `{word}`")),
        }
    }

    /// `fn name ..`: its head reaches to a brace or a semicolon.
    fn function(&mut self, at: usize) -> Result<usize, Fault> {
        self.signature = Some(self.within.len());
        let (form, rust) = FMT;
        let is_fmt = (0..form.len()).all(|i| self.text(at + i) == form[i]);
        if is_fmt {
            self.leave_out(at, at + form.len());
            self.replace(at, rust);
            return Ok(at + form.len());
        }
        let generics = self.after_generics(at + 2)?;
        if !self.place.of_program && (at..generics).any(|i| self.text(i) == "Write") {
            return self.fault(at, "a function that is generic in what it writes to");
        }
        Ok(at + 1)
    }

    /// `requires {..}` and `ensures {..}`, with or without a star and a name, in the head of a function: left out.
    fn clause(&mut self, at: usize) -> Result<usize, Fault> {
        let mut end = at + 1;
        while self.kind(end) != Some(Kind::Clause) {
            end += 1;
        }
        if !matches!(self.text(end + 1), "requires" | "ensures" | "{" | ";") {
            return self.fault(end, "a clause before neither a clause, nor a body, nor a semicolon");
        }
        self.leave_out(at, end + 1);
        Ok(end + 1)
    }

    /// `ghost use ..;`, `ghost name: {..};`, `ghost name = {..};` among items and members, and `ghost name: {..},`
    /// among fields, each with a `pub` or without: left out, with its doc comment.
    fn ghost(&mut self, at: usize) -> Result<usize, Fault> {
        let within = self.innermost();
        let first = match self.beginning_alone(at) {
            Some(first) if self.signature.is_none() => first,
            _ => return self.fault(at, "`ghost` in an unknown place"),
        };
        let mut end = at + 2;
        while matches!(self.kind(end), Some(Kind::Clause)) || matches!(self.text(end), ":" | "=") {
            end += 1;
        }
        if end == at + 2 {
            return self.fault(at, "`ghost` of an unknown form");
        }
        match (within, self.text(end)) {
            (Within::Items, ";") | (Within::Fields, ",") => end += 1,
            (Within::Fields, "}") => {}
            _ => return self.fault(at, "`ghost` of an unknown form"),
        }
        self.leave_out_with_docs(first, end);
        Ok(end)
    }

    /// `impl ..`; `impl Model for ..` is left out if all its members are ghost members.
    fn implementation(&mut self, at: usize) -> Result<usize, Fault> {
        let name = self.after_generics(at + 1)?;
        if self.text(name) != "Model" {
            // The type parameters may name crates.
            return Ok(at + 1);
        }
        if self.beginning_alone(at) != Some(at) {
            return self.fault(at, "`impl Model` in an unknown place");
        }
        let mut open = name;
        while self.text(open) != "{" {
            if matches!(self.text(open), ";" | "") {
                return self.fault(at, "`impl Model` without its braces");
            }
            open += 1;
        }
        let end = self.after_bracket(open)?;
        let mut member = open + 1;
        self.within.push(Within::Items);
        while member < end - 1 {
            if self.text(member) != "ghost" {
                return self.fault(member, "a member of `impl Model` that is no ghost member");
            }
            member = self.ghost(member)?;
        }
        self.within.pop();
        self.leave_out_with_docs(at, end);
        self.item = "";
        Ok(end)
    }

    /// `name!`: a macro that is known, or the definition of one.
    fn invocation(&mut self, at: usize) -> Result<usize, Fault> {
        let word = self.text(at);
        if let Some((_, rust)) = PROVED.iter().find(|(proved, _)| *proved == word) {
            // `const _: () = prove!(..);` is tested whenever Rust compiles it. The path makes each the one of Rust.
            let in_constant = at >= 6 && self.joined(at - 6, at) == "const_:()=";
            let name = if in_constant { rust.trim_start_matches("debug_") } else { rust };
            self.replace(at, format!("::core::{name}"));
            return Ok(at + 2);
        }
        if word == "macro_rules" {
            if !self.is_word(at + 2) || self.text(at + 3) != "{" {
                return self.fault(at, "`macro_rules!` of an unknown form");
            }
            let name = self.text(at + 2);
            let is_of_both =
                MACROS.contains(&name) && !OF_LIBRARY.contains(&name) || MACROS_OF_PROGRAMS.contains(&name);
            if is_of_both || name == word || PROVED.iter().any(|(proved, _)| *proved == name) {
                return self.fault(at, format!("another macro `{name}!`"));
            }
            let end = self.after_bracket(at + 3)?;
            if self.uses_a_parameter(at + 3, end)? {
                self.takers.push(name);
            }
            self.rules(at + 3, end)?;
            self.defined.push(name);
            if std::mem::take(&mut self.exports) {
                self.append(end - 1, &format!(" pub(crate) use {name};"));
                self.macros.push(name.to_owned());
            }
            return Ok(end);
        }
        self.known_macro(at)?;
        let end = self.after_bracket(at + 2)?;
        if self.innermost() == Within::Items {
            // Items by a macro: its rules are of the crate that exports it.
            self.rules(at + 2, end)?;
            return Ok(end);
        }
        Ok(at + 2)
    }

    /// Whether the rules of a macro use another one that is a parameter, `$name! ..`. There has to be a single rule, and
    /// it has to take that name first: `($name:ident ..`.
    fn uses_a_parameter(&self, open: usize, end: usize) -> Result<bool, Fault> {
        let rules = (open..end).filter(|&at| self.text(at) == "=>").count();
        let is_ident = self.joined(open + 4, open + 6) == ":ident" && matches!(self.text(open + 6), "(" | ",");
        let mut uses = (open..end).filter(|&at| self.is_parameter(at) && self.is_invocation(at)).peekable();
        let uses_one = uses.peek().is_some();
        for at in uses {
            let name = self.text(at);
            if rules != 1 || self.joined(open, open + 4) != format!("{{(${name}") || !is_ident {
                return self.fault(at, format!("the macro `${name}!`, which the only rule does not take first"));
            }
        }
        Ok(uses_one)
    }

    fn is_parameter(&self, at: usize) -> bool {
        self.before(at) == "$" && self.is_word(at)
    }

    /// The rules or the arguments of a macro: nothing is left out, and paths are as elsewhere.
    fn rules(&mut self, from: usize, to: usize) -> Result<(), Fault> {
        let mut at = from;
        while at < to {
            match self.text(at) {
                "ghost" | "requires" | "ensures" => return self.fault(at, "a clause in a macro"),
                ".." => self.range(at)?,
                _ => {}
            }
            if !self.is_word(at) {
                at += 1;
                continue;
            }
            self.known_word(at)?;
            if self.is_invocation(at) && !self.is_parameter(at) {
                self.known_macro(at)?;
            }
            at = self.path(at)?;
        }
        Ok(())
    }

    /// A word that may begin a path: those into the crates and `std` are of the one crate and of `core` from here on.
    fn path(&mut self, at: usize) -> Result<usize, Fault> {
        let word = self.text(at);
        let begins = self.text(at + 1) == "::";
        if begins && matches!(word, "core" | "alloc") || self.before(at) == "::" && word == "std" {
            return self.fault(at, format!("`{word}` in an unknown place"));
        }
        if matches!(self.before(at), "." | "::") {
            return Ok(at + 1);
        }
        match word {
            "std" if begins => {
                let mut path = String::from("std");
                let mut end = at + 1;
                while self.text(end) == "::" && !STD.contains(&path.as_str()) {
                    path = format!("{path}::{}", self.text(end + 1));
                    end += 2;
                }
                if !STD.contains(&path.as_str()) || path == MODEL {
                    return self.fault(at, format!("`{path}` is not known to be the same in Rust"));
                }
                self.replace(at, "::core");
                return Ok(end);
            }
            "crate" if begins => {
                let root = format!("{}::{}", self.place.root, self.place.name);
                self.replace(at, root);
            }
            "crate" if self.joined(at.saturating_sub(2), at + 2) == "pub(crate)" => {}
            "std" | "crate" => return self.fault(at, format!("`{word}` in an unknown place")),
            _ if self.place.crates.contains(&word) => {
                if !begins {
                    return self.fault(at, format!("`{word}`, the name of a crate, in an unknown place"));
                }
                self.replace(at, format!("{}::{word}", self.place.root));
            }
            _ => {}
        }
        Ok(at + 1)
    }

    /// `use ..;`: from a crate, from this one, from a module of the file, or what is known of `std`.
    fn import(&mut self, at: usize) -> Result<usize, Fault> {
        let mut end = at + 1;
        while !matches!(self.text(end), ";" | "") {
            end += 1;
        }
        if end == self.seen.len() {
            return self.fault(at, "`use` without its semicolon");
        }
        self.item = "";
        let first = self.text(at + 1);
        match first {
            "std" if self.joined(at + 1, end) == MODEL => return self.leave_out_item(at, end + 1),
            "std" => self.import_std(at, end)?,
            "crate" if self.text(at + 2) == "::" => {
                self.replace(at + 1, format!("{}::{}", self.place.root, self.place.name));
            }
            "super" | "self" => {}
            _ if self.place.without.contains(&first) => return self.leave_out_item(at, end + 1),
            _ if self.place.crates.contains(&first) => {
                self.replace(at + 1, format!("{}::{first}", self.place.root));
            }
            _ if self.modules.iter().any(|module| module == first) => {}
            _ => return self.fault(at, format!("`use` of `{first}`, which is no crate and no module of the file")),
        }
        if (at + 1..end).any(|i| matches!(self.text(i), "ghost" | "*")) {
            return self.fault(at, "`use` of an unknown form");
        }
        Ok(end + 1)
    }

    /// Leaves out an item from its `pub` on.
    fn leave_out_item(&mut self, at: usize, end: usize) -> Result<usize, Fault> {
        self.item = "";
        let Some(first) = self.beginning_alone(at) else {
            return self.fault(at, "an item that is left out, in an unknown place");
        };
        self.leave_out_with_docs(first, end);
        Ok(end)
    }

    /// `use std::a::b;` and `use std::a::{b, c};`, without `Model`.
    fn import_std(&mut self, at: usize, end: usize) -> Result<(), Fault> {
        let open = (at..end).find(|&i| self.text(i) == "{").unwrap_or(end);
        let base = self.joined(at + 1, open);
        if open == end && !self.is_in_std(&base) {
            return self.fault(at, format!("`{base}` is not known to be the same in Rust"));
        }
        for i in open + 1..end {
            match self.text(i) {
                "," => {}
                "}" if i + 1 == end => {}
                name if self.is_word(i) && self.is_in_std(&format!("{base}{name}")) => {
                    if format!("{base}{name}") == MODEL {
                        let comma = self.text(i + 1) == ",";
                        self.leave_out(i, if comma { i + 2 } else { i + 1 });
                    }
                }
                name => return self.fault(i, format!("`{base}{name}` is not known to be the same in Rust")),
            }
        }
        if !self.place.of_program {
            self.replace(at + 1, "::core");
        }
        Ok(())
    }

    /// Whether an item of `std` is the same in both languages.
    fn is_in_std(&self, path: &str) -> bool {
        STD.contains(&path) || self.place.of_program && STD_OF_PROGRAMS.contains(&path)
    }

    /// `#[..]` and `#![..]`.
    fn attribute(&mut self, at: usize) -> Result<usize, Fault> {
        let open = if self.text(at + 1) == "!" { at + 2 } else { at + 1 };
        if self.text(open) != "[" {
            return self.fault(at, "`#` that begins no attribute");
        }
        let end = self.after_bracket(open)?;
        let text = self.joined(open + 1, end - 1);
        let known = ATTRIBUTES
            .iter()
            .find(|(form, _)| *form == text || form.ends_with('(') && text.starts_with(form) && text.ends_with(')'));
        let inner = open == at + 2;
        match known {
            Some((_, Attribute::Goes)) => {
                self.leave_out(at, end);
            }
            Some(_) if inner => return self.fault(at, format!("the attribute `#![{text}]`")),
            Some((_, Attribute::Stays)) => {}
            Some((_, Attribute::Derives)) => self.derive(at, open, end)?,
            Some((_, Attribute::DerivesBelow)) => self.derive_below(at, end)?,
            Some((_, Attribute::OfStructs)) => {
                let mut item = end;
                while self.text(item) == "#" {
                    item = self.after_bracket(item + 1)?;
                }
                if !matches!((self.text(item), self.text(item + 1)), ("struct", _) | ("pub", "struct")) {
                    return self.fault(at, format!("`#[{text}]` before anything but a struct"));
                }
            }
            Some((_, Attribute::ExportsToC)) => return self.export_to_c(at, end),
            Some((_, Attribute::Exports)) => {
                self.leave_out(at, end);
                self.exports = true;
            }
            Some((_, Attribute::Tests)) => {
                let is_module = self.text(end) == "mod" && self.is_word(end + 1) && self.text(end + 2) == ";";
                if !is_module {
                    return self.fault(at, "`#[cfg(test)]` before anything but `mod name;`");
                }
                self.leave_out_with_docs(at, end + 3);
                return Ok(end + 3);
            }
            None => return self.fault(at, format!("the attribute `#[{text}]`")),
        }
        Ok(end)
    }

    /// `pub extern "C" fn name(parameter: type, ..) -> type` after its attribute: a function of Rust, followed by
    /// `export!` with its head.
    fn export_to_c(&mut self, at: usize, end: usize) -> Result<usize, Fault> {
        let name = end + 4;
        if self.innermost() != Within::Items
            || self.joined(end, name) != "pubextern\"C\"fn"
            || !self.is_word(name)
            || self.text(name + 1) != "("
        {
            return self.fault(at, "`#[unsafe(no_mangle)]` before anything but `pub extern \"C\" fn name(..)`");
        }
        let close = self.after_bracket(name + 1)? - 1;
        let mut parameter = name + 2;
        while parameter < close {
            parameter = self.parameter_from_c(parameter, close)?;
        }
        let returned = close + 2;
        if self.text(close + 1) != "->" || !NUMBERS.contains(&self.text(returned)) {
            return self.fault(close, "a function for C that returns no number");
        }
        let mut open = returned + 1;
        while self.text(open) != "{" {
            if !matches!(self.text(open), "requires" | "ensures" | "*") && !self.is_clause_part(open) {
                return self.fault(open, "a function for C whose head is of an unknown form");
            }
            open += 1;
        }
        let head: Vec<&str> = (end + 3..=returned).map(|at| self.text(at)).collect();
        let export = format!(" {}::export! {{ {} }}", self.place.root, head.join(" "));
        let body_end = self.after_bracket(open)? - 1;
        self.leave_out(at, end);
        self.leave_out(end + 1, end + 3);
        self.append(body_end, &export);
        self.item = "fn";
        self.function(end + 3)
    }

    /// Whether a clause, or its name, stands here.
    fn is_clause_part(&self, at: usize) -> bool {
        self.kind(at) == Some(Kind::Clause) || self.is_word(at) && self.kind(at + 1) == Some(Kind::Clause)
    }

    fn is_name_of_type(&self, at: usize) -> bool {
        self.is_word(at) && self.text(at).starts_with(|c: char| c.is_ascii_uppercase())
    }

    /// A parameter that C can pass: a number or a struct, a place for one of them, or bytes, which are a pointer and a
    /// length there. Gives the place after it.
    fn parameter_from_c(&self, at: usize, close: usize) -> Result<usize, Fault> {
        let mut end = at;
        while end < close && self.text(end) != "," {
            end += 1;
        }
        let given = at + 2;
        let known = match self.joined(given, end).as_str() {
            "&[u8]" | "&mut[u8]" => true,
            _ => {
                let name = if self.joined(given, given + 2) == "&mut" { given + 2 } else { given };
                name + 1 == end && (NUMBERS.contains(&self.text(name)) || self.is_name_of_type(name))
            }
        };
        if !self.is_word(at) || self.text(at + 1) != ":" || !known {
            return self.fault(at, "a parameter that no C program can pass");
        }
        Ok(end + 1)
    }

    /// `#[derive(..)]` without `Drop`.
    fn derive(&mut self, at: usize, open: usize, end: usize) -> Result<(), Fault> {
        let mut kept = Vec::new();
        for i in open + 3..end - 2 {
            match self.text(i) {
                "," | "Drop" => {}
                name if DERIVED.contains(&name) => kept.push(name),
                name => return self.fault(i, format!("`derive({name})`")),
            }
        }
        if kept.is_empty() {
            self.leave_out(at, end);
        } else if (open..end).any(|i| self.text(i) == "Drop") {
            self.leave_out(at, end);
            self.replace(at, format!("#[derive({})]", kept.join(", ")));
        }
        Ok(())
    }

    /// `#[derive_where(Clone, Copy)]` before `struct name<S: Bound, ..> {..}`: both impls, after the closing brace.
    fn derive_below(&mut self, at: usize, end: usize) -> Result<(), Fault> {
        let keyword = match (self.text(end), self.text(end + 1)) {
            ("pub", "(") => self.after_bracket(end + 1)?,
            ("pub", _) => end + 1,
            _ => end,
        };
        let name = keyword + 1;
        let body = self.after_generics(name + 1)?;
        if self.text(keyword) != "struct" || !self.is_word(name) || body == name + 1 || self.text(body) != "{" {
            return self.fault(at, "`derive_where` before an unknown form");
        }
        let (mut bounds, mut names) = (Vec::new(), Vec::new());
        let mut i = name + 2;
        while i < body - 1 {
            let end = if self.kind(i) == Some(Kind::Lifetime) { i + 1 } else { i + 3 };
            let is_bound = end == i + 1 || self.is_word(i) && self.text(i + 1) == ":" && self.is_word(i + 2);
            if !is_bound || !matches!(self.text(end), "," | ">") {
                return self.fault(i, "a type parameter of an unknown form");
            }
            bounds.push(self.joined(i, end).replace(':', ": "));
            names.push(self.text(i));
            i = end + 1;
        }
        let head = format!("impl<{}>", bounds.join(", "));
        let of = format!("{}<{}>", self.text(name), names.join(", "));
        let close = self.after_bracket(body)? - 1;
        self.leave_out(at, end);
        self.append(
            close,
            &format!(
                " {head} ::core::marker::Copy for {of} {{}} \
                 {head} ::core::clone::Clone for {of} {{ fn clone(&self) -> Self {{ *self }} }}"
            ),
        );
        Ok(())
    }
}

/// Whether a comment documents what follows it.
fn documents(comment: &str) -> bool {
    let is_line = comment.starts_with("///") && !comment.starts_with("////");
    is_line || comment.starts_with("/**") && !comment.starts_with("/***") && comment != "/**/"
}
