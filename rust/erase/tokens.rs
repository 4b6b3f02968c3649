//! A text as tokens. Clauses, which have words and characters of their own, are one token each.

use super::refusal::Fault;

/// What a token is.
#[derive(Clone, Copy, Debug, PartialEq, Eq)]
pub(crate) enum Kind {
    /// White space.
    Space,
    /// A comment, `//` or `/* */`, also one that documents an item.
    Comment,
    /// A name or a keyword.
    Word,
    /// A lifetime or a label: `'a`.
    Lifetime,
    /// A character or a byte: `'a'`, `b'a'`.
    Char,
    /// A string of any form: `".."`, `r".."`, `b".."`, `c".."`.
    Text,
    /// A number.
    Number,
    /// One punctuation character; `::`, `..` and `->` are one mark each.
    Mark,
    /// A clause or a ghost item's content: a text of the logic, between braces or up to a semicolon.
    Clause,
}

/// A part of the text.
#[derive(Clone, Copy, Debug)]
pub(crate) struct Token<'a> {
    pub kind: Kind,
    pub text: &'a str,
    pub line: usize,
}

/// The characters beyond ASCII that a clause may have.
const LOGIC: &str = "◌≡≢≤×→↔λℕℤ∷⊎⊤⊥«»⟦⟧";

/// The words after which the text is one of the logic, until it is over.
const CLAUSES: [&str; 2] = ["requires", "ensures"];

/// The tokens of a text, without a gap.
pub(crate) fn tokens(text: &str) -> Result<Vec<Token<'_>>, Fault> {
    let mut reader = Reader { text, at: 0, line: 1, tokens: Vec::new() };
    while reader.at < text.len() {
        reader.step()?;
    }
    Ok(reader.tokens)
}

struct Reader<'a> {
    text: &'a str,
    at: usize,
    line: usize,
    tokens: Vec<Token<'a>>,
}

fn begins_word(c: char) -> bool {
    c.is_ascii_alphabetic() || c == '_'
}

fn is_of_word(c: char) -> bool {
    c.is_ascii_alphanumeric() || c == '_'
}

impl<'a> Reader<'a> {
    fn rest(&self) -> &'a str {
        &self.text[self.at..]
    }

    /// Takes so many bytes as a token.
    fn take(&mut self, kind: Kind, length: usize) {
        let text = &self.rest()[..length];
        self.tokens.push(Token { kind, text, line: self.line });
        self.line += text.matches('\n').count();
        self.at += length;
    }

    fn fault<T>(&self, why: impl Into<String>) -> Result<T, Fault> {
        Fault::new(self.line, why)
    }

    fn step(&mut self) -> Result<(), Fault> {
        let rest = self.rest();
        let first = rest.chars().next().unwrap_or(' ');
        let second = rest.chars().nth(1).unwrap_or(' ');
        if matches!(first, ' ' | '\n' | '\t') {
            self.take(Kind::Space, length_while(rest, |c| matches!(c, ' ' | '\n' | '\t')));
        } else if rest.starts_with("//") {
            self.take(Kind::Comment, rest.find('\n').unwrap_or(rest.len()));
        } else if rest.starts_with("/*") {
            let length = self.block_comment()?;
            self.take(Kind::Comment, length);
        } else if let Some(length) = self.string()? {
            self.take(Kind::Text, length);
        } else if first == '\'' || rest.starts_with("b'") {
            self.quote()?;
        } else if begins_word(first) {
            if rest.starts_with("r#") {
                return self.fault("a raw name");
            }
            let length = length_while(rest, is_of_word);
            let word = &rest[..length];
            self.take(Kind::Word, length);
            if CLAUSES.contains(&word) {
                self.clause(word)?;
            } else if word == "ghost" {
                self.ghost()?;
            }
        } else if first.is_ascii_digit() {
            self.take(Kind::Number, number(rest));
        } else if ["::", "..", "->", "=>"].iter().any(|mark| rest.starts_with(mark)) {
            self.take(Kind::Mark, 2);
        } else if first.is_ascii_punctuation() && !matches!(first, '\\' | '`') {
            self.take(Kind::Mark, 1);
        } else {
            return self.fault(format!("the character {first:?} (before {second:?}) outside a clause"));
        }
        Ok(())
    }

    fn block_comment(&self) -> Result<usize, Fault> {
        let (rest, mut depth, mut at) = (self.rest(), 0, 0);
        loop {
            if rest[at..].starts_with("/*") {
                (depth, at) = (depth + 1, at + 2);
            } else if rest[at..].starts_with("*/") {
                (depth, at) = (depth - 1, at + 2);
                if depth == 0 {
                    return Ok(at);
                }
            } else {
                match rest[at..].chars().next() {
                    Some(c) => at += c.len_utf8(),
                    None => return self.fault("a comment without its end"),
                }
            }
        }
    }

    /// The length of the string that begins here, if one does.
    fn string(&self) -> Result<Option<usize>, Fault> {
        let rest = self.rest();
        let prefix = length_while(rest, |c| matches!(c, 'b' | 'c' | 'r'));
        if !matches!(&rest[..prefix], "" | "b" | "c" | "r" | "br" | "cr") {
            return Ok(None);
        }
        let raw = rest[..prefix].ends_with('r');
        let hashes = if raw { length_while(&rest[prefix..], |c| c == '#') } else { 0 };
        let mut at = prefix + hashes;
        if !rest[at..].starts_with('"') {
            return Ok(None);
        }
        at += 1;
        let end = format!("\"{}", "#".repeat(hashes));
        loop {
            if rest[at..].starts_with(&end) {
                return Ok(Some(at + end.len()));
            }
            let mut following = rest[at..].chars();
            match following.next() {
                Some('\\') if !raw => {
                    at += 1 + following.next().map_or(0, char::len_utf8);
                }
                Some(c) => at += c.len_utf8(),
                None => return self.fault("a string without its end"),
            }
        }
    }

    /// A character, a byte, a lifetime or a label.
    fn quote(&mut self) -> Result<(), Fault> {
        let rest = self.rest();
        let start = rest.find('\'').unwrap_or(0) + 1;
        let mut following = rest[start..].chars();
        match (following.next(), following.next()) {
            (Some('\\'), Some(escaped)) => {
                // The escaped character may be a quote.
                let at = start + 1 + escaped.len_utf8();
                match rest[at..].find('\'') {
                    Some(end) if end <= 10 => self.take(Kind::Char, at + end + 1),
                    _ => return self.fault("a character without its end"),
                }
            }
            (Some(c), Some('\'')) if c != '\'' && c != '\n' => self.take(Kind::Char, start + c.len_utf8() + 1),
            (Some(c), _) if begins_word(c) && start == 1 => {
                self.take(Kind::Lifetime, 1 + length_while(&rest[1..], is_of_word));
            }
            _ => return self.fault("a quote that begins neither a character nor a lifetime"),
        }
        Ok(())
    }

    fn spaces(&mut self) {
        let length = length_while(self.rest(), |c| matches!(c, ' ' | '\n' | '\t'));
        if length > 0 {
            self.take(Kind::Space, length);
        }
    }

    fn word(&mut self) -> Option<&'a str> {
        let rest = self.rest();
        let length = length_while(rest, is_of_word);
        if length == 0 || !rest.starts_with(begins_word) {
            return None;
        }
        self.take(Kind::Word, length);
        Some(&rest[..length])
    }

    /// `requires {..}`, `requires name {..}`, `requires* {..}`, `requires* name {..}`, and so with `ensures`.
    fn clause(&mut self, word: &str) -> Result<(), Fault> {
        if self.rest().starts_with('*') {
            self.take(Kind::Mark, 1);
        }
        self.spaces();
        self.word();
        self.spaces();
        self.braces(&format!("`{word}`"))
    }

    /// `ghost use ..;`, `ghost name = {..}`, `ghost name: {..}`, `ghost name: {..} = {..}`.
    fn ghost(&mut self) -> Result<(), Fault> {
        self.spaces();
        let Some(name) = self.word() else {
            return self.fault("`ghost` without a name");
        };
        if name == "use" {
            let length = self.logic(";")?;
            self.take(Kind::Clause, length);
            return Ok(());
        }
        for sign in [":", "="] {
            self.spaces();
            if self.rest().starts_with(sign) {
                self.take(Kind::Mark, 1);
                self.spaces();
                self.braces(&format!("`ghost {name}`"))?;
            }
        }
        Ok(())
    }

    /// A text of the logic in braces.
    fn braces(&mut self, of: &str) -> Result<(), Fault> {
        if !self.rest().starts_with('{') {
            return self.fault(format!("{of} without its braces"));
        }
        let length = self.logic("")?;
        if self.rest()[1..length - 1].trim().is_empty() {
            return self.fault(format!("{of} with nothing in its braces"));
        }
        self.take(Kind::Clause, length);
        Ok(())
    }

    /// The length of a text of the logic: a bracket with all in it, or, with an `end`, all before that outside of
    /// brackets. A string in it may have any character, but a backslash only before an `n`; comments and single quotes
    /// are not known.
    fn logic(&self, end: &str) -> Result<usize, Fault> {
        let rest = self.rest();
        let mut open = Vec::new();
        let mut at = 0;
        let line_at = |at: usize| self.line + rest[..at].matches('\n').count();
        while at < rest.len() {
            let c = rest[at..].chars().next().unwrap_or(' ');
            if open.is_empty() && !end.is_empty() && rest[at..].starts_with(end) {
                return Ok(at);
            }
            match c {
                '(' | '[' | '{' => open.push(c),
                ')' | ']' | '}' => {
                    let partner = open.pop();
                    if !matches!((partner, c), (Some('('), ')') | (Some('['), ']') | (Some('{'), '}')) {
                        return Fault::new(line_at(at), format!("`{c}` closes no bracket of a clause"));
                    }
                    if open.is_empty() && end.is_empty() {
                        return Ok(at + 1);
                    }
                }
                '"' => match string_length(&rest[at..]) {
                    Some(length) => at += length - 1,
                    None => return Fault::new(line_at(at), "a string of an unknown form in a clause"),
                },
                '\'' | '\\' | '`' | '\r' => {
                    return Fault::new(line_at(at), format!("the character {c:?} in a clause"));
                }
                _ if rest[at..].starts_with("//") || rest[at..].starts_with("--") || rest[at..].starts_with("/*") => {
                    return Fault::new(line_at(at), "a comment in a clause");
                }
                _ if c.is_ascii() || LOGIC.contains(c) => {}
                _ => return Fault::new(line_at(at), format!("the character {c:?} in a clause")),
            }
            at += c.len_utf8();
        }
        self.fault("a clause without its end")
    }
}

/// The length of the string of the logic that a text begins with, with its quotes. Its only escape is `\n`.
fn string_length(text: &str) -> Option<usize> {
    let mut end = 1;
    loop {
        end += text[end..].find(['"', '\\', '\n'])?;
        match text.as_bytes()[end] {
            b'"' => return Some(end + 1),
            b'\\' if text[end..].starts_with("\\n") => end += 2,
            _ => return None,
        }
    }
}

fn length_while(text: &str, fits: impl Fn(char) -> bool) -> usize {
    text.find(|c| !fits(c)).unwrap_or(text.len())
}

/// The length of the number at the start of a text: `12`, `0x1f_u8`, `1.5`, `1e-3`, the `1` of `1..2` and `1.max(2)`.
fn number(text: &str) -> usize {
    let mut length = length_while(text, is_of_word);
    if text[length..].starts_with('.') && text[length + 1..].starts_with(|c: char| c.is_ascii_digit()) {
        length += 1;
        length += length_while(&text[length..], is_of_word);
    }
    let is_decimal = !text.starts_with("0x") && !text.starts_with("0b") && !text.starts_with("0o");
    if is_decimal && text[..length].ends_with(['e', 'E']) && text[length..].starts_with(['+', '-']) {
        length += 1;
        length += length_while(&text[length..], is_of_word);
    }
    length
}
