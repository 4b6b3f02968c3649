//! The counts of agreeing and differing rows, by call and format.

use std::collections::{HashMap, TryReserveError};
use std::io::{self, Write};

/// The counts by call and format, in the order in which these first occur.
pub struct Summary {
    groups: Vec<Group>,
    // The group of the last row, which is tried first for the next one.
    last: usize,
    // The index of the group of each call and format, by both with a tab between them.
    places: HashMap<String, usize>,
}

/// The rows of a call in a format.
struct Group {
    call: String,
    format: String,
    agreeing: u64,
    differing: u64,
}

impl Summary {
    /// No rows yet.
    pub fn new() -> Summary {
        Summary { groups: Vec::new(), last: 0, places: HashMap::new() }
    }

    /// Counts a row.
    pub fn count_row(&mut self, text: &str, is_agreeing: bool) -> Result<(), TryReserveError> {
        let (call, format) = names_of(text);
        self.count(call, format, is_agreeing)
    }

    /// Counts a row of a call in a format.
    pub fn count(&mut self, call: &str, format: &str, is_agreeing: bool) -> Result<(), TryReserveError> {
        if !self.groups.get(self.last).is_some_and(|group| group.is_of(call, format)) {
            self.last = self.place_of(call, format)?;
        }
        self.groups[self.last].count(is_agreeing);
        Ok(())
    }

    /// The index of the group of a call in a format, which is added if it does not exist.
    fn place_of(&mut self, call: &str, format: &str) -> Result<usize, TryReserveError> {
        let name = joined(&[call, "\t", format])?;
        if let Some(place) = self.places.get(&name) {
            return Ok(*place);
        }
        let place = self.groups.len();
        self.groups.try_reserve(1)?;
        self.places.try_reserve(1)?;
        self.groups.push(Group::new(call, format)?);
        self.places.insert(name, place);
        Ok(place)
    }

    /// Writes a line for each group.
    pub fn write(&self, out: &mut impl Write) -> io::Result<()> {
        for Group { call, format, agreeing, differing } in &self.groups {
            writeln!(out, "{call}\t{format}\t{agreeing} agree, {differing} differ")?;
        }
        Ok(())
    }
}

impl Group {
    /// No rows yet of a call in a format.
    fn new(call: &str, format: &str) -> Result<Group, TryReserveError> {
        Ok(Group { call: joined(&[call])?, format: joined(&[format])?, agreeing: 0, differing: 0 })
    }

    /// Counts a row.
    fn count(&mut self, is_agreeing: bool) {
        if is_agreeing {
            self.agreeing += 1;
        } else {
            self.differing += 1;
        }
    }

    /// Whether this is the group of a call in a format.
    fn is_of(&self, call: &str, format: &str) -> bool {
        self.call == call && self.format == format
    }
}

/// The parts of a text, one after another. The input decides how long it is, so memory may be refused.
fn joined(parts: &[&str]) -> Result<String, TryReserveError> {
    let mut text = String::new();
    for part in parts {
        text.try_reserve(part.len())?;
        text.push_str(part);
    }
    Ok(text)
}

/// The call and the format of a row: its first two columns, or the second word of a command and the first.
fn names_of(text: &str) -> (&str, &str) {
    let (first, others) = text.split_once('\t').unwrap_or((text, ""));
    if let Some((second, _)) = others.split_once('\t') {
        return (first, second);
    }
    let (format, words) = first.split_once(' ').unwrap_or((first, ""));
    let (call, _) = words.split_once(' ').unwrap_or((words, ""));
    (call, format)
}
