//! Rows of commands: the reply that the program `vectors` gives is compared with that of the row.

use crate::erased::commands::{agrees, bits_of, run};
use crate::erased::formats_at_run_time::{CommandKind, mode_named};
use crate::erased::rustc_apfloat::Flags;
use crate::lines::answer::status_named;
use crate::lines::fault::width_of;
use crate::lines::row_error::{RowError, bits_error};
use crate::lines::widths::mask;
use std::collections::TryReserveError;
use std::str;

/// The form of a reply, for messages.
const REPLY: &str = "bits and flags, as `5f40 OK`, or `refused: ` and a word";

/// The formats of commands.
const FORMATS: &str = "half, single, double, quad, bfloat, e5m2, e4m3fn, e4m3fnuz, x87 or dd";

/// The modes of commands.
const MODES: &str = "even, up, down, zero or away";

/// The number of words that are looked at: one more than a command has.
const WORDS: usize = 7;

/// More bytes than a reply has beside a word that it refuses.
const REPLY_ROOM: usize = 128;

/// A command and its reply.
#[derive(Clone, Copy)]
pub struct CommandRow<'a> {
    /// The words of the command, separated by single spaces; an empty one is written `""`.
    pub command: &'a str,
    /// The expected reply.
    pub reply: &'a str,
}

impl<'a> CommandRow<'a> {
    /// What is wrong with the row, if its reply is malformed, or if the reply is a result although the format or the
    /// mode does not exist.
    pub fn fault(self) -> Option<RowError<'a>> {
        if self.reply.starts_with("refused: ") {
            return None;
        }
        if result_of(self.reply).is_none() {
            return Some(RowError::Word("no reply", self.reply, REPLY));
        }
        match self.command.split_once(' ') {
            Some((format, _)) if CommandKind::named(format).is_none() => {
                Some(RowError::Word("no format", format, FORMATS))
            }
            Some((_, words)) => mode_fault(words),
            None => None,
        }
    }

    /// What is wrong with a reply that has more bits than the format of its command.
    pub fn width_fault(self) -> Option<RowError<'a>> {
        let (format, _) = self.command.split_once(' ')?;
        let (bits, _) = self.reply.split_once(' ')?;
        match (width_of(format), bits_of(bits, 128)) {
            (Some(width), Some(number)) if number > mask(width) => Some(bits_error("no reply", bits, width)),
            _ => None,
        }
    }

    /// Whether the program replies to the command as expected.
    pub fn agrees(self) -> bool {
        let mut words = [""; WORDS];
        let mut count = 0;
        for (place, word) in words.iter_mut().zip(self.words()) {
            *place = word;
            count += 1;
        }
        agrees(&words[..count], self.reply)
    }

    /// The reply to the command, with its newline, unless it is the expected one.
    pub fn wrong_reply(self) -> Result<Option<Vec<u8>>, TryReserveError> {
        let mut words = Vec::new();
        for word in self.words() {
            let mut copy = String::new();
            copy.try_reserve(word.len())?;
            copy.push_str(word);
            words.try_reserve(1)?;
            words.push(copy);
        }
        let mut given = Vec::new();
        // The longest reply is a refusal of a word.
        given.try_reserve(REPLY_ROOM + self.command.len())?;
        let mut refusal = Vec::new();
        refusal.try_reserve(REPLY_ROOM + self.command.len())?;
        run(&words, &mut given, &mut refusal);
        given.append(&mut refusal);
        Ok(if has_result(&given, self.reply) { None } else { Some(given) })
    }

    /// The words of the command.
    fn words(self) -> impl Iterator<Item = &'a str> {
        self.command.split(' ').map(|word| if word == "\"\"" { "" } else { word })
    }
}

/// What is wrong with the mode, the second word after the format, if another word follows it.
fn mode_fault(words: &str) -> Option<RowError<'_>> {
    let (_, words) = words.split_once(' ')?;
    match words.split_once(' ') {
        Some((mode, _)) if mode_named(mode).is_none() => Some(RowError::Word("no mode", mode, MODES)),
        _ => None,
    }
}

/// Whether a line of output has the bits and the flags of a reply, however they are written.
fn has_result(line: &[u8], reply: &str) -> bool {
    match (str::from_utf8(line), result_of(reply)) {
        (Ok(line), Some(expected)) => result_of(line.trim_end()) == Some(expected),
        _ => false,
    }
}

/// The bits and the flags of a reply that is not a refusal.
fn result_of(reply: &str) -> Option<(u128, u8)> {
    let (bits, flags) = reply.split_once(' ')?;
    match (bits_of(bits, 128), status_named(flags)) {
        (Some(bits), Some(status)) => Some((bits, status.bits())),
        _ => None,
    }
}
