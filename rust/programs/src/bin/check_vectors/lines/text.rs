//! Short texts that need no allocation.

use std::fmt::{Debug, Write};
use std::{fmt, str};

/// A text of at most 128 bytes, which has room for the `Debug` output of each type and for every refusal.
#[derive(Clone, Copy)]
pub struct Text {
    bytes: [u8; 128],
    length: usize,
}

impl Text {
    /// A copy of a text that fits.
    pub fn of(text: &str) -> Text {
        let (bytes, length) = ([0; 128], 0);
        let mut copy = Text { bytes, length };
        let _ = copy.write_str(text);
        copy
    }

    /// A copy of a text, if it fits.
    pub fn whole(text: &str) -> Option<Text> {
        let mut copy = Text::of("");
        match copy.write_str(text) {
            Ok(()) => Some(copy),
            Err(_) => None,
        }
    }

    /// The concatenation of texts that fit together.
    pub fn of_parts(parts: &[&str]) -> Text {
        let mut text = Text::of("");
        for part in parts {
            let _ = text.write_str(part);
        }
        text
    }

    /// The bytes of the text.
    pub fn as_bytes(&self) -> &[u8] {
        &self.bytes[..self.length.min(128)]
    }

    /// The text.
    pub fn as_str(&self) -> &str {
        str::from_utf8(self.as_bytes()).unwrap_or("")
    }
}

impl fmt::Write for Text {
    fn write_str(&mut self, text: &str) -> fmt::Result {
        for byte in text.as_bytes() {
            if self.length >= 128 {
                return Err(fmt::Error);
            }
            self.bytes[self.length] = *byte;
            self.length += 1;
        }
        Ok(())
    }
}

/// The text that `Debug` shows.
pub fn shown<T: Debug + Copy>(x: T) -> Text {
    let mut text = Text::of("");
    let _ = write!(text, "{x:?}");
    text
}
