use std::fmt::{self, Write};

/// A text of at most so many bytes, so that writing allocates nothing.
pub struct Line<const ROOM: usize> {
    pub bytes: [u8; ROOM],
    pub length: usize,
}

impl<const ROOM: usize> Write for Line<ROOM> {
    fn write_str(&mut self, text: &str) -> fmt::Result {
        let end = self.length + text.len();
        let room = self.bytes.get_mut(self.length..end).ok_or(fmt::Error)?;
        room.copy_from_slice(text.as_bytes());
        self.length = end;
        Ok(())
    }
}
