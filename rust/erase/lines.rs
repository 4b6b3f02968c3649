//! The erased text as lines: one of which nothing is left goes, and blank ones stand alone.

/// The lines that are written so far.
pub(crate) struct Lines {
    text: String,
    /// The last line, which has not ended.
    line: String,
    /// Whether something of the last line is left out.
    is_cut: bool,
    /// Whether a blank line stands before the last line.
    after_blank: bool,
    /// Whether a line before the last one, and after the one that is written last, is left out.
    after_cut: bool,
}

impl Lines {
    pub fn new(size: usize) -> Lines {
        let text = String::with_capacity(size);
        Lines { text, line: String::new(), is_cut: false, after_blank: false, after_cut: false }
    }

    /// Writes a text as it is; it may have ends of lines, in a string or a comment.
    pub fn write(&mut self, text: &str) {
        self.line.push_str(text);
    }

    /// Notes that something is left out here.
    pub fn leave_out(&mut self) {
        self.is_cut = true;
    }

    /// Writes white space between two parts.
    pub fn space(&mut self, text: &str) {
        let mut lines = text.split('\n');
        let first = lines.next().unwrap_or("");
        // What is left out leaves one of the two spaces around it.
        if !self.is_cut || !(self.line.is_empty() || self.line.ends_with(' ')) {
            self.line.push_str(first);
        }
        for line in lines {
            self.end_line();
            self.line.push_str(line);
        }
    }

    fn end_line(&mut self) {
        self.write_line();
        self.line.clear();
        self.is_cut = false;
    }

    /// Writes the last line, if something is left of it, and before it the blank line that waits.
    fn write_line(&mut self) {
        if self.line.trim().is_empty() {
            let is_cut = std::mem::take(&mut self.is_cut);
            self.after_cut |= is_cut;
            self.after_blank |= !is_cut;
            return;
        }
        let is_at_bracket = self.text.ends_with("{\n") || self.line.trim_start().starts_with('}');
        if self.after_blank && !self.text.is_empty() && !(self.after_cut && is_at_bracket) {
            self.text.push('\n');
        }
        (self.after_blank, self.after_cut) = (false, false);
        self.text.push_str(if self.is_cut { self.line.trim_end() } else { &self.line });
        self.text.push('\n');
    }

    /// The text.
    pub fn text(mut self) -> String {
        let is_open = !self.line.trim().is_empty();
        self.write_line();
        if is_open {
            self.text.pop();
        }
        self.text
    }
}
