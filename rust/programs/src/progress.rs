//! When a long task reports its progress.

use std::time::Instant;

/// Seconds before the first message, and between two of them.
const SECONDS: u64 = 2;

/// The progress messages of a task that may take long.
pub struct Progress {
    start: Option<Instant>,
    due: u64,
}

impl Progress {
    /// The progress messages of a task that begins now; none if they are not shown.
    pub fn new(is_shown: bool) -> Progress {
        Progress { start: is_shown.then(Instant::now), due: SECONDS }
    }

    /// The seconds since the task began, if a message is due, which then counts as written; otherwise none.
    pub fn due(&mut self) -> Option<u64> {
        let seconds = self.start?.elapsed().as_secs();
        if seconds < self.due {
            return None;
        }
        self.due = seconds + SECONDS;
        Some(seconds)
    }
}
