//! How far a long stream is, on standard error, where somebody looks at that and the lines go elsewhere.

use std::io::{self, IsTerminal, Write};
use std::time::{Duration, Instant};

/// Nothing is shown before this.
const PATIENCE: Duration = Duration::from_secs(2);
/// Requests between two looks at the clock.
const STRIDE: u64 = 4096;

/// The progress of a stream.
pub struct Progress {
    shows: bool,
    began: Instant,
    next: Duration,
}

impl Progress {
    /// The progress of a stream that begins now.
    pub fn begin() -> Progress {
        let shows = io::stderr().is_terminal() && !io::stdout().is_terminal();
        Progress { shows, began: Instant::now(), next: PATIENCE }
    }

    /// Tells how many requests have been put, now and then.
    pub fn tell(&mut self, count: u64) {
        if self.shows && count % STRIDE == 0 && self.began.elapsed() >= self.next {
            let _ = write!(io::stderr(), "\r{count} requests");
            self.next = self.began.elapsed() + PATIENCE / 4;
        }
    }
}

impl Drop for Progress {
    /// Takes away what was shown.
    fn drop(&mut self) {
        if self.shows && self.next > PATIENCE {
            let _ = write!(io::stderr(), "\r{:40}\r", "");
        }
    }
}
