//! How a verb ends.

use std::io;

/// A verb that came to its end: all was done, or something was refused or not read on the way.
#[derive(Clone, Copy, Debug, PartialEq, Eq)]
pub enum Verdict {
    Done,
    Refused,
}

impl Verdict {
    /// Refused if either is.
    pub fn and(self, other: Verdict) -> Verdict {
        if self == Verdict::Done {
            other
        } else {
            self
        }
    }

    /// The verdict on what the library answered by a number.
    pub fn of(number: u8) -> Verdict {
        if number == tarnflaw::ACCEPTED {
            Verdict::Done
        } else {
            Verdict::Refused
        }
    }
}

/// A verb that could not go on: wrong usage or unreadable input, with what is said of it; or nobody reads its output.
#[derive(Debug)]
pub enum Stop {
    Wrong(String),
    Closed,
}

/// What comes of a verb.
pub type Ended = Result<Verdict, Stop>;

impl From<io::Error> for Stop {
    /// A write that failed.
    fn from(error: io::Error) -> Stop {
        if error.kind() == io::ErrorKind::BrokenPipe {
            Stop::Closed
        } else {
            Stop::Wrong(format!("tarnflaw: the output cannot be written: {error}"))
        }
    }
}

/// A stop with what is said of it.
pub fn wrong<T>(said: String) -> Result<T, Stop> {
    Err(Stop::Wrong(said))
}
