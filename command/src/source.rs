//! Where input comes from: a file or standard input, and what its first byte says it is.

use crate::output::complain;
use crate::stop::{wrong, Stop};
use std::fs::File;
use std::io::{self, IsTerminal, Read};

/// The tag of a frame, with which a stream of frames begins; no text begins so.
pub const FRAME_TAG: u8 = 0x40;

/// An input: its name for messages, the bytes that were looked at, and those behind them.
pub struct Source {
    pub name: String,
    looked_at: Vec<u8>,
    behind: Box<dyn Read>,
}

impl Source {
    /// Opens a file, or standard input for `-`.
    pub fn open(name: &str) -> Result<Source, Stop> {
        let behind: Box<dyn Read> = if name == "-" {
            if io::stdin().is_terminal() {
                complain("tarnflaw: reading the terminal, up to its end (Ctrl-D)");
            }
            Box::new(io::stdin().lock())
        } else {
            match File::open(name) {
                Ok(file) => Box::new(file),
                Err(error) => return wrong(format!("{name}: cannot be opened: {error}")),
            }
        };
        let mut source = Source { name: name.to_string(), looked_at: Vec::new(), behind };
        source.look()?;
        Ok(source)
    }

    /// Looks at the first byte.
    fn look(&mut self) -> Result<(), Stop> {
        let mut first = Vec::new();
        match self.behind.by_ref().take(1).read_to_end(&mut first) {
            Ok(_) => self.looked_at = first,
            Err(error) => return wrong(unreadable(&self.name, &error)),
        }
        Ok(())
    }

    /// The first byte, if there is one.
    pub fn first(&self) -> Option<u8> {
        self.looked_at.first().copied()
    }

    /// All bytes.
    pub fn whole(mut self) -> Result<Vec<u8>, Stop> {
        match self.behind.read_to_end(&mut self.looked_at) {
            Ok(_) => Ok(self.looked_at),
            Err(error) => wrong(unreadable(&self.name, &error)),
        }
    }
}

impl Read for Source {
    fn read(&mut self, into: &mut [u8]) -> io::Result<usize> {
        if self.looked_at.is_empty() || into.is_empty() {
            return self.behind.read(into);
        }
        into[0] = self.looked_at.remove(0);
        Ok(1)
    }
}

/// What is said of an input that cannot be read on.
pub fn unreadable(name: &str, error: &io::Error) -> String {
    format!("{name}: cannot be read: {error}")
}
