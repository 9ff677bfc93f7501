//! Where output goes.

use crate::stop::{wrong, Stop};
use std::fs;
use std::io::{self, IsTerminal, Write};

/// Writes a file, or standard output for `-`.
pub fn write_file(name: &str, bytes: &[u8]) -> Result<(), Stop> {
    if name == "-" {
        return print(bytes);
    }
    match fs::write(name, bytes) {
        Ok(()) => Ok(()),
        Err(error) => wrong(unwritable(name, &error)),
    }
}

/// What is said of a file that cannot be written.
pub fn unwritable(name: &str, error: &io::Error) -> String {
    format!("{name}: cannot be written: {error}")
}

/// Writes to standard output.
pub fn print(bytes: &[u8]) -> Result<(), Stop> {
    let mut output = io::stdout().lock();
    output.write_all(bytes)?;
    output.flush()?;
    Ok(())
}

/// Writes bytes that are no text to standard output, unless it is a terminal.
pub fn print_bytes(bytes: &[u8]) -> Result<(), Stop> {
    if io::stdout().is_terminal() {
        return wrong(
            "tarnflaw: the output is bytes and no text: send it to a file or a pipe".to_string(),
        );
    }
    print(bytes)
}

/// Says something on standard error; where nobody hears it, nothing can be done.
pub fn complain(said: &str) {
    let _ = writeln!(io::stderr(), "{said}");
}
