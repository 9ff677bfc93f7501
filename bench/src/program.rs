//! Programs as whole processes on one stream of frames.

use std::fs::File;
use std::io;
use std::process::{Command, ExitStatus, Stdio};
use std::time::Instant;

use crate::timing::{in_turn, Times};

/// A program, its arguments, and the statuses with which it may end.
pub struct Program<'a> {
    pub path: &'a str,
    pub arguments: &'a [&'a str],
    pub ends: &'a [i32],
}

impl Program<'_> {
    /// A program without arguments, which ends with status 0.
    pub fn plain(path: &str) -> Program<'_> {
        Program { path, arguments: &[], ends: &[0] }
    }

    /// The program with a file of frames as its input.
    fn on(&self, frames: &str) -> io::Result<Command> {
        let mut command = Command::new(self.path);
        command.args(self.arguments).stdin(File::open(frames)?);
        Ok(command)
    }

    /// Fails where the program ended otherwise than it may.
    fn ended(&self, status: ExitStatus) -> io::Result<()> {
        match status.code() {
            Some(code) if self.ends.contains(&code) => Ok(()),
            _ => Err(io::Error::other(format!("{} failed", self.path))),
        }
    }

    /// What it prints for a file of frames.
    pub fn lines(&self, frames: &str) -> io::Result<Vec<u8>> {
        let output = self.on(frames)?.output()?;
        self.ended(output.status)?;
        Ok(output.stdout)
    }

    /// The time of one run, its output thrown away, in nanoseconds.
    fn run(&self, frames: &str) -> io::Result<f64> {
        let mut command = self.on(frames)?;
        command.stdout(Stdio::null());
        let start = Instant::now();
        let status = command.status()?;
        let time = start.elapsed().as_nanos() as f64;
        self.ended(status)?;
        Ok(time)
    }
}

/// The times of two programs, in turn, after one run each that warms up.
pub fn times(one: &Program, other: &Program, frames: &str, rounds: usize) -> io::Result<Times> {
    let mut times = Times { library: Vec::new(), port: Vec::new() };
    for round in 0..=rounds {
        let (a, b) = in_turn(round, || one.run(frames), || other.run(frames));
        let (a, b) = (a?, b?);
        if round > 0 {
            times.library.push(a);
            times.port.push(b);
        }
    }
    Ok(times)
}
