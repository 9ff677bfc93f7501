//! `tarnflaw run`: the program's line for each request, and the sentence behind it.

use crate::arguments::Arguments;
use crate::controller::Controller;
use crate::decode::put_bytes;
use crate::explain::{accepted, refused};
use crate::output::unwritable;
use crate::progress::Progress;
use crate::requests::{Put, Requests};
use crate::stop::{wrong, Ended, Stop, Verdict};
use std::fs::File;
use std::io::{self, BufWriter, Write};
use tarnflaw::{Change, ACCEPTED};

/// `tarnflaw run [FILE]`
pub fn verb(arguments: &Arguments) -> Ended {
    let mut requests = Requests::open(&arguments.file()?)?;
    let answers = arguments.value("--answers").map(Archive::open).transpose()?;
    let explain = arguments.has("--explain");
    let mut run = Run { controller: Controller::empty(), verdict: Verdict::Done, answers };
    let mut output = BufWriter::with_capacity(1 << 16, io::stdout().lock());
    let mut progress = Progress::begin();
    let bad = loop {
        if requests.waits() {
            output.flush()?;
        }
        match requests.next()? {
            Put::Request(request, at) => {
                let told = run.put(request, &mut output)?;
                if explain {
                    let request = request.to_vec();
                    let why = sentence(&run.controller, &requests, &request, at, told);
                    writeln!(output, "  {why}")?;
                }
            }
            Put::End => break None,
            Put::BadFrame(said) => break Some(said),
        }
        progress.tell(run.controller.ordinal);
    };
    if bad.is_some() {
        output.write_all(b"bad frame\n")?;
    }
    output.flush()?;
    run.answers.map_or(Ok(()), Archive::finish)?;
    bad.map_or(Ok(run.verdict), wrong)
}

/// A run up to here.
struct Run {
    controller: Controller,
    verdict: Verdict,
    answers: Option<Archive>,
}

impl Run {
    /// Puts a request, writes its line, and archives its answer.
    fn put(&mut self, request: &[u8], output: &mut impl Write) -> Result<Change, Stop> {
        let told = self.controller.put(request);
        self.verdict = self.verdict.and(Verdict::of(told.number));
        let length = self.controller.length(told) as u64;
        let (place, tries) = (told.place as u64, told.tries.into());
        let mut line = Line::new();
        for figure in [self.controller.ordinal, told.number.into(), place, tries, length] {
            line.put(figure);
        }
        output.write_all(line.text())?;
        if let (Some(answers), ACCEPTED) = (&mut self.answers, told.number) {
            answers.put(self.controller.answer(told))?;
        }
        Ok(told)
    }
}

/// A file of answer records, a line of bytes each.
struct Archive {
    name: String,
    file: BufWriter<File>,
}

impl Archive {
    /// Begins the file anew.
    fn open(name: &str) -> Result<Archive, Stop> {
        match File::create(name) {
            Ok(file) => Ok(Archive { name: name.to_string(), file: BufWriter::new(file) }),
            Err(error) => wrong(unwritable(name, &error)),
        }
    }

    /// Adds a record.
    fn put(&mut self, record: &[u8]) -> Result<(), Stop> {
        let mut line = String::new();
        put_bytes(&mut line, "bytes", record);
        self.file.write_all(line.as_bytes()).or_else(|error| wrong(unwritable(&self.name, &error)))
    }

    /// Ends the file.
    fn finish(mut self) -> Result<(), Stop> {
        self.file.flush().or_else(|error| wrong(unwritable(&self.name, &error)))
    }
}

/// The sentence behind the line of a request that was put.
pub fn sentence(
    controller: &Controller,
    requests: &Requests,
    request: &[u8],
    at: u64,
    told: Change,
) -> String {
    if told.number == ACCEPTED {
        accepted(&controller.image)
    } else {
        refused(&controller.image, request, told, |byte, field| requests.place(at, byte, field))
    }
}

/// The program's line: figures one space apart, each of at most 20 digits.
struct Line {
    bytes: [u8; 5 * 21],
    end: usize,
}

impl Line {
    /// A line without a figure.
    fn new() -> Line {
        Line { bytes: [0; 5 * 21], end: 0 }
    }

    /// Adds a figure in decimal digits, and a space.
    fn put(&mut self, figure: u64) {
        let size = 1 + figure.checked_ilog10().unwrap_or(0) as usize;
        let mut left = figure;
        for digit in self.bytes[self.end..self.end + size].iter_mut().rev() {
            *digit = b'0' + (left % 10) as u8;
            left /= 10;
        }
        self.bytes[self.end + size] = b' ';
        self.end += size + 1;
    }

    /// The line, its last space a line feed.
    fn text(&mut self) -> &[u8] {
        self.bytes[self.end - 1] = b'\n';
        &self.bytes[..self.end]
    }
}
