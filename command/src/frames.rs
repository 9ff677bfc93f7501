//! Frames, taken from a stream one by one: a tag, the length of the content in two bytes, the content.

use crate::source::FRAME_TAG;
use std::io::{self, ErrorKind, Read};

/// Bytes of a frame before its content.
pub const HEAD: usize = 3;
/// Bytes that the content of a frame has at most.
pub const LONGEST: usize = 4096;
/// Bytes read at once.
const ROOM: usize = 1 << 16;

/// A stream that is read frame by frame.
pub struct Frames<R> {
    input: R,
    bytes: Vec<u8>,
    from: usize,
    to: usize,
    /// Bytes of the stream before `from`.
    passed: u64,
    /// Bytes of the frame that was told last.
    told: usize,
}

/// What comes next in a stream.
pub enum Next<'a> {
    /// The content of a frame, and the byte of the stream at which the content begins.
    Frame(&'a [u8], u64),
    /// No further frame, and nothing is left over.
    End,
    /// The byte of the stream at which no whole frame begins, and why.
    Bad(u64, String),
}

impl<R: Read> Frames<R> {
    /// The frames of an input.
    pub fn of(input: R) -> Frames<R> {
        Frames { input, bytes: vec![0; ROOM], from: 0, to: 0, passed: 0, told: 0 }
    }

    /// Whether the next frame has to be waited for.
    pub fn waits(&self) -> bool {
        let held = &self.bytes[self.from + self.told..self.to];
        held.len() < HEAD || held.len() < HEAD + length(held)
    }

    /// The next frame.
    pub fn next(&mut self) -> io::Result<Next<'_>> {
        self.from += self.told;
        self.passed += self.told as u64;
        self.told = 0;
        if self.held(HEAD)? == 0 {
            return Ok(Next::End);
        }
        let head = &self.bytes[self.from..self.to];
        if head[0] != FRAME_TAG {
            let said = format!("byte {:02x}, and the tag of a frame, 40, was expected", head[0]);
            return Ok(Next::Bad(self.passed, said));
        }
        if head.len() < HEAD {
            return Ok(Next::Bad(self.passed, cut_off(head.len(), HEAD)));
        }
        let content = length(head);
        if content > LONGEST {
            let said = format!("a frame of {content} bytes, and at most {LONGEST} were expected");
            return Ok(Next::Bad(self.passed, said));
        }
        let held = self.held(HEAD + content)?;
        if held < HEAD + content {
            return Ok(Next::Bad(self.passed, cut_off(held, HEAD + content)));
        }
        self.told = HEAD + content;
        let content = &self.bytes[self.from + HEAD..self.from + self.told];
        Ok(Next::Frame(content, self.passed + HEAD as u64))
    }

    /// The bytes that are held from here on, after reading until they are as many as are wanted or the input ends.
    fn held(&mut self, wanted: usize) -> io::Result<usize> {
        while self.to - self.from < wanted {
            if self.from > 0 {
                self.bytes.copy_within(self.from..self.to, 0);
                self.to -= self.from;
                self.from = 0;
            }
            match self.input.read(&mut self.bytes[self.to..]) {
                Ok(0) => break,
                Ok(count) => self.to += count,
                Err(error) if error.kind() == ErrorKind::Interrupted => {}
                Err(error) => return Err(error),
            }
        }
        Ok(self.to - self.from)
    }
}

/// The length that the head of a frame tells.
pub fn length(head: &[u8]) -> usize {
    usize::from(u16::from_be_bytes([head[1], head[2]]))
}

/// What is said of a frame that is cut off.
fn cut_off(held: usize, wanted: usize) -> String {
    format!("the input ends after {held} bytes of a frame, and {wanted} were expected")
}

/// Writes a record as a frame. A record that is too long for the length's two bytes is the caller's to refuse.
pub fn put_frame(into: &mut Vec<u8>, record: &[u8]) {
    into.push(FRAME_TAG);
    into.extend((record.len() as u16).to_be_bytes());
    into.extend(record);
}
