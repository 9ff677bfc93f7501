//! The requests of an input, be it a text or frames, each with the place that a person looks at.

use crate::frames::{Frames, Next};
use crate::source::{unreadable, Source, FRAME_TAG};
use crate::stop::{wrong, Stop};
use crate::text::{encode, spot, Origin, Spot};
use std::io::{Cursor, Read};

/// The requests of an input.
pub struct Requests {
    name: String,
    frames: Frames<Box<dyn Read>>,
    text: Option<Text>,
    /// How many requests were told.
    count: usize,
}

/// A text, and where its requests and its rest stand.
struct Text {
    bytes: Vec<u8>,
    origins: Vec<Origin>,
    rest: Option<(Origin, u64)>,
}

impl Text {
    /// The word that says a byte of the request with an index, or, behind the last one, of the rest; the byte is told in its record and among the frames.
    fn spot(&self, index: usize, byte: usize, framed: u64) -> Option<Spot> {
        match (self.origins.get(index), self.rest) {
            (Some(&origin), _) => spot(&self.bytes, origin, byte),
            (None, Some((origin, from))) => spot(&self.bytes, origin, (framed - from) as usize),
            (None, None) => None,
        }
    }
}

/// What comes next.
pub enum Put<'a> {
    /// A request, and the byte of the frames at which its record begins.
    Request(&'a [u8], u64),
    End,
    /// What is said of frames that cannot be read on.
    BadFrame(String),
}

/// Where something of a request stands.
#[derive(Clone, Copy, Debug, PartialEq, Eq)]
pub enum Where {
    /// In a text.
    Text(Spot),
    /// In frames: the byte of the input.
    Byte(u64),
}

impl Requests {
    /// The requests of a file. One that begins with a frame's tag has frames; every other is a text, which is read whole, and
    /// refused if a line of it is wrong.
    pub fn open(name: &str) -> Result<Requests, Stop> {
        let source = Source::open(name)?;
        let name = source.name.clone();
        if source.first() == Some(FRAME_TAG) {
            let frames = Frames::of(Box::new(source) as Box<dyn Read>);
            return Ok(Requests { name, frames, text: None, count: 0 });
        }
        if let Some(first) =
            source.first().filter(|&byte| byte < b' ' && !b"\t\n\r".contains(&byte))
        {
            return wrong(format!("{name}:1:1: byte {first:02x}, and a text, or frames, which begin with byte 40, were expected"));
        }
        let bytes = source.whole()?;
        match encode(&bytes) {
            Err(fault) => wrong(fault.told(&name)),
            Ok(encoded) => {
                let frames = Frames::of(Box::new(Cursor::new(encoded.frames)) as Box<dyn Read>);
                let text = Some(Text { bytes, origins: encoded.origins, rest: encoded.rest });
                Ok(Requests { name, frames, text, count: 0 })
            }
        }
    }

    /// Whether the next request has to be waited for.
    pub fn waits(&self) -> bool {
        self.frames.waits()
    }

    /// The next request.
    pub fn next(&mut self) -> Result<Put<'_>, Stop> {
        self.count += 1;
        match self.frames.next() {
            Ok(Next::Frame(request, at)) => Ok(Put::Request(request, at)),
            Ok(Next::End) => Ok(Put::End),
            Ok(Next::Bad(byte, said)) => {
                let spot = self.text.as_ref().and_then(|text| text.spot(self.count - 1, 0, byte));
                let place = spot.map_or(format!(" byte {byte}"), |spot| {
                    format!("{}:{}", spot.line, spot.column)
                });
                Ok(Put::BadFrame(format!("{}:{place}: {said}", self.name)))
            }
            Err(error) => wrong(unreadable(&self.name, &error)),
        }
    }

    /// Where something of the request stands that was told last: in a text the word that says a byte of the record, in frames the byte at which
    /// that byte's field begins, the record beginning at a byte of the frames.
    pub fn place(&self, record_at: u64, byte: usize, field: usize) -> Where {
        let framed = record_at + byte as u64;
        let in_text = self.text.as_ref().and_then(|text| text.spot(self.count - 1, byte, framed));
        in_text.map_or(Where::Byte(record_at + field as u64), Where::Text)
    }
}
