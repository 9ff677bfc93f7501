//! The port as a program: frames of requests from standard input, a line for each to standard
//! output. A bad frame ends it.
#![forbid(unsafe_code)]

use std::io::{self, BufReader, BufWriter, Read, Write};

use port::{change_timetable, number, Timetable, AREA};

/// A frame begins with this byte.
const FRAME_TAG: u8 = 0x40;
/// A frame's content has at most this many bytes.
const LONGEST_FRAME: usize = 4096;
/// The bytes of the input and output buffers.
const BUFFER: usize = 65536;

/// What stands next in the input.
enum Frame {
    Content(usize),
    End,
    Bad,
}

/// Answers frames until the input ends or a frame is bad.
fn main() -> io::Result<()> {
    let mut input = BufReader::with_capacity(BUFFER, io::stdin().lock());
    let mut output = BufWriter::with_capacity(BUFFER, io::stdout().lock());
    let mut timetable = Timetable::empty();
    let mut content = [0; LONGEST_FRAME];
    let mut area = [0; AREA];
    let mut ordinal: u64 = 1;
    loop {
        match read_frame(&mut input, &mut content)? {
            Frame::Content(size) => {
                answer(&mut timetable, &content[..size], &mut area, ordinal, &mut output)?
            }
            Frame::End => break,
            Frame::Bad => {
                writeln!(output, "bad frame")?;
                break;
            }
        }
        ordinal += 1;
    }
    output.flush()
}

/// Reads the next frame's content.
fn read_frame(input: &mut impl Read, content: &mut [u8; LONGEST_FRAME]) -> io::Result<Frame> {
    let mut head = [0; 3];
    match fill(input, &mut head)? {
        0 => return Ok(Frame::End),
        3 => (),
        _ => return Ok(Frame::Bad),
    }
    let size = usize::from(u16::from_be_bytes([head[1], head[2]]));
    if head[0] != FRAME_TAG || size > LONGEST_FRAME {
        return Ok(Frame::Bad);
    }
    let got = fill(input, &mut content[..size])?;
    Ok(if got == size { Frame::Content(size) } else { Frame::Bad })
}

/// Reads until the bytes are full or the input ends; tells how many were read.
fn fill(input: &mut impl Read, bytes: &mut [u8]) -> io::Result<usize> {
    let mut got = 0;
    while got < bytes.len() {
        match input.read(&mut bytes[got..])? {
            0 => break,
            count => got += count,
        }
    }
    Ok(got)
}

/// Answers one request and prints its line.
fn answer(
    timetable: &mut Timetable,
    request: &[u8],
    area: &mut [u8],
    ordinal: u64,
    output: &mut impl Write,
) -> io::Result<()> {
    let outcome = change_timetable(timetable, request, area);
    let length = if outcome.number == number::ACCEPTED { timetable.length } else { 0 };
    let (number, place, tries) = (outcome.number, outcome.place, outcome.tries);
    writeln!(output, "{ordinal} {number} {place} {tries} {length}")
}
