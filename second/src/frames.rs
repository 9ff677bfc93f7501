//! The program and the probe: frames are read from the input, and a line is printed for each.

use crate::change::{change, AREA};
use crate::pictures::{request_lines, Around};
use crate::probe::probe_line;
use crate::run::Run;
use crate::timetable::Timetable;
use std::io::{self, BufRead, Read, Write};

/// The tag of a frame.
pub const TAG_FRAME: u8 = 0x40;
/// The most bytes that a frame may hold.
pub const LONGEST_FRAME: usize = 4096;

/// What comes next in the input.
enum Frame {
    Content(Vec<u8>),
    Bad,
    End,
}

/// From the empty timetable, each request's line is printed; a bad frame says so and ends it.
pub fn print_lines(input: &mut impl BufRead, output: &mut impl Write) -> io::Result<()> {
    let mut timetable = Timetable::empty();
    print_each(input, output, |ordinal, request| answer_line(&mut timetable, ordinal, request))
}

/// Each probe's line is printed; a bad frame says so and ends it.
pub fn print_probes(input: &mut impl BufRead, output: &mut impl Write) -> io::Result<()> {
    print_each(input, output, |_, content| probe_line(content))
}

/// From the empty timetable, the figures of each change's picture are printed; a bad frame says so and
/// ends it.
pub fn print_pictures(
    input: &mut impl BufRead,
    output: &mut impl Write,
    around: Around,
) -> io::Result<()> {
    let mut run = Run::empty();
    print_each(input, output, |ordinal, request| request_lines(&mut run, ordinal, request, around))
}

/// The line of each frame's ordinal and content is printed; a bad frame says so and ends it.
fn print_each(
    input: &mut impl BufRead,
    output: &mut impl Write,
    mut line: impl FnMut(u64, &[u8]) -> String,
) -> io::Result<()> {
    let mut ordinal: u64 = 0;
    loop {
        match next_frame(input)? {
            Frame::Content(content) => {
                ordinal += 1;
                writeln!(output, "{}", line(ordinal, &content))?;
            }
            Frame::Bad => return writeln!(output, "bad frame"),
            Frame::End => return Ok(()),
        }
    }
}

/// The line of a request: ordinal, number, place, tries, and the transition length or 0 if refused.
fn answer_line(timetable: &mut Timetable, ordinal: u64, request: &[u8]) -> String {
    let outcome = change(timetable, request, &mut [0; AREA]);
    *timetable = outcome.timetable;
    let length = if outcome.number == 0 { outcome.timetable.length } else { 0 };
    format!("{ordinal} {} {} {} {length}", outcome.number, outcome.place, outcome.tries)
}

/// The next frame: a wrong tag, a length above the limit or a frame cut off is bad.
fn next_frame(input: &mut impl BufRead) -> io::Result<Frame> {
    let head = read_up_to(input, 3)?;
    if head.is_empty() {
        return Ok(Frame::End);
    }
    let [TAG_FRAME, high, low] = head[..] else {
        return Ok(Frame::Bad);
    };
    let length = usize::from(high) * 256 + usize::from(low);
    if length > LONGEST_FRAME {
        return Ok(Frame::Bad);
    }
    let content = read_up_to(input, length)?;
    Ok(if content.len() == length { Frame::Content(content) } else { Frame::Bad })
}

/// As many bytes as are wanted, or fewer if the input ends before.
fn read_up_to(input: &mut impl BufRead, wanted: usize) -> io::Result<Vec<u8>> {
    let mut bytes = Vec::with_capacity(wanted);
    input.take(wanted as u64).read_to_end(&mut bytes)?;
    Ok(bytes)
}

/// A content in its frame; one longer than a frame can hold is cut to the limit.
pub fn frame(content: &[u8]) -> Vec<u8> {
    let content = content.get(..LONGEST_FRAME).unwrap_or(content);
    let length = content.len() as u16;
    let mut frame = vec![TAG_FRAME];
    frame.extend_from_slice(&length.to_be_bytes());
    frame.extend_from_slice(content);
    frame
}
