//! The text of requests: lines that people write, and the frames that they mean. `tarnflaw help text` prints its form.

use crate::frames::put_frame;
use crate::words::{hex, Fault, Words};
use tarnflaw::ACCEPTED;

/// Bytes that the record of a text has at most, as many as two bytes can tell.
const LONGEST_RECORD: usize = 0xffff;

/// What a line says.
#[derive(Clone, Debug, PartialEq, Eq)]
enum Line {
    Blank,
    Request { slot: u64, limit: u8 },
    List { id: u8, k: u8, bound: Option<u8> },
    Bytes(Vec<u8>),
    Rest(Vec<u8>),
}

/// Where a request stands in a text: the byte at which its first line begins, and that line's number, from 1.
#[derive(Clone, Copy, Debug, PartialEq, Eq)]
pub struct Origin {
    at: usize,
    line: usize,
}

/// A text that was understood: its frames one behind the other, where each request stands, and where the rest does, if there is one, with the byte
/// at which it begins among the frames.
#[derive(Debug, PartialEq, Eq)]
pub struct Encoded {
    pub frames: Vec<u8>,
    pub origins: Vec<Origin>,
    pub rest: Option<(Origin, u64)>,
}

/// A word of a text: its line, its column and the how manieth of its line it is, each from 1.
#[derive(Clone, Copy, Debug, PartialEq, Eq)]
pub struct Spot {
    pub line: usize,
    pub column: usize,
    pub word: usize,
}

/// The record that the lines up to here say.
enum Record {
    None,
    /// A request, to which partitions may be added.
    Asked {
        slot: u64,
        limit: u8,
        listing: Vec<(u8, u8, Option<u8>)>,
    },
    Bytes(Vec<u8>),
}

impl Record {
    /// How many bytes it has.
    fn size(&self) -> usize {
        match self {
            Record::None => 0,
            Record::Asked { listing, .. } => {
                15 + listing
                    .iter()
                    .map(|entry| if entry.2.is_some() { 6 } else { 5 })
                    .sum::<usize>()
            }
            Record::Bytes(bytes) => bytes.len(),
        }
    }

    /// Writes it as a frame, if there is one.
    fn finish(&mut self, frames: &mut Vec<u8>) {
        match std::mem::replace(self, Record::None) {
            Record::None => {}
            Record::Asked { slot, limit, listing } => {
                put_frame(frames, &record_of(slot, limit, &listing));
            }
            Record::Bytes(bytes) => put_frame(frames, &bytes),
        }
    }
}

/// The record of a request: the library's, where it writes one. What it does not write, a short field or a value that is
/// to be refused, stands in the fields as it is said.
fn record_of(slot: u64, limit: u8, listing: &[(u8, u8, Option<u8>)]) -> Vec<u8> {
    let full: Option<Vec<[u8; 3]>> =
        listing.iter().map(|&(id, k, bound)| Some([id, k, bound?])).collect();
    if let Some(full) = full {
        let mut area = [0; tarnflaw::REQUEST];
        let told = tarnflaw::write_request(slot, limit, &full.concat(), &mut area);
        if told.number == ACCEPTED {
            return area[..told.written].to_vec();
        }
    }
    fields_of(slot, limit, listing)
}

/// The fields of a request, whatever their values.
pub fn fields_of(slot: u64, limit: u8, listing: &[(u8, u8, Option<u8>)]) -> Vec<u8> {
    let mut record = vec![1, 0, 8];
    record.extend(slot.to_be_bytes());
    record.extend([2, 0, 1, limit]);
    for &(id, k, bound) in listing {
        match bound {
            Some(bound) => record.extend([3, 0, 3, id, k, bound]),
            None => record.extend([3, 0, 2, id, k]),
        }
    }
    record
}

/// The frames that a text means; or its first fault.
pub fn encode(text: &[u8]) -> Result<Encoded, Fault> {
    let mut encoded = Encoded { frames: Vec::new(), origins: Vec::new(), rest: None };
    let mut record = Record::None;
    let mut at = 0;
    for (index, line) in lines(text).enumerate() {
        let origin = Origin { at, line: index + 1 };
        at += line.len() + 1;
        let said = read(line, origin.line)?;
        let fault = |said: &str| Words::of(line, origin.line).fault_at(first(line), said);
        if encoded.rest.is_some() && said != Line::Blank {
            return Err(fault("a line behind the rest, and nothing more was expected"));
        }
        take(said, origin, &mut record, &mut encoded).map_err(fault)?;
        if record.size() > LONGEST_RECORD {
            return Err(fault("a record of over 65535 bytes, and no more was expected"));
        }
    }
    record.finish(&mut encoded.frames);
    Ok(encoded)
}

/// Takes what one line says.
fn take(
    said: Line,
    origin: Origin,
    record: &mut Record,
    to: &mut Encoded,
) -> Result<(), &'static str> {
    let next = match said {
        Line::Blank => return Ok(()),
        Line::List { id, k, bound } => {
            let Record::Asked { listing, .. } = record else {
                return Err("list, and a request before it was expected");
            };
            listing.push((id, k, bound));
            return Ok(());
        }
        Line::Rest(bytes) => {
            record.finish(&mut to.frames);
            to.rest = Some((origin, to.frames.len() as u64));
            to.frames.extend(bytes);
            return Ok(());
        }
        Line::Request { slot, limit } => Record::Asked { slot, limit, listing: Vec::new() },
        Line::Bytes(bytes) => Record::Bytes(bytes),
    };
    record.finish(&mut to.frames);
    *record = next;
    to.origins.push(origin);
    Ok(())
}

/// The lines of a text.
fn lines(text: &[u8]) -> impl Iterator<Item = &[u8]> {
    text.split(|&byte| byte == b'\n')
}

/// The byte at which the first word of a line begins.
fn first(line: &[u8]) -> usize {
    Words::of(line, 0).next().map_or(0, |word| word.at)
}

/// What a line says; or its first fault.
fn read(line: &[u8], number: usize) -> Result<Line, Fault> {
    let mut words = Words::checked(line, number)?;
    let Some(word) = words.next() else { return Ok(Line::Blank) };
    match word.text {
        b"request" => read_request(&mut words),
        b"list" => read_list(&mut words),
        b"bytes" => read_bytes(&mut words).map(Line::Bytes),
        b"rest" => match read_bytes(&mut words)? {
            none if none.is_empty() => Err(words.fault(None, "a byte, two hex digits,")),
            bytes => Ok(Line::Rest(bytes)),
        },
        _ => Err(words.fault(Some(word), "request, list, bytes or rest")),
    }
}

/// The words behind `request`.
fn read_request(words: &mut Words) -> Result<Line, Fault> {
    words.expect("slot")?;
    let slot = words.number("the slot", u64::MAX)?;
    words.expect("T")?;
    let limit = words.byte("T")?;
    words.end()?;
    Ok(Line::Request { slot, limit })
}

/// The words behind `list`. Without R it is a short field.
fn read_list(words: &mut Words) -> Result<Line, Fault> {
    let id = words.byte("the id")?;
    words.expect("k")?;
    let k = words.byte("k")?;
    let bound = match words.next() {
        None => None,
        Some(word) if word.text == b"R" => Some(words.byte("R")?),
        other => return Err(words.fault(other, "R, or the end of the line,")),
    };
    words.end()?;
    Ok(Line::List { id, k, bound })
}

/// The bytes behind `bytes` or `rest`.
fn read_bytes(words: &mut Words) -> Result<Vec<u8>, Fault> {
    let mut bytes = Vec::new();
    while let Some(word) = words.next() {
        match hex(word.text) {
            Some(byte) => bytes.push(byte),
            None => return Err(words.fault(Some(word), "a byte, two hex digits,")),
        }
    }
    Ok(bytes)
}

/// The word of a text that says a byte of a request's record, or of the rest. Behind the last byte it is the end of the last line.
pub fn spot(text: &[u8], origin: Origin, byte: usize) -> Option<Spot> {
    let mut passed = 0;
    let mut end = None;
    for (index, line) in lines(&text[origin.at..]).enumerate() {
        let number = origin.line + index;
        let said = read(line, number).ok()?;
        if said == Line::Blank {
            continue;
        }
        if index > 0 && !matches!(said, Line::List { .. }) {
            break;
        }
        let bytes = bytes_of_words(&said);
        let size: usize = bytes.iter().sum();
        if byte < passed + size {
            return word_at(line, number, &bytes, byte - passed);
        }
        passed += size;
        end = Some(Spot { line: number, column: end_of(line), word: bytes.len() + 1 });
    }
    end
}

/// How many bytes of the record each word of a line says. The names of values say none, but `list`, which says a field's head.
fn bytes_of_words(said: &Line) -> Vec<usize> {
    match said {
        Line::Request { .. } => vec![0, 0, 11, 0, 4],
        Line::List { bound: Some(_), .. } => vec![3, 1, 0, 1, 0, 1],
        Line::List { bound: None, .. } => vec![3, 1, 0, 1],
        Line::Bytes(bytes) | Line::Rest(bytes) => [vec![0], vec![1; bytes.len()]].concat(),
        Line::Blank => Vec::new(),
    }
}

/// The word of a line that says a byte, the bytes of each word being told.
fn word_at(line: &[u8], number: usize, bytes: &[usize], byte: usize) -> Option<Spot> {
    let mut words = Words::of(line, number);
    let mut passed = 0;
    for (index, count) in bytes.iter().enumerate() {
        let word = words.next()?;
        passed += count;
        if byte < passed {
            let column = crate::words::column(line, word.at);
            return Some(Spot { line: number, column, word: index + 1 });
        }
    }
    None
}

/// The column behind the last word of a line.
fn end_of(line: &[u8]) -> usize {
    Words::of(line, 0).fault(None, "").column
}
