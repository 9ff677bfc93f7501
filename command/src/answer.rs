//! `tarnflaw answer`: archived answer records as text, by the library's reader.

use crate::arguments::Arguments;
use crate::frames::{Frames, Next};
use crate::numbers::says;
use crate::source::{Source, FRAME_TAG};
use crate::stop::{wrong, Ended, Stop, Verdict};
use crate::words::{hex, Words};
use std::fmt::Write as _;
use std::io::{self, BufWriter, Write};
use tarnflaw::{ACCEPTED, IDS, LENGTH_FIELD, OFFSET_FIELD, OWNERS_FIELD, SCHEDULE};

/// `tarnflaw answer [FILE]`
pub fn verb(arguments: &Arguments) -> Ended {
    let records = records(Source::open(&arguments.file()?)?)?;
    let mut output = BufWriter::new(io::stdout().lock());
    let mut verdict = Verdict::Done;
    for (index, record) in records.iter().enumerate() {
        let mut area = [0; SCHEDULE];
        let told = tarnflaw::read_answer(record, &mut area);
        verdict = verdict.and(Verdict::of(told.number));
        let text = match told.number {
            ACCEPTED => schedule(&area),
            number => refused(record, number, told.place),
        };
        write!(output, "answer {}: {text}", index + 1)?;
    }
    output.flush()?;
    Ok(verdict)
}

/// The records of an input.
fn records(source: Source) -> Result<Vec<Vec<u8>>, Stop> {
    let name = source.name.clone();
    let of_text = |byte: u8| byte.is_ascii_alphanumeric() || b" \t\r\n#".contains(&byte);
    match source.first() {
        Some(FRAME_TAG) => framed(&name, &source.whole()?),
        Some(byte) if !of_text(byte) => Ok(vec![source.whole()?]),
        _ => lines(&name, &source.whole()?),
    }
}

/// The records in frames.
fn framed(name: &str, bytes: &[u8]) -> Result<Vec<Vec<u8>>, Stop> {
    let mut records = Vec::new();
    let mut frames = Frames::of(bytes);
    loop {
        match frames.next()? {
            Next::Frame(record, _) => records.push(record.to_vec()),
            Next::End => return Ok(records),
            Next::Bad(byte, said) => return wrong(format!("{name}: byte {byte}: {said}")),
        }
    }
}

/// The records in lines of a text.
fn lines(name: &str, text: &[u8]) -> Result<Vec<Vec<u8>>, Stop> {
    let mut records = Vec::new();
    for (index, line) in text.split(|&byte| byte == b'\n').enumerate() {
        let mut words = Words::checked(line, index + 1).or_else(|fault| wrong(fault.told(name)))?;
        let mut bytes = Vec::new();
        let mut some = false;
        while let Some(word) = words.next() {
            match hex(word.text) {
                Some(byte) => bytes.push(byte),
                None if !some && word.text == b"bytes" => {}
                None => {
                    return wrong(words.fault(Some(word), "a byte, two hex digits,").told(name))
                }
            }
            some = true;
        }
        if some {
            records.push(bytes);
        }
    }
    Ok(records)
}

/// What a schedule says, by the table in `include/tarnflaw.h`.
fn schedule(area: &[u8; SCHEDULE]) -> String {
    let length = usize::from(area[0]);
    let mut text = format!("length {length}\n");
    for (slot, owner) in area[1..1 + length].iter().enumerate() {
        let _ = writeln!(text, "  transition slot {slot}: id {owner}");
    }
    for id in (0..usize::from(IDS)).filter(|id| area[65 + id] == 1) {
        let _ = writeln!(text, "  id {id}: offset {}", area[97 + id]);
    }
    text
}

/// What is said of a record that is refused: where, and which fields stand before.
fn refused(record: &[u8], number: u8, place: usize) -> String {
    let mut text = format!("refused {number}, {}: byte {place} of the record\n", says(number));
    let mut at = 0;
    loop {
        let field = tarnflaw::answer_field(record, &mut at);
        let told = match field.tag {
            LENGTH_FIELD => format!("length {}", field.first),
            OWNERS_FIELD => format!("number of owners {}", field.first),
            OFFSET_FIELD => format!("id {}: offset {}", field.first, field.second),
            _ => return text,
        };
        let _ = writeln!(text, "  before it, not known to be an answer: {told}");
    }
}
