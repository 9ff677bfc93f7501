//! Requests and answers as bytes.

use crate::entry::Entry;
use crate::number::{BAD_FIELD, NOT_RISING, OUT_OF_RANGE};
use crate::timetable::{IDS, LARGEST_BOUND, LARGEST_K, LAST_SLOT, LONGEST};
use crate::Refusal;

/// The bytes before a field's content.
const HEAD: usize = 3;

/// What a request asks for one id; a period of 0 says that it is not listed, a bound of 0 that its
/// field is short.
#[derive(Clone, Copy, Default)]
pub struct Ask {
    pub period: u16,
    pub bound: u8,
}

/// A request that was read whole.
pub struct Request {
    pub slot: u64,
    pub longest: u8,
    pub asks: [Ask; IDS],
}

/// Reads a request, or refuses its first wrong field.
pub fn read_request(record: &[u8]) -> Result<Request, Refusal> {
    let slot = read_slot(record)?;
    let longest = read_longest(record, 11)?;
    let mut asks = [Ask::default(); IDS];
    let mut at = 15;
    let mut floor = 0;
    while at < record.len() {
        let (id, ask, next) = read_listed(record, at, floor)?;
        asks[usize::from(id)] = ask;
        floor = id + 1;
        at = next;
    }
    Ok(Request { slot, longest, asks })
}

/// The content of the field at a place, if it has this tag and length.
pub fn content(record: &[u8], at: usize, tag: u8, length: usize) -> Option<&[u8]> {
    let head = record.get(at..at + HEAD)?;
    if head != [tag, 0, length as u8] {
        return None;
    }
    record.get(at + HEAD..at + HEAD + length)
}

/// The request slot.
fn read_slot(record: &[u8]) -> Result<u64, Refusal> {
    let content = content(record, 0, 1, 8).ok_or(Refusal::at(BAD_FIELD, 0))?;
    let slot = content.iter().fold(0, |slot, &byte| slot << 8 | u64::from(byte));
    if slot > LAST_SLOT {
        return Err(Refusal::at(OUT_OF_RANGE, 0));
    }
    Ok(slot)
}

/// The longest transition allowed, T.
fn read_longest(record: &[u8], at: usize) -> Result<u8, Refusal> {
    match content(record, at, 2, 1) {
        None => Err(Refusal::at(BAD_FIELD, at)),
        Some(content) if usize::from(content[0]) > LONGEST => Err(Refusal::at(OUT_OF_RANGE, at)),
        Some(content) => Ok(content[0]),
    }
}

/// One listed id, what is asked for it, and the place of the next field.
fn read_listed(record: &[u8], at: usize, floor: u8) -> Result<(u8, Ask, usize), Refusal> {
    let (id, k, bound, least, next) = if let Some(content) = content(record, at, 3, 3) {
        (content[0], content[1], content[2], 1, at + 6)
    } else if let Some(content) = content(record, at, 3, 2) {
        (content[0], content[1], 0, 0, at + 5)
    } else {
        return Err(Refusal::at(BAD_FIELD, at));
    };
    if usize::from(id) >= IDS || k > LARGEST_K || !(least..=LARGEST_BOUND).contains(&bound) {
        return Err(Refusal::at(OUT_OF_RANGE, at));
    }
    if id < floor {
        return Err(Refusal::at(NOT_RISING, at));
    }
    Ok((id, Ask { period: 1 << k, bound }, next))
}

/// Writes an answer at the start of the area and gives its length.
pub fn write_answer(area: &mut [u8], owners: &[u8], entries: &[Entry; IDS]) -> usize {
    let length = owners.len();
    area[..4].copy_from_slice(&[0x10, 0, 1, length as u8]);
    area[4..7].copy_from_slice(&[0x11, 0, length as u8]);
    area[7..7 + length].copy_from_slice(owners);
    let mut at = 7 + length;
    for (id, entry) in entries.iter().enumerate().filter(|(_, entry)| entry.is_listed()) {
        area[at..at + 5].copy_from_slice(&[0x12, 0, 2, id as u8, entry.offset]);
        at += 5;
    }
    at
}
