//! Records: reading a request, where each field is read or refused at once, and writing an answer.

use crate::change::Refusal;
use crate::numbers;
use crate::timetable::{
    bound_in_range, Timetable, IDS, LARGEST_EXPONENT, LAST_SLOT, LONGEST_TRANSITION,
};

/// The tags of a request's fields: slot, T, and a share.
pub const TAG_SLOT: u8 = 1;
pub const TAG_LONGEST: u8 = 2;
pub const TAG_SHARE: u8 = 3;
/// The tags of an answer's fields: transition length, owners, and an offset.
pub const TAG_LENGTH: u8 = 0x10;
pub const TAG_OWNERS: u8 = 0x11;
pub const TAG_OFFSET: u8 = 0x12;

/// The bytes of a tag and a length before the content.
pub const HEAD: usize = 3;

/// What a share's field asks for its id: a period, and R unless the field is short.
#[derive(Clone, Copy, Debug, PartialEq, Eq)]
pub struct Ask {
    pub period: u16,
    pub bound: Option<u8>,
}

/// A request as it is read, whatever the timetable: its slot, the longest transition T, and what is
/// asked for each id that it lists.
#[derive(Clone, Copy, Debug, PartialEq, Eq)]
pub struct ReadRequest {
    pub slot: u64,
    pub longest: u8,
    pub asks: [Option<Ask>; IDS],
}

/// A request is a slot, T, and 0 to 32 shares with rising ids, in this order, nothing after.
pub fn read_request(record: &[u8]) -> Result<ReadRequest, Refusal> {
    let (slot, at) = read_slot(record)?;
    let (longest, mut at) = read_longest(record, at)?;
    let mut asks = [None; IDS];
    let mut before = None;
    while at < record.len() {
        let (id, ask, next) = read_share(record, at, before)?;
        asks[usize::from(id)] = Some(ask);
        before = Some(id);
        at = next;
    }
    Ok(ReadRequest { slot, longest, asks })
}

/// Tag 1, length 8: the request slot, at most 2^48 - 1.
fn read_slot(record: &[u8]) -> Result<(u64, usize), Refusal> {
    let content = field(record, 0, TAG_SLOT, &[8])?;
    let slot = content.iter().fold(0, |number, &byte| number * 256 + u64::from(byte));
    in_range(slot <= LAST_SLOT, 0)?;
    Ok((slot, HEAD + content.len()))
}

/// Tag 2, length 1: T, at most 64.
fn read_longest(record: &[u8], at: usize) -> Result<(u8, usize), Refusal> {
    let content = field(record, at, TAG_LONGEST, &[1])?;
    let longest = content.first().copied().unwrap_or(u8::MAX);
    in_range(usize::from(longest) <= LONGEST_TRANSITION, at)?;
    Ok((longest, at + HEAD + content.len()))
}

/// Tag 3, length 3 (id, k, R) or length 2 (id, k), where R is not given; ids strictly rise.
fn read_share(record: &[u8], at: usize, before: Option<u8>) -> Result<(u8, Ask, usize), Refusal> {
    let content = field(record, at, TAG_SHARE, &[2, 3])?;
    let (id, k, bound) = match *content {
        [id, k] => (id, k, None),
        [id, k, bound] => (id, k, Some(bound)),
        _ => return Err(Refusal::at_byte(numbers::WRONG_FIELD, at)),
    };
    in_range(usize::from(id) < IDS && k <= LARGEST_EXPONENT, at)?;
    in_range(bound.map_or(true, bound_in_range), at)?;
    if before.is_some_and(|before| id <= before) {
        return Err(Refusal::at_byte(numbers::ID_NOT_RISING, at));
    }
    Ok((id, Ask { period: 1 << k, bound }, at + HEAD + content.len()))
}

/// The content of the field at a byte, unless it is missing, another, of wrong length or cut off.
fn field<'a>(record: &'a [u8], at: usize, tag: u8, lengths: &[usize]) -> Result<&'a [u8], Refusal> {
    let rest = record.get(at..).unwrap_or(&[]);
    if let [found, high, low, content @ ..] = rest {
        let length = usize::from(*high) * 256 + usize::from(*low);
        if *found == tag && lengths.contains(&length) && length <= content.len() {
            return Ok(&content[..length]);
        }
    }
    Err(Refusal::at_byte(numbers::WRONG_FIELD, at))
}

/// A value out of range is refused with 4 at its field's tag byte.
fn in_range(holds: bool, at: usize) -> Result<(), Refusal> {
    if holds {
        Ok(())
    } else {
        Err(Refusal::at_byte(numbers::OUT_OF_RANGE, at))
    }
}

/// The answer: the record of its transition and of each listed id's offset.
pub fn write_answer(timetable: &Timetable) -> Vec<u8> {
    let offsets = timetable.entries.map(|entry| entry.listed().then_some(entry.offset));
    answer_record(timetable.transition(), &offsets)
}

/// An answer's record: transition length, owners, then each listed id with its offset, ids rising.
pub fn answer_record(owners: &[u8], offsets: &[Option<u8>; IDS]) -> Vec<u8> {
    let length = owners.len() as u8;
    let mut answer = vec![TAG_LENGTH, 0, 1, length, TAG_OWNERS, 0, length];
    answer.extend_from_slice(owners);
    for (id, offset) in (0u8..).zip(offsets) {
        answer.extend(offset.iter().flat_map(|&offset| [TAG_OFFSET, 0, 2, id, offset]));
    }
    answer
}

/// A share's field in full, with its R, or the short one, which gives none.
pub fn share_field(id: u8, k: u8, bound: Option<u8>) -> Vec<u8> {
    match bound {
        Some(bound) => vec![TAG_SHARE, 0, 3, id, k, bound],
        None => vec![TAG_SHARE, 0, 2, id, k],
    }
}

/// The field of a request slot.
pub fn slot_field(slot: u64) -> Vec<u8> {
    let mut field = vec![TAG_SLOT, 0, 8];
    field.extend_from_slice(&slot.to_be_bytes());
    field
}

/// The field of the longest transition T.
pub fn longest_field(longest: u8) -> Vec<u8> {
    vec![TAG_LONGEST, 0, 1, longest]
}

/// A request that is read, with another T: the last byte of its second field.
pub fn with_longest(record: &[u8], longest: u8) -> Vec<u8> {
    let mut other = record.to_vec();
    other[slot_field(0).len() + HEAD] = longest;
    other
}
