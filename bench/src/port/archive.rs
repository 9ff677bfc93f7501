//! Reading an archived answer into the bytes of a schedule, and writing a request from its figures.

use crate::number::{ACCEPTED, BAD_FIELD, NOT_RISING, OUT_OF_RANGE, SMALL_AREA};
use crate::records::content;
use crate::timetable::{IDS, LARGEST_BOUND, LARGEST_K, LAST_SLOT, LONGEST};
use crate::Refusal;

/// The bytes of a schedule: length, owners, whether each id is listed, and its offset.
pub const SCHEDULE: usize = OFFSETS + IDS;
/// Where the owners begin.
const OWNERS: usize = 1;
/// Where it says whether an id is listed.
const LISTED: usize = OWNERS + LONGEST;
/// Where the offsets begin.
const OFFSETS: usize = LISTED + IDS;
/// The place told where the slot is out of range.
const SLOT_PLACE: usize = 64;
/// The place told where T is.
const LONGEST_PLACE: usize = 65;
/// The bytes of a request that lists nothing.
const REQUEST_HEAD: usize = 15;
/// The bytes of a listed partition's field.
const LISTED_FIELD: usize = 6;

/// What writing a request returns.
#[derive(Clone, Copy, Debug, PartialEq, Eq)]
pub struct Writing {
    pub number: u8,
    pub place: usize,
    pub written: usize,
}

/// The schedule that an answer tells, or the refusal of its first wrong field.
pub fn read(answer: &[u8]) -> Result<[u8; SCHEDULE], Refusal> {
    let mut schedule = [0; SCHEDULE];
    let length = read_length(answer)?;
    let owners = read_owners(answer, length)?;
    schedule[0] = length as u8;
    schedule[OWNERS..OWNERS + length].copy_from_slice(owners);
    let mut at = 7 + length;
    let mut floor = 0;
    while at < answer.len() {
        let (id, offset) = read_offset(answer, at, floor)?;
        schedule[LISTED + id] = 1;
        schedule[OFFSETS + id] = offset;
        floor = id + 1;
        at += 5;
    }
    Ok(schedule)
}

/// The transition's length.
fn read_length(answer: &[u8]) -> Result<usize, Refusal> {
    match content(answer, 0, 0x10, 1) {
        Some(&[length]) if usize::from(length) <= LONGEST => Ok(usize::from(length)),
        _ => Err(Refusal::at(BAD_FIELD, 0)),
    }
}

/// Its owners.
fn read_owners(answer: &[u8], length: usize) -> Result<&[u8], Refusal> {
    content(answer, 4, 0x11, length)
        .filter(|owners| owners.iter().all(|&owner| usize::from(owner) < IDS))
        .ok_or(Refusal::at(BAD_FIELD, 4))
}

/// A listed id and its offset.
fn read_offset(answer: &[u8], at: usize, floor: usize) -> Result<(usize, u8), Refusal> {
    match content(answer, at, 0x12, 2) {
        Some(&[id, offset]) if (floor..IDS).contains(&usize::from(id)) => {
            Ok((usize::from(id), offset))
        }
        _ => Err(Refusal::at(BAD_FIELD, at)),
    }
}

/// Refuses the first figure of a request that is out of range or out of order.
pub fn check(slot: u64, longest: u8, listing: &[u8]) -> Result<(), Refusal> {
    if slot > LAST_SLOT {
        return Err(Refusal::at(OUT_OF_RANGE, SLOT_PLACE));
    }
    if usize::from(longest) > LONGEST {
        return Err(Refusal::at(OUT_OF_RANGE, LONGEST_PLACE));
    }
    let mut floor = 0;
    for (index, entry) in listing.chunks(3).enumerate() {
        floor = check_entry(entry, floor).map_err(|number| Refusal::at(number, index))?;
    }
    Ok(())
}

/// The least id that may follow an entry, or the number of its refusal.
fn check_entry(entry: &[u8], floor: u8) -> Result<u8, u8> {
    let &[id, k, bound] = entry else {
        return Err(OUT_OF_RANGE);
    };
    if usize::from(id) >= IDS || k > LARGEST_K || !(1..=LARGEST_BOUND).contains(&bound) {
        return Err(OUT_OF_RANGE);
    }
    if id < floor {
        return Err(NOT_RISING);
    }
    Ok(id + 1)
}

/// Writes a request whose figures are in order at the start of the area.
pub fn write(slot: u64, longest: u8, listing: &[u8], area: &mut [u8]) -> Writing {
    let written = REQUEST_HEAD + listing.len() / 3 * LISTED_FIELD;
    let Some(area) = area.get_mut(..written) else {
        return Writing { number: SMALL_AREA, place: 0, written: 0 };
    };
    let (head, fields) = area.split_at_mut(REQUEST_HEAD);
    head[..3].copy_from_slice(&[1, 0, 8]);
    head[3..11].copy_from_slice(&slot.to_be_bytes());
    head[11..].copy_from_slice(&[2, 0, 1, longest]);
    for (field, entry) in fields.chunks_exact_mut(LISTED_FIELD).zip(listing.chunks_exact(3)) {
        field[..3].copy_from_slice(&[3, 0, 3]);
        field[3..].copy_from_slice(entry);
    }
    Writing { number: ACCEPTED, place: 0, written }
}
