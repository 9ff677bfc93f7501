//! The image of a timetable: its fields in order, numbers high byte first.

use crate::entry::Entry;
use crate::timetable::{Timetable, IDS, LONGEST};

/// The bytes of an image.
pub const IMAGE: usize = STARTS + IDS * START;
/// Where the owners begin.
const OWNERS: usize = 9;
/// Where the base stands.
const BASE: usize = OWNERS + LONGEST;
/// Where the entries begin.
const ENTRIES: usize = BASE + 8;
/// The bytes of one entry.
const ENTRY: usize = 6;
/// Where the shortfalls at the request slot begin.
const STARTS: usize = ENTRIES + IDS * ENTRY;
/// The bytes of one of them.
const START: usize = 2;

/// The timetable that an image holds.
pub fn read(image: &[u8; IMAGE]) -> Timetable {
    let mut timetable = Timetable::empty();
    timetable.request = number(image, 0);
    timetable.length = image[8];
    timetable.owners.copy_from_slice(&image[OWNERS..BASE]);
    timetable.base = number(image, BASE);
    let (entries, starts) = image[ENTRIES..].split_at(IDS * ENTRY);
    for (entry, bytes) in timetable.entries.iter_mut().zip(entries.chunks_exact(ENTRY)) {
        *entry = Entry {
            period: u16::from_be_bytes([bytes[0], bytes[1]]),
            offset: bytes[2],
            bound: bytes[3],
            shortfall: u16::from_be_bytes([bytes[4], bytes[5]]),
        };
    }
    for (start, bytes) in timetable.starts.iter_mut().zip(starts.chunks_exact(START)) {
        *start = u16::from_be_bytes([bytes[0], bytes[1]]);
    }
    timetable
}

/// Writes the image of a timetable.
pub fn write(image: &mut [u8; IMAGE], timetable: &Timetable) {
    image[..8].copy_from_slice(&timetable.request.to_be_bytes());
    image[8] = timetable.length;
    image[OWNERS..BASE].copy_from_slice(&timetable.owners);
    image[BASE..ENTRIES].copy_from_slice(&timetable.base.to_be_bytes());
    let (entries, starts) = image[ENTRIES..].split_at_mut(IDS * ENTRY);
    for (entry, bytes) in timetable.entries.iter().zip(entries.chunks_exact_mut(ENTRY)) {
        bytes[..2].copy_from_slice(&entry.period.to_be_bytes());
        bytes[2] = entry.offset;
        bytes[3] = entry.bound;
        bytes[4..].copy_from_slice(&entry.shortfall.to_be_bytes());
    }
    for (start, bytes) in timetable.starts.iter().zip(starts.chunks_exact_mut(START)) {
        bytes.copy_from_slice(&start.to_be_bytes());
    }
}

/// The eight-byte number at a place.
fn number(image: &[u8; IMAGE], at: usize) -> u64 {
    let mut bytes = [0; 8];
    bytes.copy_from_slice(&image[at..at + 8]);
    u64::from_be_bytes(bytes)
}
