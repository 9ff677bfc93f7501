//! Archived answers and listings that were spoiled in one place or in several: each way has a name,
//! takes any bytes, and may now and then leave them as good as they were.

use crate::asking::{Asking, ENTRY};
use crate::random::Random;
use crate::records::{HEAD, TAG_LENGTH, TAG_OFFSET, TAG_OWNERS};
use crate::timetable::{IDS, LARGEST_BOUND, LARGEST_EXPONENT, LAST_SLOT, LONGEST_TRANSITION};

/// What a request is written from, and the length of the area that it is written to.
#[derive(Clone, PartialEq, Eq)]
pub struct Order {
    pub asking: Asking,
    pub area: u16,
}

impl Order {
    /// The bytes of the record of as many entries as the listing has, one that is cut short included.
    pub fn record_length(&self) -> usize {
        15 + 6 * self.asking.listing.len().div_ceil(ENTRY)
    }
}

/// One way to spoil something: its name, and what it does.
pub type Way<T> = (&'static str, fn(&mut Random, &mut T));

/// The ways to spoil an answer.
pub const ANSWERS: [Way<Vec<u8>>; 16] = [
    ("a byte changed", byte_changed),
    ("a byte dropped", byte_dropped),
    ("a byte inserted", byte_inserted),
    ("a field doubled", |random, record| regrouped(random, record, doubled)),
    ("a field dropped", |random, record| regrouped(random, record, dropped)),
    ("two fields exchanged", |random, record| regrouped(random, record, exchanged)),
    ("cut off", cut_off),
    ("bytes behind the end", bytes_behind),
    ("another tag", other_tag),
    ("another length of a field", other_field_length),
    ("another transition length", other_length),
    ("an owner more or fewer", other_owner_count),
    ("a transition above 64", long_transition),
    ("another owner", other_owner),
    ("an id that does not rise", answer_not_rising),
    ("another id", other_id),
];

/// The ways to spoil what a request is written from.
pub const ORDERS: [Way<Order>; 14] = [
    ("a slot above 2^48 - 1", late_slot),
    ("a T above 64", large_limit),
    ("an id above 31", |random, order| put_value(random, order, 0, IDS as u8)),
    ("a k above 8", |random, order| put_value(random, order, 1, LARGEST_EXPONENT + 1)),
    ("an R of 0 or above 8", |random, order| put_value(random, order, 2, LARGEST_BOUND + 1)),
    ("an id that does not rise", entry_not_rising),
    ("an entry doubled", |random, order| entries(random, order, doubled)),
    ("two entries exchanged", |random, order| entries(random, order, exchanged)),
    ("more than 32 entries", many_entries),
    ("an entry cut short", cut_short),
    ("a byte changed", |random, order| byte_changed(random, &mut order.asking.listing)),
    ("a byte dropped", |random, order| byte_dropped(random, &mut order.asking.listing)),
    ("a byte inserted", |random, order| byte_inserted(random, &mut order.asking.listing)),
    ("an area too short", short_area),
];

/// Any index below a length, 0 if there is none.
fn index(random: &mut Random, length: usize) -> usize {
    random.below(length as u64) as usize
}

/// A byte at some limit, near it, or any.
fn edge(random: &mut Random) -> u8 {
    let any = random.byte();
    random.pick(&[0, 1, 2, 8, 9, 31, 32, 64, 65, 255, 0x10, 0x11, 0x12, any]).unwrap_or(any)
}

/// A value just above a limit, or far above.
fn above(random: &mut Random, least: u8) -> u8 {
    match random.below(4) {
        0..=1 => least,
        2 => u8::MAX,
        _ => random.between(u64::from(least), 255) as u8,
    }
}

/// Some byte is one more, one less, at some limit, or has one bit changed.
fn byte_changed(random: &mut Random, bytes: &mut Vec<u8>) {
    let at = index(random, bytes.len());
    if let Some(byte) = bytes.get_mut(at) {
        *byte = match random.below(5) {
            0 => byte.wrapping_add(1),
            1 => byte.wrapping_sub(1),
            2 => *byte ^ 1 << random.below(8),
            _ => edge(random),
        };
    }
}

/// Some byte is missing.
fn byte_dropped(random: &mut Random, bytes: &mut Vec<u8>) {
    let at = index(random, bytes.len());
    if at < bytes.len() {
        bytes.remove(at);
    }
}

/// Some byte comes in between, or behind the last.
fn byte_inserted(random: &mut Random, bytes: &mut Vec<u8>) {
    let at = index(random, bytes.len() + 1);
    bytes.insert(at, edge(random));
}

/// The record ends anywhere, now and then before its first byte.
fn cut_off(random: &mut Random, record: &mut Vec<u8>) {
    let end = if random.chance(1, 8) { 0 } else { index(random, record.len()) };
    record.truncate(end);
}

/// A few bytes follow, which may look like the beginning of a field.
fn bytes_behind(random: &mut Random, record: &mut Vec<u8>) {
    if random.chance(1, 2) {
        let field = [TAG_OFFSET, 0, 2, random.below(40) as u8, random.byte()];
        record.extend(&field[..random.between(1, 4) as usize]);
    } else {
        record.extend((0..random.between(1, 8)).map(|_| edge(random)));
    }
}

/// Where the fields of an answer begin, as far as its bytes go, by the length that it says.
pub fn starts(record: &[u8]) -> Vec<usize> {
    let length = usize::from(record.get(HEAD).copied().unwrap_or(0));
    let offsets = (2 * HEAD + 1 + length..).step_by(HEAD + 2);
    [0, HEAD + 1].into_iter().chain(offsets).take_while(|&start| start < record.len()).collect()
}

/// These fields.
fn fields(record: &[u8]) -> Vec<Vec<u8>> {
    let starts = starts(record);
    let ends = starts.iter().skip(1).copied().chain([record.len()]);
    starts.iter().zip(ends).map(|(&start, end)| record[start..end].to_vec()).collect()
}

/// The fields of an answer are put together otherwise.
fn regrouped(random: &mut Random, record: &mut Vec<u8>, way: fn(&mut Random, &mut Vec<Vec<u8>>)) {
    let mut parts = fields(record);
    way(random, &mut parts);
    *record = parts.concat();
}

/// Some part comes twice, one after the other or with others between.
fn doubled(random: &mut Random, parts: &mut Vec<Vec<u8>>) {
    let at = index(random, parts.len());
    if let Some(part) = parts.get(at).cloned() {
        let to = if random.chance(1, 2) { at } else { index(random, parts.len() + 1) };
        parts.insert(to, part);
    }
}

/// Some part is missing.
fn dropped(random: &mut Random, parts: &mut Vec<Vec<u8>>) {
    let at = index(random, parts.len());
    if at < parts.len() {
        parts.remove(at);
    }
}

/// Two parts change places, mostly neighbours.
fn exchanged(random: &mut Random, parts: &mut Vec<Vec<u8>>) {
    let one = index(random, parts.len());
    let other = if random.chance(2, 3) { one + 1 } else { index(random, parts.len()) };
    if one.max(other) < parts.len() {
        parts.swap(one, other);
    }
}

/// Some byte of some field, if there is one so far behind its tag.
fn byte_of_field<'a>(random: &mut Random, record: &'a mut [u8], at: usize) -> Option<&'a mut u8> {
    let start = random.pick(&starts(record))?;
    record.get_mut(start + at)
}

/// Some field has another tag.
fn other_tag(random: &mut Random, record: &mut Vec<u8>) {
    let tag = match random.below(3) {
        0 => edge(random),
        _ => random.between(u64::from(TAG_LENGTH) - 1, u64::from(TAG_OFFSET) + 1) as u8,
    };
    if let Some(byte) = byte_of_field(random, record, 0) {
        *byte = tag;
    }
}

/// Some field says another length, in the low byte or in the high one.
fn other_field_length(random: &mut Random, record: &mut Vec<u8>) {
    let at = if random.chance(1, 4) { 1 } else { 2 };
    let change = random.pick(&[1, u8::MAX, 2, 128]).unwrap_or(1);
    if let Some(byte) = byte_of_field(random, record, at) {
        *byte = byte.wrapping_add(change);
    }
}

/// The transition's length is one more or less, or at its limit or above it.
fn other_length(random: &mut Random, record: &mut Vec<u8>) {
    let edge = random.pick(&[0, 64, 65, 255]).unwrap_or(0);
    let change = random.pick(&[1, u8::MAX]).unwrap_or(1);
    if let Some(length) = record.get_mut(HEAD) {
        *length = if random.chance(2, 3) { length.wrapping_add(change) } else { edge };
    }
}

/// There is an owner more than the length says, or one fewer; its field's length says so or not.
fn other_owner_count(random: &mut Random, record: &mut Vec<u8>) {
    let mut parts = fields(record);
    let Some(owners) = parts.get_mut(1) else { return };
    if random.chance(1, 2) {
        owners.push(random.below(IDS as u64) as u8);
    } else if owners.len() > HEAD {
        owners.pop();
    }
    let count = owners.len().saturating_sub(HEAD) as u8;
    if let Some(said) = owners.get_mut(2).filter(|_| random.chance(3, 4)) {
        *said = count;
    }
    *record = parts.concat();
}

/// The transition has more than 64 slots, and as many owners.
fn long_transition(random: &mut Random, record: &mut Vec<u8>) {
    let length = above(random, LONGEST_TRANSITION as u8 + 1);
    let owners = (0..length).map(|_| random.below(IDS as u64) as u8);
    let head = [TAG_LENGTH, 0, 1, length, TAG_OWNERS, 0, length];
    let rest = fields(record).into_iter().skip(2).flatten();
    *record = head.into_iter().chain(owners).chain(rest).collect();
}

/// Some owner is the highest id, or none.
fn other_owner(random: &mut Random, record: &mut Vec<u8>) {
    let owner = if random.chance(1, 4) { IDS as u8 - 1 } else { above(random, IDS as u8) };
    let count = usize::from(record.get(HEAD).copied().unwrap_or(0));
    let at = 2 * HEAD + 1 + index(random, count);
    if let Some(byte) = record.get_mut(at).filter(|_| count > 0) {
        *byte = owner;
    }
}

/// Some id equals the one before it, or falls below it.
fn answer_not_rising(random: &mut Random, record: &mut Vec<u8>) {
    let starts = starts(record);
    let behind = starts.get(3..).unwrap_or_default();
    let Some(start) = random.pick(behind) else { return };
    let before = record.get(start - 2).copied().unwrap_or(0);
    if let Some(id) = record.get_mut(start + HEAD) {
        *id = not_above(random, before);
    }
}

/// The same id, or one below it.
fn not_above(random: &mut Random, before: u8) -> u8 {
    match random.below(3) {
        0 => before.saturating_sub(1),
        1 => random.below(u64::from(before) + 1) as u8,
        _ => before,
    }
}

/// Some id is the highest, or none.
fn other_id(random: &mut Random, record: &mut Vec<u8>) {
    let id = if random.chance(1, 4) { IDS as u8 - 1 } else { above(random, IDS as u8) };
    let starts = starts(record);
    let Some(start) = random.pick(starts.get(2..).unwrap_or_default()) else { return };
    if let Some(byte) = record.get_mut(start + HEAD) {
        *byte = id;
    }
}

/// The slot is above the highest.
fn late_slot(random: &mut Random, order: &mut Order) {
    order.asking.slot = match random.below(4) {
        0 => LAST_SLOT + 1,
        1 => LAST_SLOT + 1 + random.below(1 << 50),
        2 => LAST_SLOT + 1 | random.bits(),
        _ => u64::MAX,
    };
}

/// T is above 64.
fn large_limit(random: &mut Random, order: &mut Order) {
    order.asking.longest = above(random, LONGEST_TRANSITION as u8 + 1);
}

/// Some entry's id, k or R is out of range, from the least such value on; an R is also 0.
fn put_value(random: &mut Random, order: &mut Order, which: usize, least: u8) {
    let value = above(random, least);
    let zero = which == 2 && random.chance(1, 2);
    let count = order.asking.listing.len() / ENTRY;
    let at = ENTRY * index(random, count) + which;
    if let Some(byte) = order.asking.listing.get_mut(at) {
        *byte = if zero { 0 } else { value };
    }
}

/// Some entry's id equals the one before it, or falls below it.
fn entry_not_rising(random: &mut Random, order: &mut Order) {
    let listing = &mut order.asking.listing;
    let behind = (listing.len() / ENTRY).saturating_sub(1);
    let at = ENTRY * index(random, behind);
    if behind > 0 {
        listing[at + ENTRY] = not_above(random, listing[at]);
    }
}

/// The entries of a listing are put together otherwise.
fn entries(random: &mut Random, order: &mut Order, way: fn(&mut Random, &mut Vec<Vec<u8>>)) {
    let mut parts: Vec<Vec<u8>> = order.asking.listing.chunks(ENTRY).map(<[u8]>::to_vec).collect();
    way(random, &mut parts);
    order.asking.listing = parts.concat();
}

/// All 32 ids are listed, and up to 8 more entries come behind them.
fn many_entries(random: &mut Random, order: &mut Order) {
    let last = random.between(IDS as u64, 39) as u8;
    let same = random.chance(1, 2);
    let id = |index: u8| if same { index.min(IDS as u8 - 1) } else { index };
    let entry = |index: u8| [id(index), random.below(9) as u8, random.between(1, 8) as u8];
    order.asking.listing = (0..=last).flat_map(entry).collect();
}

/// The last entry is cut short by a byte or two.
fn cut_short(random: &mut Random, order: &mut Order) {
    let listing = &mut order.asking.listing;
    listing.truncate(listing.len().saturating_sub(random.between(1, 2) as usize));
}

/// The area has one byte too few, none, or any number that is too small.
fn short_area(random: &mut Random, order: &mut Order) {
    let enough = order.record_length() as u64;
    order.area = match random.below(8) {
        0 => 0,
        1..=2 => random.below(enough) as u16,
        _ => enough as u16 - 1,
    };
}
