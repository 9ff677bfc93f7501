//! Damaged requests: a well-formed request's fields are cut, exchanged, put out of range or
//! added to.

use crate::frames::LONGEST_FRAME;
use crate::random::Random;
use crate::records::{longest_field, share_field, slot_field, TAG_SHARE};
use crate::timetable::{IDS, LAST_SLOT};

/// A request's fields, each with its tag and length.
type Fields = Vec<Vec<u8>>;

/// A request with one damage, or now and then with two.
pub fn damaged(random: &mut Random, mut fields: Fields) -> Vec<u8> {
    for _ in 0..if random.chance(1, 6) { 2 } else { 1 } {
        damage(random, &mut fields);
    }
    let mut record = fields.concat();
    if random.chance(1, 10) {
        record.truncate(random.below(record.len() as u64 + 1) as usize);
    }
    record.truncate(LONGEST_FRAME);
    record
}

/// One damage of some kind.
fn damage(random: &mut Random, fields: &mut Fields) {
    match random.below(20) {
        0 => cut(random, fields),
        1 => wrong_tag(random, fields),
        2..=3 => wrong_length(random, fields),
        4 => exchange(random, fields),
        5 => unknown_field(random, fields),
        6 => trailing_bytes(random, fields),
        7 => missing_field(random, fields),
        8 => fields.clear(),
        9 => late_slot(random, fields),
        10 => long_transition(random, fields),
        11..=13 => share_out_of_range(random, fields),
        14..=16 => id_not_rising(random, fields),
        17 => one_share_too_many(random, fields),
        18 => changed_bytes(random, fields),
        _ => stuffed(random, fields),
    }
}

/// The record is cut off within some field.
fn cut(random: &mut Random, fields: &mut Fields) {
    let keep = random.below(fields.len() as u64) as usize;
    fields.truncate(keep + 1);
    if let Some(field) = fields.last_mut() {
        let length = random.below(field.len() as u64) as usize;
        field.truncate(length);
    }
}

/// Some field has another tag.
fn wrong_tag(random: &mut Random, fields: &mut Fields) {
    let tag = if random.chance(1, 2) { random.below(5) as u8 } else { random.byte() };
    if let Some(byte) = any_field(random, fields).and_then(|field| field.first_mut()) {
        *byte = tag;
    }
}

/// Some field's length is another, with or without as many bytes after it.
fn wrong_length(random: &mut Random, fields: &mut Fields) {
    let matched = random.chance(1, 2);
    let high = if random.chance(1, 8) { 1 } else { 0 };
    let low = random.below(10) as u8;
    if let Some([_, first, second, ..]) = any_field(random, fields).map(|field| {
        if matched {
            field.resize(3 + usize::from(high) * 256 + usize::from(low), 1);
        }
        field.as_mut_slice()
    }) {
        (*first, *second) = (high, low);
    }
}

/// Two fields change places.
fn exchange(random: &mut Random, fields: &mut Fields) {
    let count = fields.len() as u64;
    let (one, other) = (random.below(count) as usize, random.below(count) as usize);
    if one < fields.len() && other < fields.len() {
        fields.swap(one, other);
    }
}

/// A field with an unknown tag, or a copy of some field, comes in between.
fn unknown_field(random: &mut Random, fields: &mut Fields) {
    let at = random.below(fields.len() as u64 + 1) as usize;
    let copy = any_field(random, fields).cloned();
    let tag = if random.chance(1, 2) { 4 } else { random.byte() };
    let field = copy.filter(|_| random.chance(1, 2)).unwrap_or(vec![tag, 0, 1, 0]);
    fields.insert(at, field);
}

/// A few bytes come after the last field.
fn trailing_bytes(random: &mut Random, fields: &mut Fields) {
    let bytes = (0..random.between(1, 8)).map(|_| random.below(4) as u8).collect();
    fields.push(bytes);
}

/// A field is left out, mostly one of the two required ones.
fn missing_field(random: &mut Random, fields: &mut Fields) {
    let among = if random.chance(3, 4) { 2 } else { fields.len() as u64 };
    let at = random.below(among) as usize;
    if at < fields.len() {
        fields.remove(at);
    }
}

/// The slot is 2^48 or above.
fn late_slot(random: &mut Random, fields: &mut Fields) {
    let slot = match random.below(3) {
        0 => LAST_SLOT + 1,
        1 => LAST_SLOT + 1 + random.below(1 << 50),
        _ => u64::MAX,
    };
    if let Some(field) = fields.first_mut() {
        *field = slot_field(slot);
    }
}

/// T is 65 or above.
fn long_transition(random: &mut Random, fields: &mut Fields) {
    let longest = if random.chance(2, 3) { 65 } else { random.between(65, 255) as u8 };
    if let Some(field) = fields.get_mut(1) {
        *field = longest_field(longest);
    }
}

/// Some share's id, k or R is just out of range, or far out.
fn share_out_of_range(random: &mut Random, fields: &mut Fields) {
    let far = random.chance(1, 4);
    let (mut id, mut k, mut bound) = (random.below(IDS as u64) as u8, 4, 2);
    match random.below(4) {
        0 => id = if far { 255 } else { 32 },
        1 => k = if far { 255 } else { 9 },
        2 => bound = if far { 255 } else { 9 },
        _ => bound = 0,
    }
    let share = share_field(id, k, Some(bound));
    let at = 2 + random.below(fields.len() as u64) as usize;
    match fields.get_mut(at) {
        Some(field) => *field = share,
        None => fields.push(share),
    }
}

/// Some share's id equals the one before it or falls below it.
fn id_not_rising(random: &mut Random, fields: &mut Fields) {
    let fresh = share_field(random.below(IDS as u64) as u8, 8, None);
    if fields.len() < 3 {
        fields.push(fresh);
    }
    let at = random.between(2, fields.len() as u64 - 1) as usize;
    let mut again = fields.get(at).cloned().unwrap_or_default();
    if let Some(id) = again.get_mut(3) {
        *id -= random.below(u64::from(*id).min(2) + 1) as u8;
    }
    fields.insert((at + 1).min(fields.len()), again);
}

/// All 32 ids are listed, and a 33rd share comes after them.
fn one_share_too_many(random: &mut Random, fields: &mut Fields) {
    fields.truncate(2);
    let bound = |random: &mut Random| Some(1).filter(|_| random.chance(1, 2));
    fields.extend((0..IDS as u8).map(|id| share_field(id, 8, bound(random))));
    let id = random.pick(&[31, 32, 0, 255]).unwrap_or(31);
    let mut last = share_field(id, 8, None);
    if random.chance(1, 4) {
        last.truncate(4);
    }
    fields.push(last);
}

/// One to three bytes of the record are others.
fn changed_bytes(random: &mut Random, fields: &mut Fields) {
    for _ in 0..random.between(1, 3) {
        let byte = if random.chance(1, 2) { random.byte() } else { random.below(10) as u8 };
        if let Some(field) = any_field(random, fields) {
            let at = random.below(field.len() as u64) as usize;
            if let Some(place) = field.get_mut(at) {
                *place = byte;
            }
        }
    }
}

/// The record is stuffed with a long last field, mostly up to the longest frame.
fn stuffed(random: &mut Random, fields: &mut Fields) {
    let held: usize = fields.iter().map(Vec::len).sum();
    let wanted =
        if random.chance(1, 8) { LONGEST_FRAME } else { held + random.between(3, 40) as usize };
    let mut last = vec![TAG_SHARE, 0, 3];
    last.resize(wanted.saturating_sub(held).max(3), 3);
    fields.push(last);
}

/// Some field, if there is one.
fn any_field<'a>(random: &mut Random, fields: &'a mut Fields) -> Option<&'a mut Vec<u8>> {
    let at = random.below(fields.len() as u64) as usize;
    fields.get_mut(at)
}
