//! Sound timetables that no history need reach, and transitions made longer or left out: whatever the
//! owners and the starts, the shortfalls at the base are those to which the transition leads.

use crate::random::Random;
use crate::slots::{cycle_owners, next_shortfall, own_slots, pass_slot};
use crate::timetable::{
    Entry, Share, Timetable, CYCLE, DEBT_LIMIT, IDLE, IDS, LARGEST_BOUND, LARGEST_EXPONENT,
    LAST_SLOT, LONGEST_TRANSITION,
};

/// A sound timetable that no history need reach: any offsets, transition owners and starts.
pub fn built(random: &mut Random) -> Timetable {
    let mut timetable = Timetable::empty();
    let most = random.pick(&[3, 8, 60]).unwrap_or(3);
    place_some(random, &mut timetable, most);
    let length = random.between(0, LONGEST_TRANSITION as u64) as u8;
    let lengths = [0, 1, LONGEST_TRANSITION as u8, length];
    let length = random.pick(&lengths).filter(|_| !listed_ids(&timetable).is_empty());
    any_transition(random, &mut timetable, length.unwrap_or(0));
    any_debts(random, &mut timetable);
    any_request_slot(random, &mut timetable);
    timetable
}

/// A sound timetable of few partitions with a transition, mostly the longest.
pub fn built_with_transition(random: &mut Random) -> Timetable {
    let mut timetable = Timetable::empty();
    let most = random.pick(&[4, 4, 4, 16]).unwrap_or(4);
    place_some(random, &mut timetable, most);
    some_listed(random, &mut timetable);
    let longest = LONGEST_TRANSITION as u64;
    let length = if random.chance(15, 16) { longest } else { random.between(1, longest) };
    any_transition(random, &mut timetable, length as u8);
    any_debts(random, &mut timetable);
    any_request_slot(random, &mut timetable);
    timetable
}

/// Some ids that are not listed are owed something, now and then as much as there is.
fn any_debts(random: &mut Random, timetable: &mut Timetable) {
    let part = random.pick(&[0, 1, 1, 4]).unwrap_or(0);
    for id in unlisted_ids(timetable) {
        if random.chance(part, 8) {
            let any = random.below(u64::from(DEBT_LIMIT)) as u16;
            let debt = random.pick(&[any, any, any, 1, 255, 256, DEBT_LIMIT - 1]).unwrap_or(any);
            set_debt(timetable, id, debt);
        }
    }
}

/// An id that is not listed is owed so much, at the request slot and at the base.
pub fn set_debt(timetable: &mut Timetable, id: usize, debt: u16) {
    timetable.entries[id] = Entry { shortfall: debt, ..Entry::default() };
    timetable.starts[id] = debt;
}

/// The timetable is put to a request slot at 0, near 2^48, anywhere, or below 2,000.
fn any_request_slot(random: &mut Random, timetable: &mut Timetable) {
    timetable.request_slot = match random.below(10) {
        0 => 0,
        1 => LAST_SLOT - random.below(100),
        2..=3 => random.below(LAST_SLOT + 1),
        _ => random.below(2000),
    };
    match_base(timetable);
}

/// Some partitions, fewer than so many, are listed where their slots are free.
fn place_some(random: &mut Random, timetable: &mut Timetable, most: u64) {
    for _ in 0..random.below(most) {
        let longest = random.pick(&[3, 5, 8, 8]).unwrap_or(8);
        let period = 1 << random.between(0, longest);
        let offset = random.below(period) as u16;
        place(random, timetable, period as u16, offset);
    }
}

/// A partition is listed with some bound and a shortfall within it, if its slots are free.
fn place(random: &mut Random, timetable: &mut Timetable, period: u16, offset: u16) {
    let owners = cycle_owners(&timetable.entries);
    let free = own_slots(offset, period).all(|slot| owners[slot] == IDLE);
    let Some(id) = random.pick(&unlisted_ids(timetable)).filter(|_| free) else { return };
    let bound = random.between(1, u64::from(LARGEST_BOUND)) as u8;
    timetable.entries[id] = Entry { period, offset: offset as u8, bound, shortfall: 0 };
    start_anywhere(random, timetable, id);
}

/// A transition of so many slots: now and then some of any owners, and on as the cycle goes; then
/// every partition starts anywhere.
fn any_transition(random: &mut Random, timetable: &mut Timetable, length: u8) {
    if random.chance(2, 3) {
        any_owners(random, timetable, length);
    }
    lengthen(random, timetable, length);
    for id in listed_ids(timetable) {
        start_anywhere(random, timetable, id);
    }
}

/// Up to so many transition slots go to any listed partitions; the last are left out again while
/// somebody's bound is broken by them.
fn any_owners(random: &mut Random, timetable: &mut Timetable, most: u8) {
    let ids = listed_ids(timetable);
    let length = random.between(0, u64::from(most)) as u8;
    for owner in timetable.owners.iter_mut().take(usize::from(length)) {
        *owner = random.pick(&ids).unwrap_or(0) as u8;
    }
    timetable.length = length;
    settle(timetable);
}

/// A partition starts anywhere below 256 R from where the transition leads it within its bound; now
/// and then as far behind as it may be.
fn start_anywhere(random: &mut Random, timetable: &mut Timetable, id: usize) {
    let entry = timetable.entries[id];
    let most = CYCLE as u16 * u16::from(entry.bound) - 1;
    let limit = limit(&entry);
    let any = random.between(0, u64::from(most)) as u16;
    let mut start = random.pick(&[0, any, any, most]).unwrap_or(0);
    while led_to(timetable, id, start) >= limit && start > 0 {
        start /= 2;
    }
    let further = limit.saturating_sub(1 + led_to(timetable, id, start));
    if random.chance(1, 3) {
        start = (start + further).min(most);
    }
    timetable.starts[id] = start;
    timetable.entries[id].shortfall = led_to(timetable, id, start);
}

/// The shortfall at the base to which the transition leads an id from a start.
pub fn led_to(timetable: &Timetable, id: usize, start: u16) -> u16 {
    let Entry { period, bound, .. } = timetable.entries[id];
    let weight = Share { period, bound }.weight();
    let over = |shortfall, &owner: &u8| next_shortfall(shortfall, weight, usize::from(owner) == id);
    let shortfall = timetable.transition().iter().fold(i64::from(start), over);
    shortfall.min(i64::from(u16::MAX)) as u16
}

/// The shortfalls at the base are those to which the transition leads. Where a bound would be broken
/// the partition starts at 0, and where that is not enough the last slots are left out.
pub fn settle(timetable: &mut Timetable) {
    while !listed_ids(timetable).into_iter().all(|id| arrives(timetable, id)) {
        timetable.length -= 1;
        timetable.owners[usize::from(timetable.length)] = 0;
    }
    match_base(timetable);
}

/// A partition's shortfall at the base is the one to which the transition leads from its start, or
/// from 0; whether its bound is kept so.
fn arrives(timetable: &mut Timetable, id: usize) -> bool {
    let limit = limit(&timetable.entries[id]);
    if led_to(timetable, id, timetable.starts[id]) >= limit {
        timetable.starts[id] = 0;
    }
    let shortfall = led_to(timetable, id, timetable.starts[id]);
    timetable.entries[id].shortfall = shortfall;
    shortfall < limit || timetable.length == 0
}

/// The first shortfall at which an entry's bound would be broken before its first slice.
pub fn limit(entry: &Entry) -> u16 {
    let weight = Share { period: entry.period, bound: entry.bound }.weight() as u16;
    let before_slice = u16::from(entry.offset).saturating_mul(weight);
    (CYCLE as u16 * u16::from(entry.bound)).saturating_sub(before_slice).max(1)
}

/// The transition goes on up to a length as the cycle goes, and idle slots go to anyone; so the
/// offsets count from the new base.
pub fn lengthen(random: &mut Random, timetable: &mut Timetable, length: u8) {
    if length > 0 {
        some_listed(random, timetable);
    }
    while timetable.length < length {
        let idle = random.pick(&listed_ids(timetable)).unwrap_or(0) as u8;
        go_on(timetable, idle);
    }
    match_base(timetable);
}

/// One more transition slot, the first of the cycle, is its owner's, and the given id's if it is idle.
pub fn go_on(timetable: &mut Timetable, idle: u8) {
    let first = cycle_owners(&timetable.entries)[0];
    let owner = if first == IDLE { idle } else { first };
    let mut shortfalls = timetable.entries.map(|entry| i64::from(entry.shortfall));
    pass_slot(&timetable.listing(), &mut shortfalls, owner);
    for (entry, shortfall) in timetable.entries.iter_mut().zip(shortfalls) {
        entry.shortfall = shortfall as u16;
        entry.offset = match entry.offset {
            0 => entry.period.saturating_sub(1) as u8,
            offset => offset - 1,
        };
    }
    timetable.owners[usize::from(timetable.length)] = owner;
    timetable.length += 1;
}

/// The transition is left out: the base is the request slot, with the shortfalls that were at the base.
pub fn leave_out_transition(timetable: &mut Timetable) {
    timetable.owners = [0; LONGEST_TRANSITION];
    timetable.length = 0;
    timetable.starts = timetable.entries.map(|entry| entry.shortfall);
    match_base(timetable);
}

/// The base is the request slot + the length.
pub fn match_base(timetable: &mut Timetable) {
    timetable.base = timetable.request_slot.wrapping_add(u64::from(timetable.length));
}

/// No other partition is listed, each is owed what it started with, and the whole transition is the given
/// one's.
pub fn alone(timetable: &mut Timetable, id: usize) {
    for other in (0..IDS).filter(|&other| other != id) {
        set_debt(timetable, other, timetable.starts[other]);
    }
    let used = usize::from(timetable.length);
    timetable.owners.iter_mut().take(used).for_each(|owner| *owner = id as u8);
    settle(timetable);
}

/// A listed id; if nothing is listed, one that is listed now.
pub fn some_listed(random: &mut Random, timetable: &mut Timetable) -> usize {
    if listed_ids(timetable).is_empty() {
        let period = 1 << random.between(0, u64::from(LARGEST_EXPONENT));
        place(random, timetable, period, 0);
    }
    random.pick(&listed_ids(timetable)).unwrap_or(0)
}

/// An id that is not listed; if all are, no other than one is from now on.
pub fn some_unlisted(random: &mut Random, timetable: &mut Timetable) -> usize {
    if unlisted_ids(timetable).is_empty() {
        let id = some_listed(random, timetable);
        alone(timetable, id);
    }
    random.pick(&unlisted_ids(timetable)).unwrap_or(0)
}

/// The ids that are listed.
pub fn listed_ids(timetable: &Timetable) -> Vec<usize> {
    (0..IDS).filter(|&id| timetable.entries[id].listed()).collect()
}

/// The ids that are not listed.
pub fn unlisted_ids(timetable: &Timetable) -> Vec<usize> {
    (0..IDS).filter(|&id| !timetable.entries[id].listed()).collect()
}
