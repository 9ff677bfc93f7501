//! Timetables with one clause of soundness broken, at its boundary and beyond; now and then the
//! last value that is still sound is taken instead.

use crate::built::{
    alone, leave_out_transition, led_to, lengthen, limit, listed_ids, match_base, set_debt, settle,
    some_listed, some_unlisted, unlisted_ids,
};
use crate::random::Random;
use crate::timetable::{
    Entry, Timetable, CYCLE, DEBT_LIMIT, IDLE, IDS, LARGEST_BOUND, LARGEST_EXPONENT, LAST_SLOT,
    LONGEST_TRANSITION,
};
use crate::walks;

/// The clauses of soundness, docs/RULES.md 3.6 to 3.14, and the ways in which the walk misses.
#[derive(Clone, Copy, Debug, PartialEq, Eq)]
pub enum Clause {
    RequestSlot,
    Length,
    Base,
    Owner,
    Period,
    Bound,
    Offset,
    Shortfall,
    EqualPeriods,
    DifferentPeriods,
    Unlisted,
    UnusedOwner,
    Start,
    UnlistedStart,
    Debt,
    OtherStart,
    OtherShortfall,
    OtherOwner,
}

/// Every clause with its name.
pub const CLAUSES: [(Clause, &str); 18] = [
    (Clause::RequestSlot, "request slot"),
    (Clause::Length, "length"),
    (Clause::Base, "base"),
    (Clause::Owner, "owner"),
    (Clause::Period, "period"),
    (Clause::Bound, "bound"),
    (Clause::Offset, "offset"),
    (Clause::Shortfall, "shortfall"),
    (Clause::EqualPeriods, "shared slot, equal periods"),
    (Clause::DifferentPeriods, "shared slot, different periods"),
    (Clause::Unlisted, "unlisted entry"),
    (Clause::UnusedOwner, "unused owner"),
    (Clause::Start, "start"),
    (Clause::UnlistedStart, "start of an unlisted id"),
    (Clause::Debt, "debt of an unlisted id"),
    (Clause::OtherStart, "walk, another start"),
    (Clause::OtherShortfall, "walk, another shortfall"),
    (Clause::OtherOwner, "walk, another owner"),
];

/// A sound timetable with a clause broken.
pub fn broken(random: &mut Random, clause: Clause, timetable: &Timetable) -> Timetable {
    let mut edited = *timetable;
    match clause {
        Clause::RequestSlot => request_slot(random, &mut edited),
        Clause::Length => length(random, &mut edited),
        Clause::Base => base(random, &mut edited),
        Clause::Owner => owner(random, &mut edited),
        Clause::Period => period(random, &mut edited),
        Clause::Bound => bound(random, &mut edited),
        Clause::Offset => offset(random, &mut edited),
        Clause::Shortfall => shortfall(random, &mut edited),
        Clause::EqualPeriods => equal_periods(random, &mut edited),
        Clause::DifferentPeriods => different_periods(random, &mut edited),
        Clause::Unlisted => unlisted(random, &mut edited),
        Clause::UnusedOwner => unused_owner(random, &mut edited),
        Clause::Start => walks::start(random, &mut edited),
        Clause::UnlistedStart => walks::unlisted_start(random, &mut edited),
        Clause::Debt => debt(random, &mut edited),
        Clause::OtherStart => walks::other_start(random, &mut edited),
        Clause::OtherShortfall => walks::other_shortfall(random, &mut edited),
        Clause::OtherOwner => walks::other_owner(random, &mut edited),
    }
    edited
}

/// The request slot is 2^48 or above, or the highest one, with the base to match.
fn request_slot(random: &mut Random, timetable: &mut Timetable) {
    timetable.request_slot = match random.below(6) {
        0 => LAST_SLOT,
        1..=2 => LAST_SLOT + 1,
        3 => LAST_SLOT + 1 + random.below(1 << 50),
        4 => LAST_SLOT + 1 + timetable.request_slot,
        _ => u64::MAX - u64::from(timetable.length),
    };
    match_base(timetable);
}

/// The length is 65 or above, or 64, with listed owners and the base to match.
fn length(random: &mut Random, timetable: &mut Timetable) {
    let length = match random.below(6) {
        0 => LONGEST_TRANSITION as u8,
        1..=2 => LONGEST_TRANSITION as u8 + 1,
        3 => random.between(66, 254) as u8,
        _ => u8::MAX,
    };
    lengthen(random, timetable, LONGEST_TRANSITION as u8);
    timetable.length = length;
    match_base(timetable);
}

/// The base is one more, one less or far off, or the sum would pass 64 bits.
fn base(random: &mut Random, timetable: &mut Timetable) {
    let (right, length) = (timetable.base, u64::from(timetable.length.max(1)));
    timetable.base = match random.below(9) {
        0..=1 => right.wrapping_add(1),
        2..=3 => right.wrapping_sub(1),
        4 => right ^ 1 << random.below(64),
        5 => random.bits(),
        6 => right.wrapping_add(length),
        7 => right.wrapping_sub(length),
        _ => {
            lengthen(random, timetable, LONGEST_TRANSITION as u8);
            timetable.request_slot = u64::MAX - random.below(LONGEST_TRANSITION as u64);
            timetable.request_slot.wrapping_add(LONGEST_TRANSITION as u64)
        }
    };
}

/// An owner of the transition is an id that is not listed, 32, 255, or some other number above; the
/// walk leads on without that slot where the bounds allow it.
fn owner(random: &mut Random, timetable: &mut Timetable) {
    let listed = some_listed(random, timetable);
    if timetable.length == 0 {
        let length = random.between(1, LONGEST_TRANSITION as u64) as u8;
        lengthen(random, timetable, length);
    }
    let unlisted = random.pick(&unlisted_ids(timetable)).unwrap_or(IDS);
    let owner = match random.below(8) {
        0..=3 => unlisted as u8,
        4..=5 => IDS as u8,
        6 => IDLE,
        _ => listed as u8 + 32 * random.between(1, 6) as u8,
    };
    let last = u64::from(timetable.length).saturating_sub(1);
    let between = random.between(0, last);
    let at = random.pick(&[0, last, between]).unwrap_or(0);
    timetable.owners[at as usize] = owner;
    let missing = *timetable;
    settle(timetable);
    if timetable.length < missing.length {
        *timetable = missing;
    }
}

/// An owner after the transition is not zero.
fn unused_owner(random: &mut Random, timetable: &mut Timetable) {
    if usize::from(timetable.length) == LONGEST_TRANSITION {
        leave_out_transition(timetable);
    }
    let (first, last) = (u64::from(timetable.length), LONGEST_TRANSITION as u64 - 1);
    let between = random.between(first, last);
    let at = random.pick(&[first, last, between]).unwrap_or(last);
    let listed = random.pick(&listed_ids(timetable)).unwrap_or(1) as u8;
    let owner = random.pick(&[listed, 1, IDS as u8, IDLE]).unwrap_or(1);
    timetable.owners[at as usize] = owner.max(1);
}

/// A period is not a power of two, or above 256.
fn period(random: &mut Random, timetable: &mut Timetable) {
    let id = some_listed(random, timetable);
    let period = match random.below(8) {
        0 => 3,
        1 => 257,
        2..=3 => 512,
        4 => random.pick(&[255, 192, 24, 6]).unwrap_or(6),
        5 => 1 << random.between(10, 15),
        6 => 256 * random.between(2, 255) as u16 + 2,
        _ => random.between(3, 65535) as u16,
    };
    if random.chance(1, 2) {
        alone(timetable, id);
        let entry = &mut timetable.entries[id];
        *entry = Entry { offset: entry.offset.min(2), bound: LARGEST_BOUND, ..*entry };
    }
    timetable.entries[id].period = period;
    settle(timetable);
}

/// A bound is 0, 9 or above, or 8.
fn bound(random: &mut Random, timetable: &mut Timetable) {
    let id = some_listed(random, timetable);
    timetable.entries[id].bound = match random.below(8) {
        0 => LARGEST_BOUND,
        1..=2 => 0,
        3..=4 => LARGEST_BOUND + 1,
        5 => random.between(10, 254) as u8,
        _ => u8::MAX,
    };
}

/// An offset is its period or above, or just below it; mostly the bound is kept nevertheless.
fn offset(random: &mut Random, timetable: &mut Timetable) {
    let id = some_listed(random, timetable);
    if random.chance(1, 2) {
        alone(timetable, id);
    }
    let entry = &mut timetable.entries[id];
    if entry.period == CYCLE as u16 {
        *entry = Entry { period: 1 << random.below(8), bound: LARGEST_BOUND, ..Entry::default() };
    }
    if random.chance(3, 4) {
        (entry.bound, timetable.starts[id]) = (LARGEST_BOUND, 0);
    }
    let (period, before) = (entry.period, u16::from(entry.offset));
    let offset = match random.below(6) {
        0 => period - 1,
        1..=2 => period,
        3 => before + period,
        4 => period * random.between(1, 7) as u16,
        _ => random.between(u64::from(period), 255) as u16,
    };
    entry.offset = offset.min(255) as u8;
    settle(timetable);
}

/// Shortfall + offset x weight is exactly 256 R, one below, or above, and the transition leads there.
fn shortfall(random: &mut Random, timetable: &mut Timetable) {
    let id = some_listed(random, timetable);
    if timetable.length == 0 && random.chance(1, 2) {
        let length = random.between(1, 8) as u8;
        lengthen(random, timetable, length);
    }
    let limit = limit(&timetable.entries[id]);
    let shortfall = match random.below(8) {
        0..=2 => limit,
        3..=5 => limit - 1,
        6 => limit + random.between(1, 300) as u16,
        _ => random.pick(&[2048, 4096, 1 << 15, u16::MAX, limit + 256]).unwrap_or(limit),
    };
    arrive(timetable, id, shortfall);
}

/// A partition has a shortfall at the base, with a start below 256 R that leads there; if there is
/// none, the transition is left out.
fn arrive(timetable: &mut Timetable, id: usize, shortfall: u16) {
    timetable.entries[id].shortfall = shortfall;
    let most = CYCLE as u16 * u16::from(timetable.entries[id].bound);
    match (0..most).rev().find(|&start| led_to(timetable, id, start) == shortfall) {
        Some(start) => timetable.starts[id] = start,
        None => leave_out_transition(timetable),
    }
}

/// Two partitions with one period share their slots, or now and then are neighbours.
fn equal_periods(random: &mut Random, timetable: &mut Timetable) {
    let one = some_listed(random, timetable);
    let Entry { period, offset, .. } = timetable.entries[one];
    let next = if random.chance(1, 6) { 1 } else { 0 };
    let offset = (u16::from(offset) + next) % period;
    put_beside(random, timetable, one, period, offset);
}

/// Two partitions with different periods share a slot, or now and then are neighbours.
fn different_periods(random: &mut Random, timetable: &mut Timetable) {
    let one = some_listed(random, timetable);
    let Entry { period, offset, .. } = timetable.entries[one];
    let periods: Vec<u16> =
        (0..=LARGEST_EXPONENT).map(|k| 1 << k).filter(|&other| other != period).collect();
    let other = random.pick(&periods).unwrap_or(period);
    let next = if random.chance(1, 6) { 1 } else { 0 };
    let later = period.saturating_mul(random.below(u64::from(other / period).max(1)) as u16);
    let offset = u16::from(offset).saturating_add(later).saturating_add(next) % other;
    put_beside(random, timetable, one, other, offset);
}

/// Another id than the given one gets a period and an offset; its bound is kept.
fn put_beside(
    random: &mut Random,
    timetable: &mut Timetable,
    one: usize,
    period: u16,
    offset: u16,
) {
    let others: Vec<usize> = (0..IDS).filter(|&id| id != one).collect();
    let unlisted = random.pick(&unlisted_ids(timetable));
    let Some(id) = unlisted.or(random.pick(&others)) else { return };
    let bound = random.between(1, u64::from(LARGEST_BOUND)) as u8;
    timetable.entries[id] = Entry { period, offset: offset as u8, bound, shortfall: 0 };
    timetable.starts[id] = 0;
    settle(timetable);
}

/// An unlisted entry has an offset or a bound, or a listed one loses its period.
fn unlisted(random: &mut Random, timetable: &mut Timetable) {
    let Some(id) = random.pick(&unlisted_ids(timetable)).filter(|_| random.chance(5, 6)) else {
        let id = some_listed(random, timetable);
        timetable.entries[id].period = 0;
        return;
    };
    let far = random.between(1, 255) as u8;
    let entry = &mut timetable.entries[id];
    match random.below(2) {
        0 => entry.offset = random.pick(&[1, far]).unwrap_or(1),
        _ => entry.bound = random.pick(&[1, LARGEST_BOUND, far]).unwrap_or(1),
    }
}

/// An unlisted id is owed exactly 2,048 at the request slot and at the base, one less, or more.
fn debt(random: &mut Random, timetable: &mut Timetable) {
    let id = some_unlisted(random, timetable);
    let debt = match random.below(8) {
        0..=3 => DEBT_LIMIT,
        4..=5 => DEBT_LIMIT - 1,
        6 => DEBT_LIMIT + random.between(1, 300) as u16,
        _ => random.pick(&[DEBT_LIMIT + 256, 4096, 1 << 15, u16::MAX]).unwrap_or(DEBT_LIMIT),
    };
    set_debt(timetable, id, debt);
}
