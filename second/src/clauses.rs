//! Which clauses of soundness a timetable breaks, each looked at by itself and in numbers.

use crate::breaks::Clause;
use crate::slots::share_a_slot;
use crate::timetable::{period_in_range, Entry, Timetable, CYCLE, DEBT_LIMIT, IDS, LAST_SLOT};

/// The clauses that a timetable breaks. One stands for those that are the same of the rules: a shared
/// slot with equal periods for any shared slot, another start for any walk that misses.
pub fn broken_clauses(timetable: &Timetable) -> Vec<Clause> {
    let kept = [of_slots(timetable), of_entries(timetable), of_starts(timetable)].concat();
    kept.into_iter().filter(|(_, kept)| !kept).map(|(clause, _)| clause).collect()
}

/// A clause is broken and every other holds. An id that is not listed has weight 0 and no slot, so
/// where its start is another than its shortfall the walk misses too.
pub fn broken_alone(timetable: &Timetable, clause: Clause) -> bool {
    let expected = match clause {
        Clause::DifferentPeriods => vec![Clause::EqualPeriods],
        Clause::OtherShortfall | Clause::OtherOwner => vec![Clause::OtherStart],
        Clause::UnlistedStart => vec![Clause::UnlistedStart, Clause::OtherStart],
        clause => vec![clause],
    };
    broken_clauses(timetable) == expected
}

/// Which clauses of request slot, length, base and owners hold.
fn of_slots(timetable: &Timetable) -> Vec<(Clause, bool)> {
    let length = usize::from(timetable.length);
    let sum = timetable.request_slot.checked_add(length as u64);
    let owners = timetable.owners.iter();
    vec![
        (Clause::RequestSlot, timetable.request_slot <= LAST_SLOT),
        (Clause::Length, length <= timetable.owners.len()),
        (Clause::Base, sum == Some(timetable.base)),
        (Clause::Owner, owners.clone().take(length).all(|&owner| timetable.lists(owner))),
        (Clause::UnusedOwner, owners.skip(length).all(|&owner| owner == 0)),
    ]
}

/// Which clauses of the entries hold.
fn of_entries(timetable: &Timetable) -> Vec<(Clause, bool)> {
    let entries = &timetable.entries;
    let listed =
        |holds: fn(&Entry) -> bool| entries.iter().filter(|entry| entry.listed()).all(holds);
    let absent =
        |holds: fn(&Entry) -> bool| entries.iter().filter(|entry| !entry.listed()).all(holds);
    vec![
        (Clause::Period, listed(|entry| period_in_range(entry.period))),
        (Clause::Bound, listed(|entry| (1..=8).contains(&entry.bound))),
        (Clause::Offset, listed(|entry| u16::from(entry.offset) < entry.period)),
        (Clause::Shortfall, listed(|entry| before_slice(entry) < too_far(entry))),
        (Clause::EqualPeriods, !share_a_slot(entries)),
        (Clause::Unlisted, absent(|entry| (entry.offset, entry.bound) == (0, 0))),
        (Clause::Debt, absent(|entry| entry.shortfall < DEBT_LIMIT)),
    ]
}

/// Which clauses of the starts and of the walk hold.
fn of_starts(timetable: &Timetable) -> Vec<(Clause, bool)> {
    let ids = || timetable.entries.iter().zip(timetable.starts);
    let below = |(entry, start)| !Entry::listed(entry) || i64::from(start) < too_far(entry);
    let stays = |(entry, start): (&Entry, u16)| entry.listed() || start == entry.shortfall;
    let arrives = |id| reached(timetable, id) == i64::from(timetable.entries[id].shortfall);
    vec![
        (Clause::Start, ids().all(below)),
        (Clause::UnlistedStart, ids().all(stays)),
        (Clause::OtherStart, (0..IDS).all(arrives)),
    ]
}

/// An entry's weight; none where it has no period.
fn weight(entry: &Entry) -> i64 {
    (CYCLE as i64).checked_div(i64::from(entry.period)).unwrap_or(0)
}

/// What an entry's shortfall stays below: 256 R.
fn too_far(entry: &Entry) -> i64 {
    CYCLE as i64 * i64::from(entry.bound)
}

/// An entry's shortfall before its first slice.
fn before_slice(entry: &Entry) -> i64 {
    i64::from(entry.shortfall) + i64::from(entry.offset) * weight(entry)
}

/// Where the transition leads an id: the largest excess of entitlement over supply in the windows that
/// end at the base; that of the whole transition counts from the start.
fn reached(timetable: &Timetable, id: usize) -> i64 {
    let mut excess = 0;
    let mut largest = 0;
    for &owner in timetable.transition().iter().rev() {
        largest = largest.max(excess);
        excess += weight(&timetable.entries[id]);
        excess -= if usize::from(owner) == id { CYCLE as i64 } else { 0 };
    }
    largest.max(i64::from(timetable.starts[id]) + excess)
}
