//! What ids are owed, listed or not: the least R that bears it, and slots at which little is owed.

use crate::built::listed_ids;
use crate::change::Request;
use crate::slots::{Shortfalls, Walk};
use crate::timetable::{Listing, Timetable, CYCLE, IDS, LAST_SLOT};

/// What each id is owed at a slot from the request slot on.
pub fn owed_at(timetable: &Timetable, slot: u64) -> Shortfalls {
    let mut walk = Walk::from_request_slot(timetable);
    walk.pass(slot.saturating_sub(timetable.request_slot));
    walk.shortfalls
}

/// The ids that are not listed and are owed something.
pub fn absent_in_debt(timetable: &Timetable) -> Vec<usize> {
    let entries = &timetable.entries;
    (0..IDS).filter(|&id| !entries[id].listed() && entries[id].shortfall > 0).collect()
}

/// The least R that bears a shortfall.
pub fn least_bound(owed: i64) -> u8 {
    (owed / CYCLE as i64) as u8 + 1
}

/// Each R is 1.
pub fn lower(listing: &mut Listing) {
    for share in listing.iter_mut().flatten() {
        share.bound = 1;
    }
}

/// Each R is at least the one that bears what its id is owed at the request slot.
pub fn bear(timetable: &Timetable, request: &mut Request) {
    let owed = owed_at(timetable, request.slot);
    for (share, owed) in request.listing.iter_mut().zip(owed) {
        if let Some(share) = share {
            share.bound = share.bound.max(least_bound(owed));
        }
    }
}

/// Each R of one who returns is one less, if it can be.
pub fn fall_short(timetable: &Timetable, listing: &mut Listing) {
    for (share, entry) in listing.iter_mut().zip(&timetable.entries) {
        if let Some(share) = share.as_mut().filter(|_| !entry.listed()) {
            share.bound = (share.bound - 1).max(1);
        }
    }
}

/// The whole slots that all ids are owed are more than a quarter as many as the ids.
pub fn much_is_owed(timetable: &Timetable) -> bool {
    let whole = |shortfall: u16| usize::from(shortfall) / CYCLE;
    timetable.entries.iter().map(|entry| whole(entry.shortfall)).sum::<usize>() > IDS / 4
}

/// A slot of the first cycle from the base on at which what is listed is owed least.
pub fn slot_after_slices(timetable: &Timetable) -> u64 {
    let ids = listed_ids(timetable);
    let mut walk = Walk::from_request_slot(timetable);
    walk.pass(u64::from(timetable.length));
    let (mut least, mut best) = (i64::MAX, timetable.base.min(LAST_SLOT));
    for slot in timetable.base..timetable.base.saturating_add(CYCLE as u64).min(LAST_SLOT) {
        let owed = ids.iter().map(|&id| walk.shortfalls[id]).sum();
        if owed < least {
            (least, best) = (owed, slot);
        }
        walk.pass_one();
    }
    best
}
