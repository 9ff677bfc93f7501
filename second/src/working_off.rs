//! How a debt is worked off: an id of the longest period is listed alone with the least R that bears
//! what it is owed; where it can wait for one slot more, another id takes that slot, so that it is served
//! one slot early; and the slot behind it is asked for at once with an R that is one less.

use crate::built::listed_ids;
use crate::change::Request;
use crate::debts::{least_bound, owed_at};
use crate::random::Random;
use crate::timetable::{Share, Timetable, CYCLE, IDS, LARGEST_BOUND, LAST_SLOT};

/// The next request of one who works debts off, by what is listed.
pub fn worked_off(random: &mut Random, timetable: &Timetable) -> Request {
    let owing = |&id: &usize| timetable.entries[id].shortfall >= CYCLE as u16;
    let slow = |&id: &usize| timetable.entries[id].period == CYCLE as u16;
    let listed = listed_ids(timetable);
    match (listed.iter().copied().find(slow), listed.len()) {
        (Some(id), 1) if owing(&id) => served_early(random, timetable, id),
        (Some(id), 2) if timetable.entries[id].offset == 0 => {
            alone(timetable, id, timetable.base.saturating_add(1))
        }
        _ => {
            let most = (0..IDS).max_by_key(|&id| timetable.entries[id].shortfall).unwrap_or(0);
            alone(timetable, most, timetable.base)
        }
    }
}

/// An id alone, with the longest period and the least R that bears what it is owed.
fn alone(timetable: &Timetable, id: usize, slot: u64) -> Request {
    let slot = slot.min(LAST_SLOT);
    let mut listing = [None; IDS];
    let bound = least_bound(owed_at(timetable, slot)[id]);
    listing[id] = Some(Share { period: CYCLE as u16, bound });
    Request { slot, longest: 0, listing }
}

/// The same where the id can wait for one slot, with an id that takes every second slot from the next
/// one on.
fn served_early(random: &mut Random, timetable: &Timetable, id: usize) -> Request {
    let cycle = CYCLE as u64;
    let owed = |slot| owed_at(timetable, slot)[id];
    let mut slots = timetable.base..timetable.base.saturating_add(2 * cycle).min(LAST_SLOT);
    let waits = |slot: &u64| owed(*slot) % cycle as i64 == cycle as i64 - 2;
    let slot = slots.find(waits).unwrap_or(timetable.base);
    let mut request = alone(timetable, id, slot);
    let others: Vec<usize> = (0..IDS).filter(|&other| other != id).collect();
    let some = [(); 6].map(|()| random.pick(&others).unwrap_or(0));
    let further = |other: &usize| timetable.entries[*other].shortfall % CYCLE as u16;
    let other = some.into_iter().min_by_key(further).unwrap_or(0);
    let bound = least_bound(i64::from(timetable.entries[other].shortfall) + CYCLE as i64 / 2);
    request.listing[other] = Some(Share { period: 2, bound: bound.min(LARGEST_BOUND) });
    request
}
