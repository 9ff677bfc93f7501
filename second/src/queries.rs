//! The two queries: who owns a slot, and how a partition stands at a slot.

use crate::numbers;
use crate::slots::{cycle_owners, Walk};
use crate::timetable::{Timetable, CYCLE, IDS, LAST_SLOT};

/// Owner query: the number, and the slot's owner or 255 for idle; it refuses 1, then 4, then 6.
pub fn owner_query(timetable: &Timetable, slot: u64) -> (u8, u8) {
    if !timetable.sound() {
        return (numbers::NOT_SOUND, 0);
    }
    if slot > LAST_SLOT {
        return (numbers::OUT_OF_RANGE, 0);
    }
    if slot < timetable.request_slot {
        return (numbers::TOO_EARLY, 0);
    }
    (numbers::ACCEPTED, owner_at(timetable, slot))
}

/// The owner of a slot from the request slot on: in the transition, or in the cycle from the base.
fn owner_at(timetable: &Timetable, slot: u64) -> u8 {
    for (transition_slot, &owner) in (timetable.request_slot..).zip(timetable.transition()) {
        if transition_slot == slot {
            return owner;
        }
    }
    let in_cycle = slot.saturating_sub(timetable.base) % CYCLE as u64;
    cycle_owners(&timetable.entries)[in_cycle as usize]
}

/// Standing query: the number, the shortfall at the slot's start and the slices had from the request
/// slot up to there; it refuses 1, 4, 6, then 10.
pub fn standing_query(timetable: &Timetable, id: u8, slot: u64) -> (u8, u16, u64) {
    if !timetable.sound() {
        return (numbers::NOT_SOUND, 0, 0);
    }
    if usize::from(id) >= IDS || slot > LAST_SLOT {
        return (numbers::OUT_OF_RANGE, 0, 0);
    }
    if slot < timetable.request_slot {
        return (numbers::TOO_EARLY, 0, 0);
    }
    if !timetable.lists(id) {
        return (numbers::NOT_LISTED, 0, 0);
    }
    let (shortfall, slices) = standing_at(timetable, usize::from(id), slot);
    (numbers::ACCEPTED, shortfall, slices)
}

/// A listed partition's shortfall at a slot from the request slot on and its slices up to there.
fn standing_at(timetable: &Timetable, id: usize, slot: u64) -> (u16, u64) {
    let mut walk = Walk::from_request_slot(timetable);
    walk.pass(slot.saturating_sub(timetable.request_slot));
    (walk.shortfalls[id] as u16, walk.slices[id])
}
