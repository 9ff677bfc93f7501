//! The owner query and the standing query.

use crate::number::{ACCEPTED, NOT_LISTED, NOT_SOUND, OUT_OF_RANGE, TOO_EARLY};
use crate::timetable::{Timetable, IDS, LAST_SLOT};

/// What the owner query gets.
#[derive(Clone, Copy, Debug, PartialEq, Eq)]
pub struct OwnerAnswer {
    pub number: u8,
    pub place: usize,
    pub owner: u8,
}

impl OwnerAnswer {
    /// A refused owner query.
    pub fn refused(number: u8) -> OwnerAnswer {
        OwnerAnswer { number, place: 0, owner: 0 }
    }
}

/// What the standing query gets.
#[derive(Clone, Copy, Debug, PartialEq, Eq)]
pub struct StandingAnswer {
    pub number: u8,
    pub place: usize,
    pub shortfall: u16,
    pub slices: u64,
}

impl StandingAnswer {
    /// A refused standing query.
    pub fn refused(number: u8) -> StandingAnswer {
        StandingAnswer { number, place: 0, shortfall: 0, slices: 0 }
    }
}

/// The owner of a slot, or 255 for idle.
pub fn owner(timetable: &Timetable, slot: u64) -> OwnerAnswer {
    if !timetable.is_sound() {
        return OwnerAnswer::refused(NOT_SOUND);
    }
    if slot > LAST_SLOT {
        return OwnerAnswer::refused(OUT_OF_RANGE);
    }
    if slot < timetable.request {
        return OwnerAnswer::refused(TOO_EARLY);
    }
    OwnerAnswer { number: ACCEPTED, place: 0, owner: timetable.owner_at(slot) }
}

/// The shortfall of an id at a slot's start, and its slices from the request slot up to there.
pub fn standing(timetable: &Timetable, id: u8, slot: u64) -> StandingAnswer {
    if !timetable.is_sound() {
        return StandingAnswer::refused(NOT_SOUND);
    }
    if usize::from(id) >= IDS || slot > LAST_SLOT {
        return StandingAnswer::refused(OUT_OF_RANGE);
    }
    if slot < timetable.request {
        return StandingAnswer::refused(TOO_EARLY);
    }
    if !timetable.lists(id) {
        return StandingAnswer::refused(NOT_LISTED);
    }
    let (shortfall, slices) = timetable.standing_at(id, slot);
    StandingAnswer { number: ACCEPTED, place: 0, shortfall, slices }
}
