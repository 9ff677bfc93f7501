//! The run of slots that accepted timetables make, one after another: who has each slot, and each
//! id's entitlement, supply and shortfall, slot by slot from the empty controller's first.

use crate::change::{change, AREA};
use crate::queries::owner_query;
use crate::slots::next_shortfall;
use crate::timetable::{Share, Timetable, CYCLE};
use std::ops::Range;

/// The timetables that were accepted, the last one last; before them the empty one is in force.
#[derive(Clone)]
pub struct Run {
    accepted: Vec<Timetable>,
}

impl Run {
    /// The run before any request.
    pub fn empty() -> Run {
        Run { accepted: Vec::new() }
    }

    /// The run after one more request; a refused one changes nothing.
    pub fn after(&self, request: &[u8]) -> Run {
        let outcome = change(&self.present(), request, &mut [0; AREA]);
        if outcome.number == 0 {
            self.with(outcome.timetable)
        } else {
            self.clone()
        }
    }

    /// The run with one more timetable, taken as accepted.
    pub fn with(&self, timetable: Timetable) -> Run {
        Run { accepted: [&self.accepted[..], &[timetable]].concat() }
    }

    /// How many requests were accepted.
    pub fn count(&self) -> usize {
        self.accepted.len()
    }

    /// The timetable that the next request meets.
    pub fn present(&self) -> Timetable {
        self.accepted.last().copied().unwrap_or(Timetable::empty())
    }

    /// The timetable in force in a slot: the last accepted of those with a request slot up to it.
    pub fn in_force(&self, slot: u64) -> Timetable {
        let up_to = self.accepted.iter().rev().find(|timetable| timetable.request_slot <= slot);
        up_to.copied().unwrap_or(Timetable::empty())
    }

    /// The owner of a slot, or 255 for idle.
    pub fn owner(&self, slot: u64) -> u8 {
        owner_query(&self.in_force(slot), slot).1
    }

    /// An id's share in a slot, if it is listed there.
    fn share(&self, id: u8, slot: u64) -> Option<Share> {
        self.in_force(slot).listing()[usize::from(id)]
    }

    /// An id's weight in a slot, 0 if it is not listed.
    pub fn weight(&self, id: u8, slot: u64) -> i64 {
        self.share(id, slot).map_or(0, |share| share.weight())
    }

    /// An id's shortfall at the start of a slot: the slots from 0 pass one by one, and those in which
    /// it is not listed add nothing.
    pub fn shortfall(&self, id: u8, slot: u64) -> i64 {
        (0..slot).fold(0, |shortfall, passed| {
            next_shortfall(shortfall, self.weight(id, passed), self.owner(passed) == id)
        })
    }

    /// An id's entitlement over a window: the sum of its weights.
    pub fn entitlement(&self, id: u8, window: Range<u64>) -> i64 {
        window.map(|slot| self.weight(id, slot)).sum()
    }

    /// The own slots of an id in a window.
    pub fn own_slots(&self, id: u8, window: Range<u64>) -> Vec<u64> {
        window.filter(|&slot| self.owner(slot) == id).collect()
    }

    /// An id's supply over a window: the number of its own slots.
    pub fn supply(&self, id: u8, window: Range<u64>) -> i64 {
        self.own_slots(id, window).len() as i64
    }

    /// A window's excess: its entitlement less 256 times its supply.
    pub fn excess(&self, id: u8, window: Range<u64>) -> i64 {
        self.entitlement(id, window.clone()) - CYCLE as i64 * self.supply(id, window)
    }
}
