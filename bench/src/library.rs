//! The library through `include/tarnflaw.rs`, told in the port's types, so that the two can be compared.

use port::{Outcome, OwnerAnswer, Refusal, StandingAnswer, Writing};
pub use tarnflaw::empty;

/// Changes the timetable of an image by a request.
pub fn change(image: &mut [u8], request: &[u8], area: &mut [u8]) -> Outcome {
    let told = tarnflaw::change(image, request, area);
    Outcome { number: told.number, place: told.place, tries: told.tries, written: told.written }
}

/// The owner of a slot.
pub fn owner(image: &[u8], slot: u64) -> OwnerAnswer {
    let told = tarnflaw::owner(image, slot);
    OwnerAnswer { number: told.number, place: told.place, owner: told.owner }
}

/// The shortfall and the slices of an id at a slot.
pub fn standing(image: &[u8], id: u8, slot: u64) -> StandingAnswer {
    let told = tarnflaw::standing(image, id, slot);
    let (number, place) = (told.number, told.place);
    StandingAnswer { number, place, shortfall: told.shortfall, slices: told.slices }
}

/// Reads an archived answer into an area.
pub fn read_answer(answer: &[u8], area: &mut [u8]) -> Refusal {
    let told = tarnflaw::read_answer(answer, area);
    Refusal { number: told.number, place: told.place }
}

/// Writes a request to an area.
pub fn write_request(slot: u64, limit: u8, listing: &[u8], area: &mut [u8]) -> Writing {
    let told = tarnflaw::write_request(slot, limit, listing, area);
    Writing { number: told.number, place: told.place, written: told.written }
}
