//! The change of a timetable by a request: the stages in their order, then the search.

use crate::entry::{weight_of, Entry};
use crate::number::{ACCEPTED, BEHIND, NOT_SOUND, OVERFULL, SMALL_AREA, TOO_EARLY};
use crate::records::{read_request, write_answer, Request};
use crate::search::{search, Listed, Searched};
use crate::timetable::{Timetable, AREA, IDS, WHOLE};
use crate::Refusal;

/// What a request gets.
#[derive(Clone, Copy, Debug, PartialEq, Eq)]
pub struct Outcome {
    pub number: u8,
    pub place: usize,
    pub tries: u8,
    pub written: usize,
}

impl Outcome {
    /// A refusal after so many tries.
    pub fn refused(refusal: Refusal, tries: u8) -> Outcome {
        Outcome { number: refusal.number, place: refusal.place, tries, written: 0 }
    }
}

/// Changes a timetable by a request; a refusal leaves it and the area as they were.
pub fn change_timetable(timetable: &mut Timetable, record: &[u8], area: &mut [u8]) -> Outcome {
    let request = match admitted(timetable, record, area.len()) {
        Ok(request) => request,
        Err(refusal) => return Outcome::refused(refusal, 0),
    };
    let elapsed = request.slot - timetable.base;
    let starts = timetable.entries.map(|entry| entry.shortfall_after(elapsed));
    let mut room = [Listed::default(); IDS];
    let listed = match entering(timetable, &request, &starts, &mut room) {
        Ok(listed) => listed,
        Err(refusal) => return Outcome::refused(refusal, 0),
    };
    let searched = search(listed, request.longest);
    let length = match searched.length {
        Ok(length) => length,
        Err(refusal) => return Outcome::refused(refusal, searched.tries),
    };
    accept(timetable, request.slot, length, starts, listed, &searched);
    let owners = &timetable.owners[..usize::from(length)];
    let written = write_answer(area, owners, &timetable.entries);
    Outcome { number: ACCEPTED, place: 0, tries: searched.tries, written }
}

/// The request, if stages 1 to 6 let it pass.
fn admitted(timetable: &Timetable, record: &[u8], area: usize) -> Result<Request, Refusal> {
    if !timetable.is_sound() {
        return Err(Refusal::at(NOT_SOUND, 0));
    }
    if area < AREA {
        return Err(Refusal::at(SMALL_AREA, 0));
    }
    let request = read_request(record)?;
    if request.slot < timetable.base {
        return Err(Refusal::at(TOO_EARLY, 0));
    }
    Ok(request)
}

/// The listed partitions at the request slot, if stages 7 and 8 let them pass.
fn entering<'a>(
    timetable: &Timetable,
    request: &Request,
    starts: &[u16; IDS],
    room: &'a mut [Listed; IDS],
) -> Result<&'a mut [Listed], Refusal> {
    let mut count = 0;
    let mut weights = 0;
    let mut behind = None;
    for (id, (old, ask)) in timetable.entries.iter().zip(&request.asks).enumerate() {
        if ask.period == 0 {
            continue;
        }
        let weight = weight_of(ask.period);
        weights += weight;
        if weights > WHOLE {
            return Err(Refusal::at(OVERFULL, id));
        }
        let bound = if ask.bound == 0 { old.bound_before() } else { ask.bound };
        if starts[id] >= WHOLE * u16::from(bound) {
            behind = behind.or(Some(id));
        }
        let (period, shortfall) = (ask.period, starts[id]);
        room[count] = Listed { id: id as u8, bound, offset: 0, period, weight, shortfall };
        count += 1;
    }
    match behind {
        Some(id) => Err(Refusal::at(BEHIND, id)),
        None => Ok(&mut room[..count]),
    }
}

/// Puts the new timetable in the place of the old one. An id that it does not list keeps its
/// shortfall.
fn accept(
    timetable: &mut Timetable,
    slot: u64,
    length: u8,
    starts: [u16; IDS],
    listed: &[Listed],
    found: &Searched,
) {
    timetable.request = slot;
    timetable.length = length;
    timetable.owners = found.owners;
    timetable.base = slot + u64::from(length);
    timetable.entries = starts.map(Entry::absent);
    timetable.starts = starts;
    for partition in listed {
        timetable.entries[usize::from(partition.id)] = Entry {
            period: partition.period,
            offset: partition.offset,
            bound: partition.bound,
            shortfall: partition.shortfall,
        };
    }
}
