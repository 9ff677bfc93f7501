//! The change: the stages in their order, and rules 1 to 4 with the transition and the placement.

use crate::numbers;
use crate::records::{read_request, write_answer, ReadRequest};
use crate::slots::{last_offset, own_slots, pass_slot, room, Shortfalls, Walk};
use crate::timetable::{Entry, Listing, Share, Timetable, CYCLE, IDS, LONGEST_TRANSITION};

/// The bytes that the answer area must have at least.
pub const AREA: usize = 231;

/// What a request is answered with, and the timetable that then holds.
#[derive(Clone, Copy, Debug, PartialEq, Eq)]
pub struct Outcome {
    pub number: u8,
    pub place: u64,
    pub tries: u16,
    pub written: usize,
    pub timetable: Timetable,
}

/// A refusal's number, place and tries.
#[derive(Clone, Copy, Debug, PartialEq, Eq)]
pub struct Refusal {
    pub number: u8,
    pub place: u64,
    pub tries: u16,
}

impl Refusal {
    /// A refusal before any length is tried.
    fn plain(number: u8, place: u64) -> Refusal {
        Refusal { number, place, tries: 0 }
    }

    /// A refusal whose place is a byte of the record.
    pub fn at_byte(number: u8, byte: usize) -> Refusal {
        Refusal::plain(number, byte as u64)
    }
}

/// What a request asks of a timetable, in full: its slot, the longest transition T, and the listing
/// from that slot on, with an R for each id.
#[derive(Clone, Copy, Debug, PartialEq, Eq)]
pub struct Request {
    pub slot: u64,
    pub longest: u8,
    pub listing: Listing,
}

impl Request {
    /// A request that was read, with the R as before where a field is short.
    pub fn in_full(read: &ReadRequest, timetable: &Timetable) -> Request {
        let mut listing = [None; IDS];
        for (id, ask) in read.asks.iter().enumerate() {
            listing[id] = ask.map(|ask| Share {
                period: ask.period,
                bound: ask.bound.unwrap_or(bound_before(timetable, id)),
            });
        }
        Request { slot: read.slot, longest: read.longest, listing }
    }
}

/// The R as before: the one with which an id is listed, and 1 for one that is not listed.
pub fn bound_before(timetable: &Timetable, id: usize) -> u8 {
    match timetable.listing()[id] {
        Some(share) => share.bound,
        None => 1,
    }
}

/// A found schedule: transition owners, offsets, shortfalls at the request slot and at the base, and
/// tries.
struct Schedule {
    owners: Vec<u8>,
    offsets: [u16; IDS],
    starts: Shortfalls,
    shortfalls: Shortfalls,
    tries: u16,
}

/// A request is accepted, with its answer in the area, or refused with nothing changed.
pub fn change(timetable: &Timetable, request: &[u8], area: &mut [u8]) -> Outcome {
    match answer(timetable, request, area.len()) {
        Ok((timetable, tries)) => {
            let record = write_answer(&timetable);
            for (place, byte) in area.iter_mut().zip(&record) {
                *place = *byte;
            }
            Outcome { number: numbers::ACCEPTED, place: 0, tries, written: record.len(), timetable }
        }
        Err(Refusal { number, place, tries }) => {
            Outcome { number, place, tries, written: 0, timetable: *timetable }
        }
    }
}

/// The lowest stage wins: 1, 2, the fields, then 6, 7, 8, and last 9 or 11.
fn answer(timetable: &Timetable, record: &[u8], area: usize) -> Result<(Timetable, u16), Refusal> {
    if !timetable.sound() {
        return Err(Refusal::plain(numbers::NOT_SOUND, 0));
    }
    if area < AREA {
        return Err(Refusal::plain(numbers::AREA_TOO_SMALL, 0));
    }
    let read = read_request(record)?;
    if read.slot < timetable.base {
        return Err(Refusal::plain(numbers::TOO_EARLY, 0));
    }
    let request = Request::in_full(&read, timetable);
    within_core(&request.listing)?;
    let shortfalls = shortfalls_at(timetable, request.slot);
    within_bounds(&request.listing, &shortfalls)?;
    let schedule = search(&request, shortfalls)?;
    Ok((renewed(&request, &schedule), schedule.tries))
}

/// The weights sum to at most 256, or the id at which the running sum first passes it is named.
fn within_core(listing: &Listing) -> Result<(), Refusal> {
    let mut sum = 0;
    for (id, share) in listed(listing) {
        sum += share.weight();
        if sum > CYCLE as i64 {
            return Err(Refusal::plain(numbers::OVERFULL, id as u64));
        }
    }
    Ok(())
}

/// Rule 1, beside the R as before: the shortfall of every id at the request slot, listed or not.
fn shortfalls_at(timetable: &Timetable, request_slot: u64) -> Shortfalls {
    let mut walk = Walk::from_request_slot(timetable);
    walk.pass(request_slot.saturating_sub(timetable.request_slot));
    walk.shortfalls
}

/// Every shortfall is below 256 times the new R, or the lowest id where it is not is named.
fn within_bounds(listing: &Listing, shortfalls: &Shortfalls) -> Result<(), Refusal> {
    match listed(listing).find(|&(id, share)| !share.keeps_bound(shortfalls[id])) {
        Some((id, _)) => Err(Refusal::plain(numbers::SHORTFALL_TOO_LARGE, id as u64)),
        None => Ok(()),
    }
}

/// Rule 2: lengths 0, 1, 2 and so on up to T are tried; the first that succeeds is the answer.
fn search(request: &Request, starts: Shortfalls) -> Result<Schedule, Refusal> {
    let mut shortfalls = starts;
    let mut owners = Vec::new();
    loop {
        let tries = owners.len() as u16 + 1;
        if let Some(offsets) = placement(&request.listing, &shortfalls) {
            return Ok(Schedule { owners, offsets, starts, shortfalls, tries });
        }
        let place = owners.len() as u64;
        if owners.len() == usize::from(request.longest) {
            return Err(Refusal { number: numbers::LENGTHS_EXHAUSTED, place, tries });
        }
        let missed = Refusal { number: numbers::SLOT_MISSED, place, tries };
        let owner = most_urgent(&request.listing, &shortfalls).ok_or(missed)?;
        pass_slot(&request.listing, &mut shortfalls, owner);
        owners.push(owner);
    }
}

/// Rule 3: the listed partition with the least room, ties to the lower id; none if it is missed.
pub(crate) fn most_urgent(listing: &Listing, shortfalls: &Shortfalls) -> Option<u8> {
    let rooms: Vec<(u16, usize)> =
        listed(listing).map(|(id, share)| (room(shortfalls[id], share), id)).collect();
    let &(_, urgent) = rooms.iter().min()?;
    let missed = rooms.iter().any(|&(room, id)| id != urgent && room == 0);
    (!missed).then_some(urgent as u8)
}

/// Rule 4: in order of period, last offset and id, each takes the largest offset up to its last
/// offset whose slots are all free.
pub(crate) fn placement(listing: &Listing, shortfalls: &Shortfalls) -> Option<[u16; IDS]> {
    let mut order: Vec<(u16, u16, usize)> = listed(listing)
        .map(|(id, share)| (share.period, last_offset(shortfalls[id], share), id))
        .collect();
    order.sort_unstable();
    let mut taken = [false; CYCLE];
    let mut offsets = [0; IDS];
    for (period, last, id) in order {
        let free = |offset: &u16| own_slots(*offset, period).all(|slot| !taken[slot]);
        let offset = (0..=last).rev().find(free)?;
        for slot in own_slots(offset, period) {
            taken[slot] = true;
        }
        offsets[id] = offset;
    }
    Some(offsets)
}

/// The timetable that holds after an acceptance: the schedule with the request's listing, and of
/// every other id the shortfall alone.
fn renewed(request: &Request, schedule: &Schedule) -> Timetable {
    let length = schedule.owners.len();
    let mut owners = [0; LONGEST_TRANSITION];
    for (place, owner) in owners.iter_mut().zip(&schedule.owners) {
        *place = *owner;
    }
    let mut entries =
        schedule.shortfalls.map(|owed| Entry { shortfall: owed as u16, ..Entry::default() });
    for (id, share) in listed(&request.listing) {
        entries[id].period = share.period;
        entries[id].offset = schedule.offsets[id] as u8;
        entries[id].bound = share.bound;
    }
    Timetable {
        request_slot: request.slot,
        length: length as u8,
        owners,
        base: request.slot + length as u64,
        entries,
        starts: schedule.starts.map(|start| start as u16),
    }
}

/// The listed partitions, ids rising.
pub fn listed(listing: &Listing) -> impl Iterator<Item = (usize, Share)> + '_ {
    listing.iter().enumerate().filter_map(|(id, share)| Some((id, (*share)?)))
}
