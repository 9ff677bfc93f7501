//! The cases as the documents work them through: what is asked, and the runs they make.

use crate::archive::read_answer;
use crate::asking::Asking;
use crate::cases::{record, request_a, request_b, request_d, request_left};
use crate::change::{change, Outcome, Request, AREA};
use crate::figures::aligned;
use crate::frames::{frame, print_lines};
use crate::numbers::{ACCEPTED, LENGTHS_EXHAUSTED, SLOT_MISSED};
use crate::records::{longest_field, read_request, share_field, slot_field};
use crate::run::Run;
use crate::slots::{pass_slot, room, Shortfalls};
use crate::timetable::{Listing, Share, Timetable, CYCLE, IDLE, IDS, LONGEST_TRANSITION};

/// The ids of the cases by what they are in the lab.
pub const PUMP_LOOP: u8 = 0;
pub const DETECTOR: u8 = 1;
pub const VALVE: u8 = 2;
pub const LINK: u8 = 3;

/// How long a slot lasts, in ms (docs/RULES.md 1.2).
pub const SLOT_MS: usize = 2;

/// The first version of the library that takes a short field as before (include/tarnflaw.h).
pub const VERSION_AS_BEFORE: u8 = 4;

/// The first version of the library that tells the standing from the request slot on
/// (include/tarnflaw.h).
pub const VERSION_STANDING: u8 = 5;

/// The first version of the library in which an id that leaves keeps its shortfall
/// (include/tarnflaw.h).
pub const VERSION_DEBTS: u8 = 6;

/// The slot of case D, and the slot at which an id that left there is back (docs/RULES.md 11.5).
pub const SLOT_D: u64 = 8;
pub const SLOT_BACK: u64 = 20;

/// The last slot that the documents show of case B.
pub const LAST_SHOWN: u64 = 14;

/// Case B's request.
pub fn bytes_b() -> Vec<u8> {
    request_b(6, 1)
}

/// What a request asks in full of the last timetable of a run; one that cannot be read asks for
/// nothing.
pub fn asked_after(run: &Run, request: &[u8]) -> Request {
    match read_request(request) {
        Ok(read) => Request::in_full(&read, &run.present()),
        Err(_) => Request { slot: 0, longest: 0, listing: [None; IDS] },
    }
}

/// What a case's request asks, whose fields are in full.
pub fn asked(request: &[u8]) -> Request {
    asked_after(&Run::empty(), request)
}

/// What case A asks.
pub fn asked_a() -> Request {
    asked(&request_a())
}

/// What case B asks.
pub fn asked_b() -> Request {
    asked(&bytes_b())
}

/// The run of case A.
pub fn run_a() -> Run {
    Run::empty().after(&request_a())
}

/// The run of case A and then case B.
pub fn run_b() -> Run {
    run_a().after(&bytes_b())
}

/// The answer to a request and its record.
pub fn answered(run: &Run, request: &[u8]) -> (Outcome, Vec<u8>) {
    let mut area = vec![0; AREA];
    let outcome = change(&run.present(), request, &mut area);
    area.truncate(outcome.written);
    (outcome, area)
}

/// The answer to case B and its record.
pub fn answer_b() -> (Outcome, Vec<u8>) {
    answered(&run_a(), &bytes_b())
}

/// Case E's request with some T.
pub fn bytes_e(longest: u8) -> Vec<u8> {
    request_d(9, longest)
}

/// The answer to case E with some T.
pub fn answer_e(longest: u8) -> Outcome {
    answered(&run_b(), &bytes_e(longest)).0
}

/// The answers to a request for every T, with the first and the last T of each that are alike.
pub fn by_longest(run: &Run, request: impl Fn(u8) -> Vec<u8>) -> Vec<(u8, u8, Outcome)> {
    let mut rows: Vec<(u8, u8, Outcome)> = Vec::new();
    for longest in 0..=LONGEST_TRANSITION as u8 {
        let answer = answered(run, &request(longest)).0;
        match rows.last_mut() {
            Some((_, last, before)) if *before == answer => *last = longest,
            _ => rows.push((longest, longest, answer)),
        }
    }
    rows
}

/// The place and the tries of a 9 from before CR 1, for what is refused 9 or 11 today.
pub fn nine_before(answer: &Outcome) -> (u64, u16) {
    (0, answer.tries)
}

/// The number and the place that a 9 with some place and tries has today, by the T of its request;
/// none if no version gives such a 9.
pub fn nine_today(longest: u8, (place, tries): (u64, u16)) -> Option<(u8, u64)> {
    let (longest, length) = (u64::from(longest), u64::from(tries.checked_sub(1)?));
    match place {
        0 if length == longest => Some((LENGTHS_EXHAUSTED, length)),
        0 if length < longest => Some((SLOT_MISSED, length)),
        missed if missed == length && missed < longest => Some((SLOT_MISSED, missed)),
        _ => None,
    }
}

/// All that a 9 with some place and tries may mean today where the T of its request is not known.
pub fn nine_without_longest(nine: (u64, u16)) -> Vec<(u8, u64)> {
    let all = 0..=LONGEST_TRANSITION as u8;
    let mut meanings: Vec<(u8, u64)> =
        all.filter_map(|longest| nine_today(longest, nine)).collect();
    meanings.dedup();
    meanings
}

/// The shortfalls behind a slot that goes to an id or, as 255, to nobody.
pub fn behind(listing: &Listing, shortfalls: &Shortfalls, owner: u8) -> Shortfalls {
    let mut behind = *shortfalls;
    pass_slot(listing, &mut behind, owner);
    behind
}

/// The ids whose bounds are broken behind a slot that goes to an id or to nobody.
pub fn broken(listing: &Listing, shortfalls: &Shortfalls, owner: u8) -> Vec<u8> {
    let behind = behind(listing, shortfalls, owner);
    let breaks = |id: &u8| !share(listing, *id).keeps_bound(behind[usize::from(*id)]);
    ids(listing).into_iter().filter(breaks).collect()
}

/// The shortfalls with which the ids of a request enter the change.
fn at_request(run: &Run, asked: &Request) -> Shortfalls {
    let enters = |id: usize| asked.listing[id].map(|_| run.shortfall(id as u8, asked.slot));
    std::array::from_fn(|id| enters(id).unwrap_or(0))
}

/// A transition slot: its slot of the core, the shortfalls at its start, and who can have it so
/// that every bound is kept.
pub struct Waiting {
    pub slot: u64,
    pub shortfalls: Shortfalls,
    pub owners: Vec<u8>,
}

/// The transition slots of a request as long as one id alone can have each, and the one behind.
pub fn only_owners(run: &Run, asked: &Request) -> Vec<Waiting> {
    let listing = &asked.listing;
    let mut shortfalls = at_request(run, asked);
    let mut waiting = Vec::new();
    for slot in asked.slot..=asked.slot + LONGEST_TRANSITION as u64 {
        let owners = ids(listing).into_iter().chain([IDLE]);
        let owners: Vec<u8> =
            owners.filter(|&owner| broken(listing, &shortfalls, owner).is_empty()).collect();
        let next = <[u8; 1]>::try_from(&owners[..]);
        waiting.push(Waiting { slot, shortfalls, owners });
        let Ok([only]) = next else { break };
        shortfalls = behind(listing, &shortfalls, only);
    }
    waiting
}

/// The schedule of a count that starts anew at the change: case B on the empty timetable.
pub fn anew() -> Timetable {
    answered(&Run::empty(), &bytes_b()).0.timetable
}

/// After case B, at its base, the pump loop is left out and then asked for again.
pub fn left_and_returned() -> Run {
    let base = run_b().present().base;
    let others = record(base, 0, &[(DETECTOR, 2, 1), (VALVE, 1, 2)]);
    run_b().after(&others).after(&request_b(base, 0))
}

/// The lines that requests are answered with, one after another from the empty timetable.
pub fn lines_of(requests: &[Vec<u8>]) -> Vec<String> {
    let input: Vec<u8> = requests.iter().flat_map(|request| frame(request)).collect();
    let mut output = Vec::new();
    let printed = print_lines(&mut &input[..], &mut output);
    let text = if printed.is_ok() { String::from_utf8_lossy(&output) } else { "".into() };
    text.lines().map(String::from).collect()
}

/// The share of an id that is listed.
pub fn share(listing: &Listing, id: u8) -> Share {
    listing[usize::from(id)].unwrap_or(Share { period: 0, bound: 0 })
}

/// The ids that are listed.
pub fn ids(listing: &Listing) -> Vec<u8> {
    (0..IDS as u8).filter(|&id| listing[usize::from(id)].is_some()).collect()
}

/// The shortfalls of the ids that are listed, at a slot of a run.
pub fn shortfalls(run: &Run, listing: &Listing, slot: u64) -> Vec<i64> {
    ids(listing).into_iter().map(|id| run.shortfall(id, slot)).collect()
}

/// The offsets of the ids that a timetable lists.
pub fn offsets(timetable: &Timetable) -> Vec<u8> {
    timetable.entries.iter().filter(|entry| entry.listed()).map(|entry| entry.offset).collect()
}

/// The owner of a slot as a block shows it, a point where it is idle.
pub fn mark(run: &Run, slot: u64) -> String {
    match run.owner(slot) {
        IDLE => String::from("."),
        id => id.to_string(),
    }
}

/// The slots of a run up to a last one, with their owners.
pub fn slots_block(run: &Run, last: u64) -> String {
    let numbers = (0..=last).map(|slot| slot.to_string()).collect();
    let owners = (0..=last).map(|slot| mark(run, slot)).collect();
    aligned(&[("slot", numbers), ("owner", owners)], 1)
}

/// The bound R of an id in case B.
pub fn bound(id: u8) -> u8 {
    share(&asked_b().listing, id).bound
}

/// The outcome of a request that meets the last timetable of a run.
pub fn outcome(run: &Run, request: &[u8]) -> Outcome {
    answered(run, request).0
}

/// How many lengths more than its place says a refusal for want of a schedule has searched.
pub fn searched_more(answer: &Outcome) -> u64 {
    u64::from(answer.tries) - answer.place
}

/// Case C's request: case B's with T 0.
pub fn bytes_c() -> Vec<u8> {
    request_b(asked_b().slot, 0)
}

/// What case C asks.
pub fn asked_c() -> Request {
    asked(&bytes_c())
}

/// The answer to case C.
pub fn answer_c() -> Outcome {
    outcome(&run_a(), &bytes_c())
}

/// What case E asks, with the largest T.
pub fn asked_e() -> Request {
    asked(&bytes_e(LONGEST_TRANSITION as u8))
}

/// The transition slots of case E, up to the one that nobody can have.
pub fn waiting_e() -> Vec<Waiting> {
    only_owners(&run_b(), &asked_e())
}

/// The answers to case E for every T.
pub fn by_t_e() -> Vec<(u8, u8, Outcome)> {
    by_longest(&run_b(), bytes_e)
}

/// The last T at which case E's lengths are exhausted, and the next.
pub fn around_e() -> (u8, u8) {
    let exhausted = |(_, _, answer): &&(u8, u8, Outcome)| answer.number == LENGTHS_EXHAUSTED;
    let last = by_t_e().iter().rev().find(exhausted).map_or(0, |&(_, last, _)| last);
    (last, last + 1)
}

/// A partition of the cases by its name.
pub fn name(id: u8) -> &'static str {
    match id {
        PUMP_LOOP => "pump loop",
        DETECTOR => "detector",
        VALVE => "valve",
        LINK => "link",
        _ => "nobody",
    }
}

/// The room of a listed id at a transition slot.
pub fn room_at(listing: &Listing, at: &Waiting, id: u8) -> u16 {
    room(at.shortfalls[usize::from(id)], share(listing, id))
}

/// The least room at a transition slot, and the listed ids that have it.
pub fn least_room(listing: &Listing, at: &Waiting) -> (u16, Vec<u8>) {
    let rooms = |id: &u8| room_at(listing, at, *id);
    let least = ids(listing).iter().map(rooms).min().unwrap_or(0);
    (least, ids(listing).into_iter().filter(|id| rooms(id) == least).collect())
}

/// What a share's shortfall stays below: 256 R.
pub fn limit_of(share: Share) -> usize {
    CYCLE * usize::from(share.bound)
}

/// A request after case B whose transition is longer: the link joins, and every share is another.
pub fn bytes_longer() -> Vec<u8> {
    let shares = [(PUMP_LOOP, 1, 2), (DETECTOR, 3, 1), (VALVE, 3, 1), (LINK, 2, 1)];
    record(9, LONGEST_TRANSITION as u8, &shares)
}

/// A timetable of before CR 4 carried over, which is one from the base on: without a transition, and
/// with the shortfalls at the base as its starts. What it tells was told of the timetable then.
pub fn carried_over(timetable: &Timetable) -> Timetable {
    Timetable {
        request_slot: timetable.base,
        length: 0,
        owners: [0; LONGEST_TRANSITION],
        starts: timetable.entries.map(|entry| entry.shortfall),
        ..*timetable
    }
}

/// A timetable as it was kept before CR 5: an id that is not listed was forgotten with what it was owed.
pub fn forgetful(timetable: &Timetable) -> Timetable {
    let mut forgetful = *timetable;
    for (entry, start) in forgetful.entries.iter_mut().zip(&mut forgetful.starts) {
        if !entry.listed() {
            (entry.shortfall, *start) = (0, 0);
        }
    }
    forgetful
}

/// The run after one more request as it was before CR 5: what is accepted is kept without the debts
/// of ids that are not listed.
pub fn after_before_cr_5(run: &Run, request: &[u8]) -> Run {
    match answered(run, request).0 {
        Outcome { number: ACCEPTED, timetable, .. } => run.with(forgetful(&timetable)),
        _ => run.clone(),
    }
}

/// After case B the valve is left out at a slot.
pub fn left_at(slot: u64) -> Run {
    run_b().after(&request_left(slot, 0))
}

/// The transition slots that an id had, by the answer record alone: what a number of slices from
/// before CR 4 has less than one of today.
pub fn own_in_transition(record: &[u8], id: u8) -> u64 {
    let owners = read_answer(record).unwrap_or_default().owners;
    owners.iter().filter(|&&owner| owner == id).count() as u64
}

/// Some bytes with one of them changed.
pub fn bytes_with(bytes: &[u8], at: usize, is: u8) -> Vec<u8> {
    let mut changed = bytes.to_vec();
    changed[at] = is;
    changed
}

/// The base and each listed id's first cyclic slot, from a request and its answer record alone.
pub fn slots_from_records(request: &[u8], record: &[u8]) -> (u64, Vec<(u8, u64)>) {
    let schedule = read_answer(record).unwrap_or_default();
    let base = asked(request).slot + schedule.owners.len() as u64;
    let first = (0..).zip(&schedule.offsets).filter_map(|(id, offset)| Some((id, (*offset)?)));
    (base, first.map(|(id, offset)| (id, base + u64::from(offset))).collect())
}

/// What case B's request is written from.
pub fn asking_b() -> Asking {
    let asked = asked_b();
    let entry = |id: u8| {
        let share = share(&asked.listing, id);
        [id, share.period.trailing_zeros() as u8, share.bound]
    };
    let listing = ids(&asked.listing).into_iter().flat_map(entry).collect();
    Asking { slot: asked.slot, longest: asked.longest, listing }
}

/// What a request asks for an id: id, k and R, or no R where the field is short.
pub type Field = (u8, u8, Option<u8>);

/// A request with its fields, in full or short.
pub fn request_with(slot: u64, longest: u8, fields: &[Field]) -> Vec<u8> {
    let mut request = [slot_field(slot), longest_field(longest)].concat();
    request.extend(fields.iter().flat_map(|&(id, k, bound)| share_field(id, k, bound)));
    request
}

/// The short field that leaves an id as the last timetable of a run has it; k 0 if it is not listed.
pub fn as_before(run: &Run, id: u8) -> Field {
    let period = run.present().listing()[usize::from(id)].map_or(1, |share| share.period);
    (id, period.trailing_zeros() as u8, None)
}

/// The short fields for all that the last timetable of a run lists.
pub fn asks_there(run: &Run) -> Vec<Field> {
    ids(&run.present().listing()).into_iter().map(|id| as_before(run, id)).collect()
}

/// A request for what is there: what the last timetable of a run lists, by short fields alone.
pub fn as_there(run: &Run, slot: u64, longest: u8) -> Vec<u8> {
    request_with(slot, longest, &asks_there(run))
}

/// What a request asked before CR 3, in full: a short field asked R 1.
pub fn before_cr_3(request: &[u8]) -> Vec<u8> {
    in_full(request, |_| 1)
}

/// A request in full, with an R for each id whose field is short.
pub fn in_full(request: &[u8], short: impl Fn(u8) -> u8) -> Vec<u8> {
    let Ok(read) = read_request(request) else { return request.to_vec() };
    let fields = (0..).zip(read.asks).filter_map(|(id, ask)| {
        let ask = ask?;
        Some((id, ask.period.trailing_zeros() as u8, Some(ask.bound.unwrap_or_else(|| short(id)))))
    });
    request_with(read.slot, read.longest, &fields.collect::<Vec<Field>>())
}

/// An archived request that was accepted, and the version that is stored beside it.
pub struct Archived {
    pub request: Vec<u8>,
    pub version: u8,
}

/// The R that a short field for an id asks as before, from the accepted requests before it alone.
pub fn bound_by_archive(before: &[Archived], id: u8) -> u8 {
    let Some((last, earlier)) = before.split_last() else { return 1 };
    let asks = read_request(&last.request).ok().and_then(|read| read.asks[usize::from(id)]);
    match asks.map(|ask| ask.bound) {
        Some(Some(bound)) => bound,
        Some(None) if last.version >= VERSION_AS_BEFORE => bound_by_archive(earlier, id),
        _ => 1,
    }
}
