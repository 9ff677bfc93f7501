//! The cases of docs/RULES.md 11 as requests and queries: the bench cases that are such, and the
//! run-only ones; and their answers as they are read, and their listings as they are written.

use crate::archive::SCHEDULE;
use crate::asking::Asking;
use crate::change::{change, AREA};
use crate::probe::{
    answer_content, change_content, empty_content, field_content, image_field, image_of,
    owner_content, request_content, standing_content, IMAGE,
};
use crate::records::{longest_field, share_field, slot_field, write_answer};
use crate::timetable::{Entry, Timetable, IDS, LAST_SLOT};

/// The byte that fills the areas of the cases.
const BEFORE: u8 = 0xa5;

/// A request with its shares in full: id, k and R.
pub fn record(slot: u64, longest: u8, shares: &[(u8, u8, u8)]) -> Vec<u8> {
    let mut record = [slot_field(slot), longest_field(longest)].concat();
    for &(id, k, bound) in shares {
        record.extend(share_field(id, k, Some(bound)));
    }
    record
}

/// A request like case B's, D's and E's at a slot, with a short field for id 2.
pub fn request_short(slot: u64, longest: u8) -> Vec<u8> {
    [record(slot, longest, &[(0, 2, 1), (1, 2, 1)]), share_field(2, 1, None)].concat()
}

/// What case B lists without id 2, at a slot.
pub fn request_left(slot: u64, longest: u8) -> Vec<u8> {
    record(slot, longest, &[(0, 2, 1), (1, 2, 1)])
}

/// Case A's request.
pub fn request_a() -> Vec<u8> {
    record(0, 0, &[(0, 2, 1), (1, 2, 1)])
}

/// Case B's listing at a slot with some T.
pub fn request_b(slot: u64, longest: u8) -> Vec<u8> {
    record(slot, longest, &[(0, 2, 1), (1, 2, 1), (2, 1, 2)])
}

/// Case D's and E's listing at a slot.
pub fn request_d(slot: u64, longest: u8) -> Vec<u8> {
    record(slot, longest, &[(0, 2, 1), (1, 2, 1), (2, 1, 1)])
}

/// Case J's request: period 1 with R 1 alone.
fn request_j() -> Vec<u8> {
    record(0, 0, &[(4, 0, 1)])
}

/// Case J's request with a later id of period 256 too.
pub fn request_j_overfull() -> Vec<u8> {
    record(0, 0, &[(4, 0, 1), (9, 8, 1)])
}

/// The timetable after some requests, one after another.
fn after(requests: &[Vec<u8>]) -> Timetable {
    requests.iter().fold(Timetable::empty(), |timetable, request| {
        change(&timetable, request, &mut [0; AREA]).timetable
    })
}

/// The requests on the empty timetable: fields and limits, and the empty listing.
fn from_empty() -> Vec<Vec<u8>> {
    vec![
        Vec::new(),
        slot_field(0),
        record(LAST_SLOT + 1, 0, &[]),
        record(0, 65, &[]),
        record(0, 64, &[]),
        record(0, 0, &[]),
        request_j_overfull(),
    ]
}

/// The requests after case B: D, E at some T, and F's slot before the base.
fn from_b() -> Vec<Vec<u8>> {
    let mut requests = vec![request_d(8, 64)];
    requests.extend([0, 1, 2, 3, 64].map(|longest| request_d(9, longest)));
    requests.push(request_b(6, 64));
    requests
}

/// The cases as one stream of requests from the empty timetable; at its end, at slot 14, nothing is
/// listed and nothing is owed. What B lists at its base leaves the schedule as B's was, so that D with a
/// short field meets that.
pub fn requests() -> Vec<Vec<u8>> {
    let mut requests = from_empty();
    requests.extend([request_j(), record(0, 0, &[])]);
    requests.extend([request_a(), request_b(6, 0), request_b(6, 1)]);
    requests.extend(from_b());
    requests.extend([request_b(7, 64), request_short(8, 64)]);
    requests.extend([request_left(8, 0), request_short(8, 0), request_d(8, 0), request_d(20, 0)]);
    requests.extend([request_b(8, 0), record(8, 64, &[])]);
    requests.extend(worked_off());
    requests
}

/// Ids 1 and 2 work off the 64 and the 256 that they are owed at slot 8. Id 0 takes slot 9, so that id 2 has
/// slot 8 though it could wait; at slot 9 it is owed 128, so that it has that slot too with R 1. Then id 0
/// has slot 10, and id 1 slot 13.
fn worked_off() -> Vec<Vec<u8>> {
    vec![
        record(8, 0, &[(0, 1, 1), (2, 1, 2)]),
        record(9, 0, &[(2, 1, 1)]),
        record(10, 0, &[(0, 1, 1)]),
        record(11, 0, &[(1, 2, 1)]),
        record(14, 0, &[]),
    ]
}

/// The cases as probes, each from the timetable that it speaks of.
pub fn probes() -> Vec<Vec<u8>> {
    [empties(), changes(), short_fields(), debts(), areas(), queries()].concat()
}

/// The empty timetable in an image, and in one that is too short.
fn empties() -> Vec<Vec<u8>> {
    [vec![BEFORE; IMAGE], vec![BEFORE; 2], Vec::new()]
        .map(|image| empty_content(&image_field(&image)))
        .to_vec()
}

/// The lettered cases and the run-only ones that are requests.
fn changes() -> Vec<Vec<u8>> {
    let (empty, a) = (Timetable::empty(), after(&[request_a()]));
    let b = after(&[request_a(), request_b(6, 1)]);
    let mut probes: Vec<Vec<u8>> =
        from_empty().iter().map(|request| change_probe(&empty, request, 231)).collect();
    probes.push(change_probe(&empty, &record(LAST_SLOT, 64, &[]), 231));
    probes.extend([request_j(), request_a()].map(|request| change_probe(&empty, &request, 231)));
    probes.extend([0, 1, 64].map(|longest| change_probe(&a, &request_b(6, longest), 231)));
    probes.extend(from_b().iter().map(|request| change_probe(&b, request, 231)));
    probes.push(change_probe(&b, &request_b(7, 64), 231));
    probes.push(change_probe(&late_slice(), &record(0, 0, &[(0, 1, 1), (3, 2, 1)]), 231));
    probes.push(change_probe(&all_listed(), &all_again(), 231));
    probes
}

/// After B: D with a short field for id 2; at slot 7 id 2 is left out, and returns at slot 8 by a short
/// field.
fn short_fields() -> Vec<Vec<u8>> {
    let b = [request_a(), request_b(6, 1)];
    let left = [&b[..], &[request_left(7, 0)]].concat();
    vec![
        change_probe(&after(&b), &request_short(8, 64), 231),
        change_probe(&after(&b), &request_left(7, 0), 231),
        change_probe(&after(&left), &request_short(8, 0), 231),
    ]
}

/// After B: id 2 is left out at slot 8, where it is owed 256, and asked for at slot 8 and at slot 20; and
/// the empty listing where id 2 is not listed and is owed 2,047, 2,048, or two amounts.
fn debts() -> Vec<Vec<u8>> {
    let b = [request_a(), request_b(6, 1)];
    let left = after(&[&b[..], &[request_left(8, 0)]].concat());
    let again = [request_d(8, 0), request_short(8, 0), request_b(8, 0), request_d(20, 0)];
    let mut probes = vec![change_probe(&after(&b), &request_left(8, 0), 231)];
    probes.extend(again.iter().map(|request| change_probe(&left, request, 231)));
    probes.push(standing_content(&image_field(&image_of(&left)), 2, 8));
    let debts = [(2047, 2047), (2048, 2048), (2047, 2046), (2046, 2047)];
    probes.extend(debts.map(|(start, shortfall)| {
        change_probe(&in_debt(start, shortfall), &record(0, 0, &[]), 231)
    }));
    probes
}

/// The empty timetable with what id 2, which is not listed, is owed at the request slot and at the base.
pub fn in_debt(start: u16, shortfall: u16) -> Timetable {
    let mut timetable = Timetable::empty();
    (timetable.starts[2], timetable.entries[2].shortfall) = (start, shortfall);
    timetable
}

/// Areas of 230 bytes, of 231 and more, and faults of several stages at once.
fn areas() -> Vec<Vec<u8>> {
    let empty = Timetable::empty();
    let unsound = Timetable { base: 1, ..empty };
    let mut probes: Vec<Vec<u8>> =
        [0, 230, 232, u16::MAX].map(|area| change_probe(&empty, &request_a(), area)).to_vec();
    probes.push(change_probe(&empty, &[], 230));
    probes.push(change_probe(&unsound, &[], 230));
    probes.push(change_probe(&unsound, &request_a(), 231));
    probes
}

/// The figures that the cases name, as queries, standing during B's change among them, and the
/// queries' limits.
fn queries() -> Vec<Vec<u8>> {
    let a = image_field(&image_of(&after(&[request_a()])));
    let b = image_field(&image_of(&after(&[request_a(), request_b(6, 1)])));
    let mut probes: Vec<Vec<u8>> = (0..4).map(|slot| owner_content(&a, slot)).collect();
    probes.extend((5..11).map(|slot| owner_content(&b, slot)));
    probes.extend([LAST_SLOT, LAST_SLOT + 1].map(|slot| owner_content(&b, slot)));
    probes.extend([0, 1, 2].map(|id| standing_content(&a, id, 6)));
    for slot in 5..9 {
        probes.extend([0, 1, 2].map(|id| standing_content(&b, id, slot)));
    }
    probes.extend([LAST_SLOT, LAST_SLOT + 1].map(|slot| standing_content(&b, 2, slot)));
    probes.extend([32, 255].map(|id| standing_content(&b, id, 7)));
    probes
}

/// A change probe of a timetable and a request, with an area of one byte over and over.
fn change_probe(timetable: &Timetable, request: &[u8], area: u16) -> Vec<u8> {
    change_content(&image_field(&image_of(timetable)), request, area, &[BEFORE])
}

/// Period 4 with last offset 0: where the earliest free offset is taken, period 2 shuts it out.
fn late_slice() -> Timetable {
    let mut timetable = Timetable::empty();
    timetable.entries[3] = Entry { period: 4, offset: 0, bound: 1, shortfall: 192 };
    timetable.starts[3] = 192;
    timetable
}

/// All 32 ids with period 32, each with its own offset, after a transition of 64 slots that serves
/// each in turn, twice: at the base an id has waited for 31 slots less its id.
pub fn all_listed() -> Timetable {
    let mut timetable = Timetable { length: 64, base: 64, ..Timetable::empty() };
    for (slot, owner) in (0..).zip(&mut timetable.owners) {
        *owner = slot % IDS as u8;
    }
    for (id, entry) in (0..).zip(&mut timetable.entries) {
        let shortfall = 8 * (31 - u16::from(id));
        *entry = Entry { period: 32, offset: id, bound: 1, shortfall };
    }
    timetable
}

/// All 32 ids asked for once more, at the base of the timetable that lists them.
fn all_again() -> Vec<u8> {
    let shares: Vec<(u8, u8, u8)> = (0..IDS as u8).map(|id| (id, 5, 1)).collect();
    record(64, 64, &shares)
}

/// The cases of reading and writing, as probes: answers of the lettered cases, A's and B's listings.
pub fn archives() -> Vec<Vec<u8>> {
    [answers_read(), fields_read(), requests_written(), writings_refused()].concat()
}

/// The answers of the empty listing, of A and of B, and the longest one; B's cut at every length, and
/// with a byte behind it; the area of 128 bytes and around.
fn answers_read() -> Vec<Vec<u8>> {
    let b = answer_b();
    let whole = [Timetable::empty(), after(&[request_a()]), all_listed()];
    let mut probes: Vec<Vec<u8>> =
        whole.iter().map(|timetable| answer_probe(&write_answer(timetable), SCHEDULE)).collect();
    probes.extend((0..=b.len()).map(|end| answer_probe(&b[..end], SCHEDULE)));
    probes.push(answer_probe(&[&b[..], &[0]].concat(), SCHEDULE));
    probes.extend([0, 1, SCHEDULE - 1, SCHEDULE + 1, 65535].map(|area| answer_probe(&b, area)));
    probes.push(answer_probe(&b[1..], SCHEDULE - 1));
    probes
}

/// B's answer read at every place up to two bytes behind its end, and far off; no answer at 0 and 4.
fn fields_read() -> Vec<Vec<u8>> {
    let b = answer_b();
    let far = [1 << 32, u64::MAX - 2, u64::MAX];
    let places = (0..b.len() as u64 + 3).chain(far);
    let mut probes: Vec<Vec<u8>> = places.map(|place| field_content(&b, place)).collect();
    probes.extend([0, 4].map(|place| field_content(&[], place)));
    probes
}

/// What A, B and the empty listing ask, and all 32 ids, written into the least area and a larger one.
fn requests_written() -> Vec<Vec<u8>> {
    let all: Vec<u8> = (0..IDS as u8).flat_map(|id| [id, 8, 8]).collect();
    let askings = [
        Asking { slot: 0, longest: 0, listing: vec![0, 2, 1, 1, 2, 1] },
        Asking { slot: 6, longest: 1, listing: vec![0, 2, 1, 1, 2, 1, 2, 1, 2] },
        Asking { slot: LAST_SLOT, longest: 64, listing: Vec::new() },
        Asking { slot: LAST_SLOT, longest: 64, listing: all },
    ];
    let areas = |asking: &Asking| {
        let enough = 15 + 2 * asking.listing.len() as u16;
        [enough - 1, enough, enough + 1].map(|area| request_content(asking, area, &[BEFORE]))
    };
    askings.iter().flat_map(areas).collect()
}

/// Each thing that is refused alone, from the last on, and with all that come after it.
fn writings_refused() -> Vec<Vec<u8>> {
    let (right, wrong) = ([0, 2, 1, 1, 2, 1], [0, 2, 1, 0, 2, 1, 2, 9, 1, 3]);
    let asking = |slot, longest, listing: &[u8], area| {
        request_content(&Asking { slot, longest, listing: listing.to_vec() }, area, &[BEFORE])
    };
    vec![
        asking(LAST_SLOT + 1, 0, &right, 27),
        asking(LAST_SLOT + 1, 65, &wrong, 0),
        asking(0, 65, &right, 27),
        asking(0, 65, &wrong, 0),
        asking(0, 0, &wrong, 0),
        asking(0, 0, &[0, 2, 1, 1, 9, 1, 0, 2, 1], 33),
        asking(0, 0, &[0, 2, 1, 32, 2, 1], 27),
        asking(0, 0, &[0, 2, 0], 21),
        asking(0, 0, &right[..5], 27),
        asking(0, 0, &right[..1], 27),
    ]
}

/// B's answer.
fn answer_b() -> Vec<u8> {
    write_answer(&after(&[request_a(), request_b(6, 1)]))
}

/// A probe that reads an answer into an area of one byte over and over.
fn answer_probe(record: &[u8], area: usize) -> Vec<u8> {
    answer_content(record, area as u16, &[BEFORE])
}
