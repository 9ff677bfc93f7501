//! How often short fields come among the requests that are read and not too early: of which ids, in
//! which requests, how these are answered, and what R 1 in their place would bring.

use crate::change::{bound_before, change, Outcome, AREA};
use crate::counts::{add, class_table, row, rule};
use crate::generate::Left;
use crate::numbers::{ACCEPTED, LENGTHS_EXHAUSTED, OVERFULL, SHORTFALL_TOO_LARGE, SLOT_MISSED};
use crate::records::{longest_field, read_request, share_field, slot_field, Ask, ReadRequest};
use crate::timetable::{Timetable, IDS};

/// The classes of short fields by their ids.
const IDS_OF: [&str; 5] = [
    "listed with R 1",
    "listed with R above 1",
    "not listed",
    "not listed, left with R above 1",
    "not listed, left with R above 1 for the same slot",
];
/// The classes of requests by their fields.
const FIELDS: [&str; 5] = [
    "all short: exactly what is listed",
    "all short: another listing",
    "short and full, a short one of R above 1",
    "short and full, no short one of R above 1",
    "no short one",
];
/// The numbers of requests that are read and not too early.
const ANSWERS: [u8; 5] = [ACCEPTED, OVERFULL, SHORTFALL_TOO_LARGE, SLOT_MISSED, LENGTHS_EXHAUSTED];
/// The classes of requests with short fields of R above 1, by what R 1 in their place brings.
const WITH_ONE: [&str; 6] = [
    "0, where R 1 is refused 8",
    "0, where R 1 is refused 9 or 11",
    "0, where R 1 has another length or other offsets",
    "0, where R 1 has the same schedule",
    "refused, where R 1 is refused otherwise",
    "refused alike",
];

/// Short fields by their ids, requests by their fields and answers, and by what R 1 would bring.
#[derive(Debug, Default)]
pub struct ShortCounts {
    pub ids: [u64; IDS_OF.len()],
    pub requests: [[u64; ANSWERS.len()]; FIELDS.len()],
    pub with_one: [u64; WITH_ONE.len()],
}

impl ShortCounts {
    /// A request's outcome is counted if it is read and not too early.
    pub fn count(&mut self, timetable: &Timetable, left: &Left, record: &[u8], outcome: &Outcome) {
        let answer = ANSWERS.iter().position(|&number| number == outcome.number);
        let (Some(answer), Ok(read)) = (answer, read_request(record)) else { return };
        for (id, _) in asks(&read).filter(|(_, ask)| ask.bound.is_none()) {
            add(&mut self.ids, id_class(timetable, left, read.slot, id));
        }
        add(&mut self.requests[fields_class(timetable, &read)], answer);
        if asks(&read).any(|(id, ask)| above_one(timetable, id, ask)) {
            let old = change(timetable, &with_one(&read), &mut [0; AREA]);
            add(&mut self.with_one, with_one_class(outcome, &old));
        }
    }

    /// The tables: ids, requests, and what R 1 would bring. Where no history is followed, nobody is
    /// known to have left.
    pub fn tables(&self, followed: bool) -> String {
        let ids = if followed { IDS_OF.len() } else { IDS_OF.len() - 2 };
        let tables = [
            class_table("Short field of an id", &IDS_OF[..ids], &self.ids[..ids]),
            self.request_table(),
            class_table("Short fields of R above 1", &WITH_ONE, &self.with_one),
        ];
        tables.join("\n")
    }

    /// A row for each class of requests, with a column for each answer.
    fn request_table(&self) -> String {
        let answers = ANSWERS.map(|number| number.to_string());
        let head = [vec![String::from("Fields")], answers.to_vec()].concat();
        let mut rows = vec![row(&head), rule(head.len())];
        for (name, counts) in FIELDS.iter().zip(&self.requests) {
            let counts = counts.iter().map(u64::to_string).collect();
            rows.push(row(&[vec![name.to_string()], counts].concat()));
        }
        rows.concat()
    }
}

/// What is asked, ids rising.
fn asks(read: &ReadRequest) -> impl Iterator<Item = (usize, Ask)> + '_ {
    read.asks.iter().enumerate().filter_map(|(id, ask)| Some((id, (*ask)?)))
}

/// A field is short and its R as before is above 1.
fn above_one(timetable: &Timetable, id: usize, ask: Ask) -> bool {
    ask.bound.is_none() && bound_before(timetable, id) > 1
}

/// The class of a short field by its id.
fn id_class(timetable: &Timetable, left: &Left, slot: u64, id: usize) -> usize {
    match (timetable.listing()[id], left.slot_with_wide(id)) {
        (Some(share), _) if share.bound > 1 => 1,
        (Some(_), _) => 0,
        (None, None) => 2,
        (None, Some(left)) if left == slot => 4,
        (None, Some(_)) => 3,
    }
}

/// The class of a request by its fields.
fn fields_class(timetable: &Timetable, read: &ReadRequest) -> usize {
    let (short, full): (Vec<_>, Vec<_>) = asks(read).partition(|(_, ask)| ask.bound.is_none());
    let as_there = (0..IDS).all(|id| {
        read.asks[id].map(|ask| ask.period) == timetable.listing()[id].map(|share| share.period)
    });
    match (short.is_empty(), full.is_empty()) {
        (true, _) => 4,
        (false, true) => usize::from(!as_there),
        _ if short.iter().any(|&(id, ask)| above_one(timetable, id, ask)) => 2,
        _ => 3,
    }
}

/// The record of a request with R 1 in full in place of each short field.
fn with_one(read: &ReadRequest) -> Vec<u8> {
    let mut record = [slot_field(read.slot), longest_field(read.longest)].concat();
    for (id, ask) in asks(read) {
        let k = ask.period.trailing_zeros() as u8;
        record.extend(share_field(id as u8, k, ask.bound.or(Some(1))));
    }
    record
}

/// The class of a request with short fields of R above 1, beside the same with R 1 in their place.
fn with_one_class(outcome: &Outcome, old: &Outcome) -> usize {
    let told = |outcome: &Outcome| (outcome.number, outcome.place, outcome.tries);
    let schedule = |outcome: &Outcome| {
        let Timetable { length, owners, entries, .. } = outcome.timetable;
        (length, owners, entries.map(|entry| entry.offset))
    };
    match (outcome.number, old.number) {
        (ACCEPTED, SHORTFALL_TOO_LARGE) => 0,
        (ACCEPTED, ACCEPTED) if schedule(outcome) == schedule(old) => 3,
        (ACCEPTED, ACCEPTED) => 2,
        (ACCEPTED, _) => 1,
        _ if told(outcome) == told(old) => 5,
        _ => 4,
    }
}
