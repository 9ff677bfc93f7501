//! How often each outcome comes in a stream of probes that read answers, write requests and read
//! fields, as tables.

use crate::archive::{FieldTold, SCHEDULE};
use crate::archives::{Archives, Made, Spoilt};
use crate::asking::{Asking, ENTRY, LONGEST_PLACE, SLOT_PLACE};
use crate::counts::{add, class_table, row, rule, KindCounts};
use crate::numbers::{ACCEPTED, AREA_TOO_SMALL, ID_NOT_RISING, WRONG_FIELD};
use crate::probe::{put, read_probe, Probe, Reply};
use crate::records::{TAG_LENGTH, TAG_OFFSET, TAG_OWNERS};
use crate::spoil::{ANSWERS, ORDERS};

/// The classes of answers that are refused, by their place.
const ANSWER_PLACES: [&str; 5] =
    ["0", "4, where the record ends", "4", "the first field of tag 12", "a later one"];
/// The classes of areas that an answer is told in.
const ANSWER_AREAS: [&str; 5] = ["0", "1 to 127", "128", "129", "over 129"];
/// The classes of answers that are read, by their owners and by their ids.
const OWNERS: [&str; 4] = ["0", "1 to 8", "9 to 63", "64"];
const IDS: [&str; 4] = ["0", "1 to 8", "9 to 31", "32"];
/// The classes of listings, by their entries.
const ENTRIES: [&str; 5] = ["0", "1 to 8", "9 to 31", "32", "over 32"];
/// The classes of requests that are not written, by their number and place.
const REQUEST_PLACES: [&str; 8] = [
    "4 at 64, the slot",
    "4 at 65, T",
    "4 at entry 0",
    "4 at a later entry",
    "5 at entries 1 to 31",
    "4 at entry 32",
    "5 at entry 32",
    "2, the area",
];
/// The classes of areas that a request is written to, by the bytes of its record.
const REQUEST_AREAS: [&str; 4] = ["none", "too short", "exact", "larger"];
/// The classes of fields, by what is told or where it is refused.
const FIELDS: [&str; 8] = [
    "tag 10",
    "tag 11",
    "tag 12",
    "nothing left, at the end",
    "nothing left, behind it",
    "refused at 0",
    "refused at 4",
    "refused elsewhere",
];

/// How many probes were spoiled in one way, and how many of these were refused.
pub struct SpoiltCount {
    pub spoilt: Spoilt,
    pub probes: u64,
    pub refused: u64,
}

/// The kinds, numbers, places, areas, sizes and ways of spoiling of a stream.
#[derive(Default)]
pub struct ArchiveCounts {
    pub kinds: KindCounts,
    pub answer_places: [u64; ANSWER_PLACES.len()],
    pub answer_areas: [u64; ANSWER_AREAS.len()],
    pub owners: [u64; OWNERS.len()],
    pub listed: [u64; IDS.len()],
    pub request_places: [u64; REQUEST_PLACES.len()],
    pub request_areas: [u64; REQUEST_AREAS.len()],
    pub entries: [u64; ENTRIES.len()],
    pub fields: [u64; FIELDS.len()],
    pub answers: Vec<SpoiltCount>,
    pub requests: Vec<SpoiltCount>,
}

impl ArchiveCounts {
    /// The model answers the stream, and each reply is counted.
    pub fn of(archives: Archives) -> ArchiveCounts {
        let none = |spoilt| SpoiltCount { spoilt, probes: 0, refused: 0 };
        let mut counts = ArchiveCounts {
            answers: ways(ANSWERS.map(|(name, _)| name)).into_iter().map(none).collect(),
            requests: ways(ORDERS.map(|(name, _)| name)).into_iter().map(none).collect(),
            ..ArchiveCounts::default()
        };
        for made in archives {
            counts.count(&made);
        }
        counts
    }

    /// One probe is counted by its reply, and by what was done to its answer or its listing.
    fn count(&mut self, made: &Made) {
        let probe = read_probe(&made.content);
        let reply = put(&probe);
        self.kinds.count(&reply);
        match (&probe, &reply) {
            (Probe::Answer { record, .. }, Reply::Answer { number, place, area }) => {
                self.count_answer(record, (*number, *place), area);
                count_spoilt(&mut self.answers, made.spoilt, *number);
            }
            (Probe::Request { asking, .. }, Reply::Request { number, place, area, .. }) => {
                self.count_request(asking, (*number, *place), area.len());
                count_spoilt(&mut self.requests, made.spoilt, *number);
            }
            (Probe::Field { record, .. }, Reply::Field(told)) => {
                add(&mut self.fields, field_class(told, record.len()));
            }
            _ => (),
        }
    }

    /// An answer is counted by its area, and by its place or by how many owners and ids it has.
    fn count_answer(&mut self, record: &[u8], (number, place): (u8, u64), area: &[u8]) {
        add(&mut self.answer_areas, answer_area_class(area.len()));
        if number == WRONG_FIELD {
            add(&mut self.answer_places, answer_place_class(record, place));
        } else if number == ACCEPTED {
            let owners = usize::from(area[0]);
            add(&mut self.owners, size_class(owners, 64));
            add(&mut self.listed, size_class((record.len() - 7 - owners) / 5, 32));
        }
    }

    /// A request is counted by its area, by its entries, and by its place if it is refused.
    fn count_request(&mut self, asking: &Asking, (number, place): (u8, u64), area: usize) {
        let entries = asking.listing.len().div_ceil(ENTRY);
        add(&mut self.request_areas, request_area_class(area, 15 + 6 * entries));
        add(&mut self.entries, size_class(entries, 32));
        if number != ACCEPTED {
            add(&mut self.request_places, request_place_class(number, place));
        }
    }

    /// How many answers and listings there are, how many of them are spoiled in one place, and how
    /// many of these are refused.
    pub fn spoilt_once(&self) -> (u64, u64, u64) {
        let counts = || self.answers.iter().chain(&self.requests);
        let once = || counts().filter(|count| matches!(count.spoilt, Spoilt::Once(_)));
        let all = counts().map(|count| count.probes).sum();
        let refused = once().map(|count| count.refused).sum();
        (all, once().map(|count| count.probes).sum(), refused)
    }

    /// The tables: numbers by kind; answers, requests and fields by place, area and size; and what
    /// was done to them.
    pub fn tables(&self) -> String {
        let (all, once, refused) = self.spoilt_once();
        let sums = format!("Answers and listings: {all}, spoiled in one place: {once}");
        let tables = [
            self.kinds.table(),
            class_table("Answer refused at", &ANSWER_PLACES, &self.answer_places),
            class_table("Area of an answer", &ANSWER_AREAS, &self.answer_areas),
            class_table("Owners of an answer that is read", &OWNERS, &self.owners),
            class_table("Ids of an answer that is read", &IDS, &self.listed),
            class_table("Request refused", &REQUEST_PLACES, &self.request_places),
            class_table("Area of a request", &REQUEST_AREAS, &self.request_areas),
            class_table("Entries of a listing", &ENTRIES, &self.entries),
            class_table("Field", &FIELDS, &self.fields),
            spoilt_table("Answer", &self.answers),
            spoilt_table("Listing", &self.requests),
            format!("{sums}, of these refused: {refused}\n"),
        ];
        tables.join("\n")
    }
}

/// All that may have been done, in the order of the tables.
fn ways<const COUNT: usize>(names: [&'static str; COUNT]) -> Vec<Spoilt> {
    let plain = [Spoilt::Case, Spoilt::Whole, Spoilt::RandomBytes, Spoilt::Often];
    plain.into_iter().chain(names.map(Spoilt::Once)).collect()
}

/// A probe is counted by what was done, and by whether it was refused.
fn count_spoilt(counts: &mut [SpoiltCount], spoilt: Spoilt, number: u8) {
    if let Some(count) = counts.iter_mut().find(|count| count.spoilt == spoilt) {
        count.probes += 1;
        count.refused += u64::from(number != ACCEPTED);
    }
}

/// A row for each thing that was done, with the probes and those refused.
fn spoilt_table(title: &str, counts: &[SpoiltCount]) -> String {
    let mut rows = vec![row(&[title, "Probes", "Refused"]), rule(3)];
    for count in counts.iter().filter(|count| count.probes > 0) {
        let name = match count.spoilt {
            Spoilt::Case => "of the cases",
            Spoilt::Whole => "as it was made",
            Spoilt::RandomBytes => "random bytes",
            Spoilt::Often => "several at once",
            Spoilt::Once(name) => name,
        };
        rows.push(row(&[name, &count.probes.to_string(), &count.refused.to_string()]));
    }
    rows.concat()
}

/// The class of an answer's place: 0; 4 at its end or before; the first field behind the owners, or
/// a later one.
fn answer_place_class(record: &[u8], place: u64) -> usize {
    let behind = 7 + u64::from(record.get(3).copied().unwrap_or(0));
    match place {
        0 => 0,
        4 if record.len() == 4 => 1,
        4 => 2,
        _ if place == behind => 3,
        _ => 4,
    }
}

/// The class of an area that an answer is told in.
fn answer_area_class(size: usize) -> usize {
    match size {
        0 => 0,
        1..=127 => 1,
        128 => 2,
        SCHEDULE => 3,
        _ => 4,
    }
}

/// The class of a number up to the most that is right: none, a few, more, the most, or above.
fn size_class(size: usize, most: usize) -> usize {
    match size {
        0 => 0,
        1..=8 => 1,
        _ if size < most => 2,
        _ if size == most => 3,
        _ => 4,
    }
}

/// The class of a request that is refused.
fn request_place_class(number: u8, place: u64) -> usize {
    let not_rising = number == ID_NOT_RISING;
    match place {
        _ if number == AREA_TOO_SMALL => 7,
        SLOT_PLACE => 0,
        LONGEST_PLACE => 1,
        32 if not_rising => 6,
        32 => 5,
        _ if not_rising => 4,
        0 => 2,
        _ => 3,
    }
}

/// The class of an area that a request is written to.
fn request_area_class(size: usize, enough: usize) -> usize {
    match size {
        0 => 0,
        _ if size < enough => 1,
        _ if size == enough => 2,
        _ => 3,
    }
}

/// The class of a field by its tag, or by where it is refused.
fn field_class(told: &FieldTold, length: usize) -> usize {
    match (told.number, told.tag, told.place) {
        (ACCEPTED, TAG_LENGTH, _) => 0,
        (ACCEPTED, TAG_OWNERS, _) => 1,
        (ACCEPTED, TAG_OFFSET, _) => 2,
        (ACCEPTED, _, _) if told.next == length as u64 => 3,
        (ACCEPTED, _, _) => 4,
        (_, _, 0) => 5,
        (_, _, 4) => 6,
        _ => 7,
    }
}
