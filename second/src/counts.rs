//! How often each answer comes in a stream of requests or of probes, as tables.

use crate::archive::FieldTold;
use crate::breaks::CLAUSES;
use crate::change::{change, Outcome, AREA};
use crate::clauses::broken_alone;
use crate::debt_counts::DebtCounts;
use crate::generate::{Generator, Left};
use crate::numbers::{ACCEPTED, LENGTHS_EXHAUSTED, SLOT_MISSED};
use crate::offset_counts::OffsetCounts;
use crate::probe::{put, read_probe, timetable_of, Probe, Reply};
use crate::probes::{Made, Origin};
use crate::records::{read_request, with_longest};
use crate::short_counts::ShortCounts;
use crate::standing_counts::StandingCounts;
use crate::timetable::{Timetable, LONGEST_TRANSITION};

/// The numbers of answers, 0 to 11.
const NUMBERS: usize = 12;
/// The kinds of probes that have a number.
const KINDS: [&str; 7] = ["change", "owner", "standing", "empty", "answer", "request", "field"];
/// The classes of transition lengths.
const LENGTHS: [&str; 4] = ["0", "1", "2 to 8", "over 8"];
/// The classes of refusals for want of a schedule by their place, which is T for 11.
const WANTS: [&str; 5] =
    ["9 at place 0", "9 at a place above 0", "11 at T 0", "11 at T 1 to 63", "11 at T 64"];
/// The classes of 11 by what T 64 brings.
const WITH_LARGEST: [&str; 3] = ["accepted", "refused 9", "refused 11"];
/// The classes of requests that are put again with a larger T alone, by both answers.
const AGAIN: [&str; 4] = ["11, then 0", "11, then 9", "11, then 11", "9, then 9"];
/// The classes of area sizes.
const AREAS: [&str; 5] = ["0", "1 to 229", "230", "231", "over 231"];

/// Refusals for want of a schedule by their place, and each 11 also by what T 64 brings.
#[derive(Debug, Default)]
pub struct Wants {
    by_place: [u64; WANTS.len()],
    with_largest: [u64; WITH_LARGEST.len()],
}

impl Wants {
    /// A request's refusal is counted if it is for want of a schedule.
    fn count(&mut self, timetable: &Timetable, request: &[u8], (number, place): (u8, u64)) {
        let Some(class) = want_class(number, place) else { return };
        add(&mut self.by_place, class);
        if number == LENGTHS_EXHAUSTED {
            let largest = with_longest(request, LONGEST_TRANSITION as u8);
            let outcome = change(timetable, &largest, &mut [0; AREA]);
            add(&mut self.with_largest, with_largest_class(outcome.number));
        }
    }

    /// The least that some class has.
    pub fn least(&self) -> u64 {
        let all = self.by_place.iter().chain(&self.with_largest);
        all.copied().min().unwrap_or(0)
    }

    /// The tables by place and by what T 64 brings.
    fn tables(&self) -> String {
        let tables = [
            class_table("For want of a schedule", &WANTS, &self.by_place),
            class_table("11 by what T 64 brings", &WITH_LARGEST, &self.with_largest),
        ];
        tables.join("\n")
    }
}

/// The numbers, refusals for want of a schedule, requests put again, lengths, offsets, short fields and
/// debts of a stream.
#[derive(Default)]
pub struct RequestCounts {
    pub numbers: [u64; NUMBERS],
    pub wants: Wants,
    pub again: [u64; AGAIN.len()],
    pub lengths: [u64; LENGTHS.len()],
    pub offsets: OffsetCounts,
    pub short: ShortCounts,
    pub debts: DebtCounts,
}

impl RequestCounts {
    /// The model answers the stream, and each answer is counted.
    pub fn of(requests: Generator) -> RequestCounts {
        let mut counts = RequestCounts::default();
        let mut timetable = Timetable::empty();
        let mut before = (Vec::new(), ACCEPTED);
        let mut left = Left::default();
        for request in requests {
            let outcome = change(&timetable, &request, &mut [0; AREA]);
            add(&mut counts.numbers, usize::from(outcome.number));
            counts.wants.count(&timetable, &request, (outcome.number, outcome.place));
            let again = raises(&before.0, &request).then(|| again_class(before.1, outcome.number));
            if let Some(class) = again.flatten() {
                add(&mut counts.again, class);
            }
            if outcome.number == ACCEPTED {
                add(&mut counts.lengths, length_class(outcome.timetable.length));
                counts.offsets.count(&outcome.timetable);
            }
            counts.short.count(&timetable, &left, &request, &outcome);
            counts.debts.count(&timetable, &left, &request, &outcome);
            left.follow(&timetable, &outcome.timetable);
            timetable = outcome.timetable;
            before = (request, outcome.number);
        }
        counts
    }

    /// The tables: numbers, refusals for want of a schedule, requests put again, lengths, offsets, short
    /// fields, and debts.
    pub fn tables(&self) -> String {
        let numbers: Vec<String> = (0..NUMBERS).map(|number| number.to_string()).collect();
        let tables = [
            class_table("Number", &numbers, &self.numbers),
            self.wants.tables(),
            class_table("Again with a larger T", &AGAIN, &self.again),
            class_table("Transition length", &LENGTHS, &self.lengths),
            self.offsets.tables(true),
            self.short.tables(true),
            self.debts.tables(true),
        ];
        tables.join("\n")
    }
}

/// The numbers of each kind of probe, and the bad probes.
#[derive(Default)]
pub struct KindCounts {
    pub numbers: [[u64; NUMBERS]; KINDS.len()],
    pub bad: u64,
}

impl KindCounts {
    /// A reply is counted by its kind and its number.
    pub fn count(&mut self, reply: &Reply) {
        let (kind, number) = match *reply {
            Reply::Change { number, .. } => (0, number),
            Reply::Owner { number, .. } => (1, number),
            Reply::Standing { number, .. } => (2, number),
            Reply::Empty { number, .. } => (3, number),
            Reply::Answer { number, .. } => (4, number),
            Reply::Request { number, .. } => (5, number),
            Reply::Field(FieldTold { number, .. }) => (6, number),
            Reply::Bad => {
                self.bad += 1;
                return;
            }
        };
        add(&mut self.numbers[kind], usize::from(number));
    }

    /// A column for each kind and a row for each number that come, then the sums and the bad probes.
    pub fn table(&self) -> String {
        let all = |counts: &[u64; NUMBERS]| counts.iter().sum::<u64>();
        let kinds: Vec<usize> =
            (0..KINDS.len()).filter(|&kind| all(&self.numbers[kind]) > 0).collect();
        let line = |name: String, figure: &dyn Fn(&[u64; NUMBERS]) -> u64| {
            let figures = kinds.iter().map(|&kind| figure(&self.numbers[kind]).to_string());
            row(&[vec![name], figures.collect()].concat())
        };
        let names = kinds.iter().map(|&kind| KINDS[kind]);
        let mut rows = vec![row(&["Number"].into_iter().chain(names).collect::<Vec<_>>())];
        rows.push(rule(1 + kinds.len()));
        let comes = |number: &usize| self.numbers.iter().any(|counts| counts[*number] > 0);
        for number in (0..NUMBERS).filter(comes) {
            rows.push(line(number.to_string(), &|counts| counts[number]));
        }
        rows.push(line(String::from("all"), &all));
        rows.push(format!("\nBad probes: {}\n", self.bad));
        rows.concat()
    }
}

/// The kinds, numbers, refusals for want of a schedule, lengths, offsets, short fields, debts, standings,
/// area sizes and timetables of a stream of probes.
#[derive(Default)]
pub struct ProbeCounts {
    pub kinds: KindCounts,
    pub wants: Wants,
    pub lengths: [u64; LENGTHS.len()],
    pub offsets: OffsetCounts,
    pub short: ShortCounts,
    pub debts: DebtCounts,
    pub standings: StandingCounts,
    pub areas: [u64; AREAS.len()],
    pub origins: Vec<OriginCount>,
}

/// How many probes had timetables of one origin, how many of these were not sound, and how many broke
/// the origin's clause alone.
pub struct OriginCount {
    pub origin: Origin,
    pub probes: u64,
    pub unsound: u64,
    pub alone: u64,
}

impl ProbeCounts {
    /// The model answers the stream, and each answer is counted.
    pub fn of(probes: impl IntoIterator<Item = Made>) -> ProbeCounts {
        let origins = origins().into_iter();
        let mut counts = ProbeCounts {
            origins: origins
                .map(|(origin, _)| OriginCount { origin, probes: 0, unsound: 0, alone: 0 })
                .collect(),
            ..ProbeCounts::default()
        };
        for made in probes {
            counts.count(&made);
        }
        counts
    }

    /// One probe is counted by its reply, and by its image where it has one.
    fn count(&mut self, made: &Made) {
        let probe = read_probe(&made.content);
        let reply = put(&probe);
        self.kinds.count(&reply);
        self.count_change(&probe, &reply);
        self.standings.count(made.origin, &probe, &reply);
        if let Some(image) = image_in(&probe) {
            self.count_origin(made.origin, image);
        }
    }

    /// A change is counted by its area, by its acceptance's length and offsets or its want of a
    /// schedule, and by its short fields and debts.
    fn count_change(&mut self, probe: &Probe, reply: &Reply) {
        let (
            Probe::Change { image, request, .. },
            &Reply::Change { number, place, tries, written, image: ref after, ref area },
        ) = (probe, reply)
        else {
            return;
        };
        add(&mut self.areas, area_class(area.len()));
        let (Some(before), Some(timetable)) = (timetable_of(image), timetable_of(after)) else {
            return;
        };
        match number {
            ACCEPTED => {
                add(&mut self.lengths, length_class(timetable.length));
                self.offsets.count(&timetable);
            }
            number => self.wants.count(&before, request, (number, place)),
        }
        let outcome = Outcome { number, place, tries, written, timetable };
        self.short.count(&before, &Left::default(), request, &outcome);
        self.debts.count(&before, &Left::default(), request, &outcome);
    }

    /// An image is counted by how it was made, whether it is sound, what it breaks, and its debts.
    fn count_origin(&mut self, origin: Origin, image: &[u8]) {
        let timetable = timetable_of(image);
        timetable.iter().for_each(|timetable| self.debts.count_image(timetable));
        let sound = timetable.is_some_and(|timetable| timetable.sound());
        let alone = match (origin, timetable) {
            (Origin::Broken(clause), Some(timetable)) => broken_alone(&timetable, clause),
            _ => false,
        };
        timetable.iter().filter(|_| alone).for_each(|broken| self.offsets.count_shared(broken));
        if let Some(count) = self.origins.iter_mut().find(|count| count.origin == origin) {
            count.probes += 1;
            count.unsound += u64::from(!sound);
            count.alone += u64::from(alone);
        }
    }

    /// The tables: numbers by kind, refusals for want of a schedule, lengths, offsets, short fields,
    /// debts, standings, area sizes, and timetables by how they were made.
    pub fn tables(&self) -> String {
        let tables = [
            self.kinds.table(),
            self.wants.tables(),
            class_table("Transition length", &LENGTHS, &self.lengths),
            self.offsets.tables(false),
            self.short.tables(false),
            self.debts.tables(false),
            self.standings.tables(),
            class_table("Area", &AREAS, &self.areas),
            self.origin_table(),
        ];
        tables.join("\n")
    }

    /// A row for each way to make a timetable, with the probes, those that were not sound, and those
    /// that broke one clause alone.
    fn origin_table(&self) -> String {
        let mut rows = vec![row(&["Timetable", "Probes", "Not sound", "Alone"]), rule(4)];
        for (count, (origin, name)) in self.origins.iter().zip(origins()) {
            let alone = match origin {
                Origin::Broken(_) => count.alone.to_string(),
                _ => String::new(),
            };
            rows.push(row(&[name, count.probes.to_string(), count.unsound.to_string(), alone]));
        }
        rows.concat()
    }
}

/// Every way in which a probe's timetable is made, with its name.
fn origins() -> Vec<(Origin, String)> {
    let plain = [
        (Origin::Case, "of the cases"),
        (Origin::Reached, "as a history reached it"),
        (Origin::Built, "any sound one"),
        (Origin::SweptReached, "swept, as a history reached it"),
        (Origin::SweptBuilt, "swept, any sound one"),
        (Origin::BytesChanged, "bytes changed"),
        (Origin::RandomImage, "random bytes"),
        (Origin::OtherLength, "image of another length"),
    ];
    let clauses = CLAUSES.map(|(clause, name)| (Origin::Broken(clause), format!("broken: {name}")));
    let plain = plain.into_iter().map(|(origin, name)| (origin, name.to_string()));
    plain.chain(clauses).collect()
}

/// The image that a probe has.
fn image_in(probe: &Probe) -> Option<&[u8]> {
    match probe {
        Probe::Change { image, .. } | Probe::Owner { image, .. } => Some(image),
        Probe::Standing { image, .. } | Probe::Empty { image } => Some(image),
        _ => None,
    }
}

/// One more of a class.
pub fn add(counts: &mut [u64], class: usize) {
    counts[class] += 1;
}

/// A request differs from the one before in a larger T alone.
fn raises(before: &[u8], request: &[u8]) -> bool {
    match (read_request(before), read_request(request)) {
        (Ok(smaller), Ok(larger)) => {
            smaller.longest < larger.longest && with_longest(before, larger.longest) == request
        }
        _ => false,
    }
}

/// The class of a request that is put again: after 11 the answer 0, 9 or 11; after 9 the answer 9.
/// There is no other then (docs/RULES.md 1.8), and after all else no class.
fn again_class(before: u8, number: u8) -> Option<usize> {
    match (before, number) {
        (LENGTHS_EXHAUSTED, ACCEPTED) => Some(0),
        (LENGTHS_EXHAUSTED, SLOT_MISSED) => Some(1),
        (LENGTHS_EXHAUSTED, LENGTHS_EXHAUSTED) => Some(2),
        (SLOT_MISSED, SLOT_MISSED) => Some(3),
        (LENGTHS_EXHAUSTED | SLOT_MISSED, _) => unreachable!("{before}, then {number}"),
        _ => None,
    }
}

/// The class of a refusal for want of a schedule by its place: 9 at 0 or above; 11 at T 0, 1 to 63,
/// or 64. For other answers there is none.
fn want_class(number: u8, place: u64) -> Option<usize> {
    match (number, place) {
        (SLOT_MISSED, 0) => Some(0),
        (SLOT_MISSED, _) => Some(1),
        (LENGTHS_EXHAUSTED, 0) => Some(2),
        (LENGTHS_EXHAUSTED, 1..=63) => Some(3),
        (LENGTHS_EXHAUSTED, _) => Some(4),
        _ => None,
    }
}

/// The class of an 11 by the number that T 64 brings: 0, 9 or 11; no other (docs/RULES.md 1.8).
fn with_largest_class(number: u8) -> usize {
    match number {
        ACCEPTED => 0,
        SLOT_MISSED => 1,
        LENGTHS_EXHAUSTED => 2,
        _ => unreachable!("11, then {number}"),
    }
}

/// The class of a transition length: 0, 1, 2 to 8, or over 8.
fn length_class(length: u8) -> usize {
    match length {
        0 => 0,
        1 => 1,
        2..=8 => 2,
        _ => 3,
    }
}

/// The class of an area's size: 0, 1 to 229, 230, 231, or over 231.
fn area_class(size: usize) -> usize {
    match size {
        0 => 0,
        1..=229 => 1,
        230 => 2,
        231 => 3,
        _ => 4,
    }
}

/// A table of two columns with a row for each class.
pub fn class_table<T: AsRef<str>>(title: &str, names: &[T], counts: &[u64]) -> String {
    let mut rows = vec![row(&[title, "Count"]), rule(2)];
    for (name, count) in names.iter().zip(counts) {
        rows.push(row(&[name.as_ref(), &count.to_string()]));
    }
    rows.concat()
}

/// One row of a table.
pub fn row<T: AsRef<str>>(cells: &[T]) -> String {
    let cells: Vec<&str> = cells.iter().map(AsRef::as_ref).collect();
    format!("| {} |\n", cells.join(" | "))
}

/// The rule below a table's head.
pub fn rule(columns: usize) -> String {
    format!("{}|\n", "|---".repeat(columns))
}
