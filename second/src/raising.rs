//! Raising T (docs/RULES.md 1.8) on random histories: requests are put at several T, some at every
//! one, to the same timetable and area, and what comes of each two is compared whole.

use crate::breaks::{broken, CLAUSES};
use crate::change::{change, Outcome};
use crate::generate::Generator;
use crate::random::Random;
use crate::records::{read_request, with_longest};
use crate::timetable::Timetable;
use std::collections::{BTreeMap, BTreeSet};

/// What a request comes to at some T: the outcome, and the bytes that the area then has.
struct End {
    longest: u8,
    outcome: Outcome,
    area: Vec<u8>,
}

/// Two answers at a smaller and at a larger T by their numbers, and whether the first is a refusal
/// for want of a schedule at a place above 0.
type Kind = (u8, u8, bool);

/// How many requests had a kind.
type Seen = BTreeMap<Kind, u32>;

/// A request is put to a timetable at each T with the same area.
fn ends(timetable: &Timetable, record: &[u8], area: &[u8], all: &[u8]) -> Vec<End> {
    let end = |&longest: &u8| {
        let mut area = area.to_vec();
        let outcome = change(timetable, &with_longest(record, longest), &mut area);
        End { longest, outcome, area }
    };
    all.iter().map(end).collect()
}

/// The places of docs/RULES.md 4.7: 9 has a slot below T, 11 has T.
fn check_place(end: &End) {
    let (longest, outcome) = (u64::from(end.longest), &end.outcome);
    let told = match outcome.number {
        9 => outcome.place < longest,
        11 => outcome.place == longest,
        _ => true,
    };
    assert!(told, "T {longest}: {outcome:?}");
}

/// The sentences of docs/RULES.md 1.8 about two requests that differ in T alone: after an 11 comes
/// an acceptance longer than the smaller T, a 9 not below it, or an 11; after all else the same.
fn check_pair(smaller: &End, larger: &End) -> Kind {
    assert!(smaller.longest < larger.longest);
    let (first, then) = (&smaller.outcome, &larger.outcome);
    let holds = match (first.number, then.number) {
        (11, 0) => then.timetable.length > smaller.longest,
        (11, 9) => then.place >= u64::from(smaller.longest),
        (11, number) => number == 11,
        _ => (first, &smaller.area) == (then, &larger.area),
    };
    assert!(holds, "T {}: {first:?}, T {}: {then:?}", smaller.longest, larger.longest);
    (first.number, then.number, matches!(first.number, 9 | 11) && first.place > 0)
}

/// At every T from 0 to 64: the first that is not 11 has its T as its length, or the slot before it
/// as its place, unless it comes at T 0.
fn check_first(ends: &[End]) {
    let Some(first) = ends.iter().find(|end| end.outcome.number != 11) else { return };
    let (longest, outcome) = (first.longest, &first.outcome);
    let told = match outcome.number {
        _ if longest == 0 => true,
        0 => outcome.timetable.length == longest,
        number => number == 9 && outcome.place + 1 == u64::from(longest),
    };
    assert!(told, "first at T {longest}: {outcome:?}");
}

/// Each two of the T are compared; at every T, or at some.
fn check_request(random: &mut Random, timetable: &Timetable, record: &[u8], seen: &mut Seen) {
    let size = random.pick(&[230, 231, 231, 231, 232, 300]).unwrap_or(231);
    let area: Vec<u8> = (0..size).map(|_| random.byte()).collect();
    let every = random.chance(1, 8);
    let some = [0, 1, 2, random.between(3, 32) as u8, random.between(33, 63) as u8, 64];
    let all: Vec<u8> = if every { (0..=64).collect() } else { some.to_vec() };
    let ends = ends(timetable, record, &area, &all);
    ends.iter().for_each(check_place);
    let pairs = ends
        .iter()
        .enumerate()
        .flat_map(|(at, larger)| ends[..at].iter().map(move |smaller| check_pair(smaller, larger)));
    for kind in pairs.collect::<BTreeSet<Kind>>() {
        *seen.entry(kind).or_default() += 1;
    }
    if every {
        check_first(&ends);
    }
}

/// The requests of a history that are read, with timetables that are not sound now and then.
fn check_history(random: &mut Random, seed: u64, seen: &mut Seen) {
    let mut history = Generator::new(seed, 300);
    let mut timetable = history.timetable();
    while let Some(record) = history.next() {
        if read_request(&record).is_ok() {
            let (clause, _) = random.pick(&CLAUSES).unwrap_or(CLAUSES[0]);
            let unsound = random.chance(1, 20).then(|| broken(random, clause, &timetable));
            check_request(random, &unsound.unwrap_or(timetable), &record, seen);
        }
        timetable = history.timetable();
    }
}

/// Many histories, with enough requests of each kind among them.
#[test]
fn a_larger_t() {
    let mut random = Random::new(7);
    let mut seen = Seen::new();
    (0..30).for_each(|seed| check_history(&mut random, seed, &mut seen));
    println!("{seen:?}");
    let alike = [0, 1, 2, 6, 7, 8, 9].map(|number| (number, number, false));
    let raised = [0, 9, 11].map(|number| (11, number, false));
    let later = [(9, 9, true), (11, 0, true), (11, 9, true), (11, 11, true)];
    for kind in alike.iter().chain(&raised).chain(&later) {
        assert!(seen.get(kind).is_some_and(|&requests| requests >= 100), "{kind:?}: {seen:?}");
    }
}
