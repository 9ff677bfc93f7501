//! A short field means as before (docs/RULES.md 1.10, 1.11, 2.6, 4.1 and 6.4): sentence by sentence,
//! and on random histories. Here the R of a short field is taken from the bytes of the timetable's
//! image, and the request in full is made from the bytes of its record.

use crate::breaks::{broken, CLAUSES};
use crate::built::built;
use crate::cases::{record, request_a, request_b, request_left, request_short};
use crate::change::{change, Outcome};
use crate::counts::{ProbeCounts, RequestCounts};
use crate::generate::Generator;
use crate::probe::{image_of, IMAGE};
use crate::probes::Probes;
use crate::random::Random;
use crate::records::{read_request, Ask};
use crate::timetable::{Entry, Timetable, LAST_SLOT};
use std::collections::BTreeMap;

/// Where the first share's field of a request begins: behind a slot and T.
const FIRST_FIELD: usize = 15;

/// A timetable after a request that is accepted.
fn accepted(timetable: &Timetable, record: &[u8]) -> Timetable {
    let outcome = change(timetable, record, &mut [0; 231]);
    assert_eq!(outcome.number, 0, "{outcome:?}");
    outcome.timetable
}

/// The number and the place of a refusal, with which the timetable stays.
fn refused(timetable: &Timetable, record: &[u8]) -> (u8, u64) {
    let outcome = change(timetable, record, &mut [0; 231]);
    assert!(outcome.number != 0 && outcome.timetable == *timetable, "{outcome:?}");
    (outcome.number, outcome.place)
}

/// The timetable after case A and then case B.
fn after_b() -> Timetable {
    accepted(&accepted(&Timetable::empty(), &request_a()), &request_b(6, 1))
}

/// A request by its fields' contents: id, k and R, or id and k.
fn request(slot: u64, longest: u8, contents: &[&[u8]]) -> Vec<u8> {
    let field = |content: &&[u8]| [&[3, 0, content.len() as u8], *content].concat();
    [record(slot, longest, &[]), contents.iter().flat_map(field).collect()].concat()
}

/// The R of each of some ids.
fn bounds<const N: usize>(timetable: &Timetable, ids: [usize; N]) -> [u8; N] {
    ids.map(|id| timetable.entries[id].bound)
}

/// As a request is read, a short field gives no R, whatever id and k it has; a full one gives its R.
#[test]
fn a_short_field_is_read_without_r() {
    for (id, k) in (0..32).flat_map(|id| (0..=8).map(move |k| (id, k))) {
        let read = |content: &[u8]| read_request(&request(9, 3, &[content])).expect("it is read");
        let asks = |bound| Some(Ask { period: 1 << k, bound });
        assert_eq!(read(&[id, k]).asks[usize::from(id)], asks(None));
        for bound in 1..=8 {
            assert_eq!(read(&[id, k, bound]).asks[usize::from(id)], asks(Some(bound)));
        }
        assert_eq!((read(&[id, k]).slot, read(&[id, k]).longest), (9, 3));
        assert_eq!(read(&[id, k]).asks.iter().flatten().count(), 1);
    }
}

/// The ranges of id and k and the order of ids are those of full fields; only lengths 2 and 3 are read.
#[test]
fn what_is_refused_in_short_fields() {
    let b = after_b();
    assert_eq!(refused(&b, &request(7, 0, &[&[32, 1]])), (4, 15));
    assert_eq!(refused(&b, &request(7, 0, &[&[2, 1], &[3, 9]])), (4, 20));
    assert_eq!(refused(&b, &request(7, 0, &[&[2, 1], &[2, 1]])), (5, 20));
    assert_eq!(refused(&b, &request(7, 0, &[&[2, 1, 2], &[1, 1]])), (5, 21));
    assert_eq!(refused(&b, &request(7, 0, &[&[2, 1], &[1, 1, 1]])), (5, 20));
    assert_eq!(refused(&b, &request(7, 0, &[&[2]])), (3, 15));
    assert_eq!(refused(&b, &request(7, 0, &[&[2, 1, 2, 0]])), (3, 15));
    assert_eq!(refused(&b, &request(7, 0, &[&[2, 1, 0]])), (4, 15));
}

/// The earlier stages come first: 1, 2, the fields and 6; then 7, for which no R counts.
#[test]
fn stages_around_a_short_field() {
    let b = after_b();
    let unsound = Timetable { base: 8, ..b };
    assert_eq!(refused(&unsound, &request_short(8, 64)), (1, 0));
    let outcome = change(&b, &request_short(8, 64), &mut [0; 230]);
    assert_eq!((outcome.number, outcome.timetable), (2, b));
    assert_eq!(refused(&b, &request_short(6, 64)), (6, 0));
    let overfull = |slot| request(slot, 64, &[&[0, 1], &[1, 1], &[2, 1]]);
    assert_eq!(refused(&b, &overfull(6)), (6, 0));
    assert_eq!(refused(&b, &overfull(8)), (7, 2));
    assert_eq!(refused(&b, &request(8, 64, &[&[2, 1, 1], &[3, 0]])), (7, 3));
    assert_eq!(refused(&b, &request(8, 64, &[&[2, 1, 1], &[3, 1]])), (8, 2));
}

/// An id listed with some R keeps it by a short field, with the same period or another; a full field
/// gives its own.
#[test]
fn the_r_with_which_the_id_is_listed() {
    for bound in 1..=8 {
        let before = accepted(&Timetable::empty(), &record(0, 0, &[(5, 3, bound), (9, 4, 8)]));
        for k in 0..=8 {
            let after = accepted(&before, &request(0, 0, &[&[5, k]]));
            assert_eq!(after.entries[5].bound, bound);
            assert_eq!(after.entries[5].period, 1 << k);
            assert_eq!(after.entries[9], Entry::default());
            for given in 1..=8 {
                let after = accepted(&before, &request(0, 0, &[&[5, k, given]]));
                assert_eq!(after.entries[5].bound, given);
            }
        }
    }
}

/// Each id has its own R: 1 for one that is not listed, whatever the ids beside it have.
#[test]
fn each_short_field_by_its_own_id() {
    let listed = record(0, 0, &[(0, 5, 3), (1, 5, 8), (30, 5, 5), (31, 5, 2)]);
    let before = accepted(&Timetable::empty(), &listed);
    let shares: Vec<[u8; 2]> = (0..32).map(|id| [id, 5]).collect();
    let fields: Vec<&[u8]> = shares.iter().map(|share| &share[..]).collect();
    let after = accepted(&before, &request(0, 0, &fields));
    for id in 0..32 {
        let bound = match id {
            0 => 3,
            1 => 8,
            30 => 5,
            31 => 2,
            _ => 1,
        };
        assert_eq!(after.entries[id].bound, bound, "id {id}");
    }
    let mixed = accepted(&before, &request(0, 0, &[&[0, 5], &[1, 5, 4], &[2, 5], &[31, 5, 1]]));
    assert_eq!(bounds(&mixed, [0, 1, 2, 31]), [3, 4, 1, 1]);
}

/// R stays over requests with short fields, and by one in full it is another from then on.
#[test]
fn r_over_several_requests() {
    let mut timetable = after_b();
    for slot in 8..40 {
        timetable = accepted(&timetable, &request_short(slot, 0));
        assert_eq!(bounds(&timetable, [0, 1, 2]), [1, 1, 2]);
    }
    timetable = accepted(&timetable, &request(40, 0, &[&[0, 2], &[1, 2], &[2, 1, 6]]));
    timetable = accepted(&timetable, &request(41, 0, &[&[0, 2], &[1, 2], &[2, 1]]));
    assert_eq!(bounds(&timetable, [0, 1, 2]), [1, 1, 6]);
}

/// A refused request that leaves an id out, or gives it another R, forgets nothing.
#[test]
fn a_refused_request_forgets_nothing() {
    let b = after_b();
    let overfull = request(8, 64, &[&[0, 0], &[1, 0]]);
    let behind = request(8, 64, &[&[0, 2], &[1, 2], &[2, 1, 1]]);
    for refused in [overfull, behind] {
        let outcome = change(&b, &refused, &mut [0; 231]);
        assert!(outcome.number == 7 || outcome.number == 8);
        let after = accepted(&outcome.timetable, &request_short(8, 64));
        assert_eq!(bounds(&after, [2]), [2]);
    }
}

/// The R of one that left is forgotten: at the same slot or later it returns with R 1, and R 2 in full
/// is R 2; what it is owed is kept. Where that is a whole slot, R 1 is refused 8.
#[test]
fn the_r_of_one_that_left() {
    let b = after_b();
    for (left, returned) in [(7, 7), (7, 8), (9, 9), (9, 1000), (301, 301), (301, LAST_SLOT)] {
        let without = accepted(&b, &request_left(left, 64));
        assert_eq!(without.entries[2], Entry { shortfall: 128, ..Entry::default() });
        let again = accepted(&without, &request(returned, 64, &[&[2, 1]]));
        assert_eq!((again.entries[2].bound, again.entries[2].shortfall), (1, 128));
        let full = accepted(&without, &request(returned, 64, &[&[2, 1, 2]]));
        assert_eq!((full.entries[2].bound, full.entries[2].shortfall), (2, 128));
    }
    for (left, returned) in [(8, 8), (8, 9), (300, LAST_SLOT)] {
        let without = accepted(&b, &request_left(left, 64));
        assert_eq!(without.entries[2], Entry { shortfall: 256, ..Entry::default() });
        assert_eq!(refused(&without, &request(returned, 64, &[&[2, 1]])), (8, 2));
        let full = accepted(&without, &request(returned, 64, &[&[2, 1, 2]]));
        assert_eq!((full.entries[2].bound, full.entries[2].shortfall), (2, 256));
    }
}

/// What is there after B, at slot 9: E with a short field for id 2. The shortfalls are 64, 128 and
/// 128, so the last offsets are 2, 1 and 1: id 2 takes the odd slots, id 1 slot 0, id 0 slot 2.
#[test]
fn case_e_with_a_short_field() {
    for longest in [0, 2, 64] {
        let after = accepted(&after_b(), &request_short(9, longest));
        assert_eq!((after.length, after.base), (0, 9));
        assert_eq!([0, 1, 2].map(|id| after.entries[id].offset), [2, 0, 1]);
        assert_eq!([0, 1, 2].map(|id| after.entries[id].shortfall), [64, 128, 128]);
        assert_eq!(bounds(&after, [0, 1, 2]), [1, 1, 2]);
    }
}

/// Rules 2 to 4 go by the R as before. Ids 0 and 1 as in A, and id 2 with period 256 and R 2, which
/// gets offset 253. At slot 6 its shortfall is 6, and it is asked for with period 2 by a short field.
/// At length 0 it takes the odd slots, id 1 slot 0, and id 0, last offset 1, finds none. Slot 6 goes
/// to id 1, with room 0; then id 2 is owed 134 and has room 2, so that it takes the odd slots again, and
/// ids 0 and 1 slots 0 and 2. With R 1 it has room 0 there and takes slot 0, which id 0 needs.
#[test]
fn a_transition_by_the_r_as_before() {
    let a = request(0, 0, &[&[0, 2], &[1, 2], &[2, 8, 2]]);
    let before = accepted(&Timetable::empty(), &a);
    assert_eq!([0, 1, 2].map(|id| before.entries[id].offset), [3, 2, 253]);
    let short = |longest| request(6, longest, &[&[0, 2], &[1, 2], &[2, 1]]);
    let outcome = change(&before, &short(64), &mut [0; 231]);
    assert_eq!((outcome.number, outcome.tries), (0, 2));
    let after = outcome.timetable;
    assert_eq!((after.transition(), after.base), (&[1][..], 7));
    assert_eq!([0, 1, 2].map(|id| after.entries[id].offset), [0, 2, 1]);
    assert_eq!([0, 1, 2].map(|id| after.entries[id].shortfall), [192, 0, 134]);
    assert_eq!(bounds(&after, [0, 1, 2]), [1, 1, 2]);
    assert_eq!(refused(&before, &short(0)), (11, 0));
    let one = |longest| request(6, longest, &[&[0, 2], &[1, 2], &[2, 1, 1]]);
    assert_eq!(refused(&before, &one(1)), (11, 1));
    assert_eq!(refused(&before, &one(64)), (9, 1));
}

/// The R as before, from the bytes of a timetable's image (docs/PROBE.md): 1 where the period is 0.
fn before(image: &[u8], id: u8) -> u8 {
    let entry = &image[81 + 6 * usize::from(id)..][..6];
    match entry[..2] {
        [0, 0] => 1,
        _ => entry[3],
    }
}

/// The fields of a request that is read, each with its tag and length.
fn fields(record: &[u8]) -> Vec<&[u8]> {
    let mut rest = &record[FIRST_FIELD..];
    let mut fields = Vec::new();
    while let [_, _, length, ..] = *rest {
        let (field, behind) = rest.split_at(3 + usize::from(length));
        fields.push(field);
        rest = behind;
    }
    fields
}

/// The request in full: a short field of five bytes gets its R, and its length is 3.
fn in_full(image: &[u8], record: &[u8]) -> Vec<u8> {
    let field = |field: &[u8]| match *field {
        [tag, high, 2, id, k] => vec![tag, high, 3, id, k, before(image, id)],
        _ => field.to_vec(),
    };
    let full = fields(record).into_iter().flat_map(field).collect();
    [record[..FIRST_FIELD].to_vec(), full].concat()
}

/// A request that is read, with some of its full fields short.
fn shortened(random: &mut Random, record: &[u8]) -> Vec<u8> {
    let field = |field: &[u8]| match *field {
        [tag, high, 3, id, k, _] if random.chance(1, 2) => vec![tag, high, 2, id, k],
        _ => field.to_vec(),
    };
    let short = fields(record).into_iter().flat_map(field).collect();
    [record[..FIRST_FIELD].to_vec(), short].concat()
}

/// The request with R 1 in each short field's place.
fn with_one(record: &[u8]) -> Vec<u8> {
    in_full(&[0; IMAGE], record)
}

/// What a request comes to: the outcome, and the bytes that the area then has.
fn end(timetable: &Timetable, record: &[u8], area: &[u8]) -> (Outcome, Vec<u8>) {
    let mut area = area.to_vec();
    let outcome = change(timetable, record, &mut area);
    (outcome, area)
}

/// How many requests had a number, by whether R 1 in the short fields' place brings something else.
type Seen = BTreeMap<(u8, bool), u32>;

/// A request with short fields and the request in full come to the same.
fn check_full(random: &mut Random, timetable: &Timetable, record: &[u8], seen: &mut Seen) {
    let image = image_of(timetable);
    let full = in_full(&image, record);
    if full == record {
        return;
    }
    let size = random.pick(&[230, 231, 231, 231, 231, 300]).unwrap_or(231);
    let area: Vec<u8> = (0..size).map(|_| random.byte()).collect();
    let short = end(timetable, record, &area);
    assert_eq!(short, end(timetable, &full, &area), "{record:?}");
    let other = short != end(timetable, &with_one(record), &area);
    *seen.entry((short.0.number, other)).or_default() += 1;
    if timetable.sound() {
        let asks = read_request(&full).expect("it is read").asks;
        assert!(asks.iter().flatten().all(|ask| ask.bound.is_some()));
    }
}

/// The requests of a history that are read, as they come and with more short fields, from its own
/// timetable, with a clause broken now and then, and from any sound one.
fn check_history(random: &mut Random, seed: u64, seen: &mut Seen) {
    let mut history = Generator::new(seed, 300);
    let mut timetable = history.timetable();
    while let Some(record) = history.next() {
        if read_request(&record).is_ok() {
            let (clause, _) = random.pick(&CLAUSES).unwrap_or(CLAUSES[0]);
            let edited = random.chance(1, 12).then(|| broken(random, clause, &timetable));
            let timetable = edited.unwrap_or(timetable);
            check_full(random, &timetable, &record, seen);
            let shorter = shortened(random, &record);
            check_full(random, &timetable, &shorter, seen);
            let other = built(random);
            if let Some(record) = Generator::after(other, random.bits(), 1).next() {
                if read_request(&record).is_ok() {
                    let shorter = shortened(random, &record);
                    check_full(random, &other, &shorter, seen);
                }
            }
        }
        timetable = history.timetable();
    }
}

/// 1.10: many requests with short fields and their requests in full, with enough of each number, and
/// many among them that would come to something else with R 1.
#[test]
fn the_request_in_full() {
    let mut random = Random::new(11);
    let mut seen = Seen::new();
    (0..25).for_each(|seed| check_history(&mut random, seed, &mut seen));
    println!("{seen:?}");
    for number in [0, 1, 2, 6, 7, 8, 9, 11] {
        let requests: u32 =
            [false, true].iter().filter_map(|&other| seen.get(&(number, other))).sum();
        assert!(requests >= 100, "{number}: {seen:?}");
    }
    for (number, least) in [(0, 2000), (8, 80), (9, 80), (11, 80)] {
        assert!(seen.get(&(number, true)).is_some_and(|&other| other >= least), "{seen:?}");
    }
    for number in [1, 2, 6, 7] {
        assert!(!seen.contains_key(&(number, true)), "no R counts before 8: {seen:?}");
    }
}

/// What was seen of requests for what is there: those at the base, near it, far off and at the
/// highest slot, those with some R above 1, and those that R 1 in their place would refuse.
#[derive(Debug, Default)]
struct There {
    at_base: u32,
    near: u32,
    far: u32,
    highest: u32,
    above_one: u32,
    refused_with_one: u32,
    full_core: u32,
}

/// The request for exactly what a timetable lists, by short fields.
fn what_is_there(timetable: &Timetable, slot: u64, longest: u8) -> Vec<u8> {
    let listed = (0u8..).zip(&timetable.entries).filter(|(_, entry)| entry.period != 0);
    let fields: Vec<[u8; 2]> =
        listed.map(|(id, entry)| [id, entry.period.trailing_zeros() as u8]).collect();
    request(slot, longest, &fields.iter().map(|field| &field[..]).collect::<Vec<_>>())
}

/// What is there is granted at a slot, with length 0; each id keeps its period and its R.
fn check_there(timetable: &Timetable, slot: u64, longest: u8, seen: &mut There) {
    let record = what_is_there(timetable, slot, longest);
    let outcome = change(timetable, &record, &mut [0; 231]);
    assert_eq!((outcome.number, outcome.place, outcome.tries), (0, 0, 1), "{timetable:?} {slot}");
    let after = outcome.timetable;
    assert_eq!((after.request_slot, after.length, after.base), (slot, 0, slot));
    let kept = |timetable: &Timetable| timetable.entries.map(|entry| (entry.period, entry.bound));
    assert_eq!(kept(&after), kept(timetable), "{slot}");
    let weights: u32 =
        timetable.entries.iter().filter_map(|entry| 256u32.checked_div(entry.period.into())).sum();
    seen.full_core += u32::from(weights == 256);
    match slot - timetable.base {
        0 => seen.at_base += 1,
        1..=1024 => seen.near += 1,
        _ => seen.far += 1,
    }
    seen.highest += u32::from(slot == LAST_SLOT);
    seen.above_one += u32::from(timetable.entries.iter().any(|entry| entry.bound > 1));
    let with_one = change(timetable, &with_one(&record), &mut [0; 231]);
    seen.refused_with_one += u32::from(with_one.number != 0);
}

/// What is there, at the base, at some phases or at every one, far off and at the highest slot.
fn check_slots(random: &mut Random, timetable: &Timetable, seen: &mut There) {
    let base = timetable.base;
    if base > LAST_SLOT || timetable.entries.iter().all(|entry| entry.period == 0) {
        return;
    }
    let every = random.chance(1, 20);
    let phases: Vec<u64> = if every {
        (0..256).collect()
    } else {
        vec![0, random.below(8), random.below(256), random.below(1025)]
    };
    let far = [random.between(base, LAST_SLOT), LAST_SLOT];
    for slot in phases.iter().map(|phase| base + phase).chain(far) {
        let longest = random.between(0, 64) as u8;
        check_there(timetable, slot.min(LAST_SLOT), longest, seen);
    }
}

/// 1.11: what is there is granted, from the timetables of histories and from any sound ones.
#[test]
fn what_is_there_is_granted() {
    let mut random = Random::new(12);
    let mut seen = There::default();
    for seed in 0..6 {
        let mut history = Generator::new(seed, 250);
        while history.next().is_some() {
            check_slots(&mut random, &history.timetable(), &mut seen);
        }
    }
    for _ in 0..1500 {
        let timetable = built(&mut random);
        check_slots(&mut random, &timetable, &mut seen);
    }
    println!("{seen:?}");
    assert!(seen.at_base >= 2000 && seen.near >= 30_000 && seen.far >= 2000, "{seen:?}");
    assert!(seen.highest >= 2000 && seen.full_core >= 5000, "{seen:?}");
    assert!(seen.above_one >= 30_000 && seen.refused_with_one >= 20_000, "{seen:?}");
}

/// The stored stream of requests has so many short fields of each kind that a wrong R shows.
#[test]
fn the_stored_stream_has_short_fields() {
    let short = RequestCounts::of(Generator::new(1, 20_000)).short;
    assert!(short.ids[1] >= 5000, "listed with R above 1: {short:?}");
    assert!(short.ids[0] >= 5000 && short.ids[2] >= 1500, "{short:?}");
    assert!(short.ids[3] >= 1500 && short.ids[4] >= 150, "left with R above 1: {short:?}");
    let all = short.requests.map(|answers| answers.iter().sum::<u64>());
    assert!(all.iter().all(|&requests| requests >= 500), "{short:?}");
    assert_eq!(short.requests[0][1..], [0; 4], "what is there is granted");
    assert!(short.with_one[0] >= 1000, "refused 8 with R 1: {short:?}");
    assert!(short.with_one[1] >= 25 && short.with_one[2] >= 60, "{short:?}");
    assert!(short.with_one[4] >= 200, "{short:?}");
}

/// So do the probes, of which a part is looked at.
#[test]
fn the_probes_have_short_fields() {
    let short = ProbeCounts::of(Probes::new(1, 6000)).short;
    assert!(short.ids[1] >= 700, "listed with R above 1: {short:?}");
    assert_eq!(short.requests[0][1..], [0; 4], "what is there is granted");
    assert!(short.requests[0][0] >= 80 && short.with_one[0] >= 120, "{short:?}");
}
