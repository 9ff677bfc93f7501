//! A debt is worked off, not dropped (docs/RULES.md 1.12), by all windows of recorded runs; what an id
//! that is not listed may be owed (3.10, 3.13); who is refused 8 for it (1.10); and how often the stored
//! streams have it.

use crate::built::{set_debt, unlisted_ids};
use crate::cases::record;
use crate::change::{change, listed, Outcome, Request, AREA};
use crate::counts::{ProbeCounts, RequestCounts};
use crate::debts::{least_bound, owed_at};
use crate::generate::Generator;
use crate::probes::Probes;
use crate::queries::standing_query;
use crate::random::Random;
use crate::records::read_request;
use crate::run::Run as Accepted;
use crate::tests::{after_b, soundness};
use crate::timetable::{Listing, Timetable, CYCLE, IDS, LAST_SLOT};
use crate::windows::{record_of, small_history, Run};

/// The shortfalls of an id at every recorded slot, as the timetables in force tell them: those of all
/// windows that end there.
fn told(run: &Run, accepted: &Accepted, id: usize) -> Vec<i64> {
    let told = |slot: u64| owed_at(&accepted.in_force(slot), slot)[id];
    let owed: Vec<i64> = (0..=run.end() as u64).map(told).collect();
    let by_windows: Vec<i64> = (0..=run.end()).map(|slot| run.shortfall(id, slot)).collect();
    assert_eq!(owed, by_windows, "{id}");
    owed
}

/// What was seen of shortfalls over windows: those that fall, those that fall by half of 256 or more for
/// each own slot, slots of absence with a debt, and absences that end.
#[derive(Debug, Default)]
struct Fallen {
    windows: u64,
    most: u64,
    absent: u64,
    returned: u64,
}

/// From a window's first slot to its end an id's shortfall falls by at most 256 for each own slot.
fn check_fall(run: &Run, owed: &[i64], id: usize, seen: &mut Fallen) {
    for from in 0..owed.len() {
        let mut supply = 0;
        for to in from + 1..owed.len() {
            supply += i64::from(usize::from(run.owner(to - 1)) == id);
            let fallen = owed[from] - owed[to];
            assert!(fallen <= 256 * supply, "{id} from {from} to {to}: {fallen}, {supply} slots");
            seen.windows += u64::from(fallen > 0);
            seen.most += u64::from(fallen > 0 && 2 * fallen >= 256 * supply);
        }
    }
}

/// In a slot in which an id is not listed its shortfall stays.
fn check_absences(run: &Run, owed: &[i64], id: usize, seen: &mut Fallen) {
    for slot in (0..run.end()).filter(|&slot| !run.lists(id, slot)) {
        assert_eq!(owed[slot], owed[slot + 1], "{id} at {slot}");
        seen.absent += u64::from(owed[slot] > 0);
        let returns = slot + 1 < run.end() && run.lists(id, slot + 1);
        seen.returned += u64::from(owed[slot] > 0 && returns);
    }
}

/// 1.12: every id and every window of random runs.
#[test]
fn a_debt_falls_by_own_slots_alone() {
    let mut seen = Fallen::default();
    for seed in 5000..5250 {
        let mut accepted = Accepted::empty();
        let run = small_history(seed, |run, request| {
            accepted = accepted.after(&record_of(request));
            run.put(&record_of(request));
        });
        for id in [0, 1, 2, 3, 7, 8, 30, 31] {
            let owed = told(&run, &accepted, id);
            check_fall(&run, &owed, id, &mut seen);
            check_absences(&run, &owed, id, &mut seen);
        }
    }
    assert!(seen.windows > 200_000 && seen.most > 20_000, "{seen:?}");
    assert!(seen.absent > 8000 && seen.returned > 100, "{seen:?}");
}

/// What a request comes to.
fn answered(timetable: &Timetable, record: &[u8]) -> Outcome {
    change(timetable, record, &mut [0; AREA])
}

/// 1.12: an accepted request leaves every id's shortfall at its request slot as it was: the timetable
/// before and the new one tell the same there. Ids by whether each of them lists it.
#[test]
fn an_accepted_request_leaves_every_shortfall() {
    let mut seen = [[0; 2]; 2];
    let mut history = Generator::new(17, 4000);
    let mut before = history.timetable();
    while history.next().is_some() {
        let after = history.timetable();
        let slot = after.request_slot;
        assert_eq!(owed_at(&before, slot), owed_at(&after, slot));
        for id in (0..IDS).filter(|_| before != after) {
            let [was, is] = [&before, &after].map(|timetable| timetable.entries[id].listed());
            let owes = after.starts[id] > 0;
            seen[usize::from(was)][usize::from(is)] += u32::from(owes);
        }
        before = after;
    }
    assert!(seen.iter().flatten().all(|&ids| ids > 2000), "{seen:?}");
}

/// The record of a listing in full.
fn in_full(listing: &Listing, slot: u64, longest: u8) -> Vec<u8> {
    let shares: Vec<(u8, u8, u8)> = listed(listing)
        .map(|(id, share)| (id as u8, share.period.trailing_zeros() as u8, share.bound))
        .collect();
    record(slot, longest, &shares)
}

/// What is listed without about half of it.
fn some_leave(random: &mut Random, listing: &Listing) -> Listing {
    listing.map(|share| share.filter(|_| random.chance(1, 2)))
}

/// 1.12: to leave and return in one slot comes to the same as to stay, for every request in full; and
/// one who returns later starts with what it owed where it left.
#[test]
fn to_leave_and_return_is_to_stay() {
    let mut random = Random::new(18);
    let (mut numbers, mut later) = ([0; 12], 0);
    let mut history = Generator::new(19, 4000);
    let mut before = history.timetable();
    while let Some(record) = history.next() {
        let asked = read_request(&record).map(|read| Request::in_full(&read, &before));
        if let Some(asked) = asked.ok().filter(|asked| asked.slot >= before.base) {
            let listing = some_leave(&mut random, &before.listing());
            let left = answered(&before, &in_full(&listing, asked.slot, 0));
            assert_eq!((left.number, left.timetable.length), (0, 0), "what is there, but for some");
            numbers[usize::from(to_stay(&before, &left.timetable, &asked))] += 1;
            later += returns_later(&mut random, &left.timetable, asked.slot);
        }
        before = history.timetable();
    }
    assert!([0, 7, 8, 9, 11].iter().all(|&number| numbers[number] > 50), "{numbers:?}");
    assert!(later > 2000, "{later}");
}

/// A request comes to the same where some left for its slot before; the number that it gets.
fn to_stay(before: &Timetable, left: &Timetable, asked: &Request) -> u8 {
    let record = in_full(&asked.listing, asked.slot, asked.longest);
    let [stayed, returned] = [before, left].map(|from| answered(from, &record));
    let told = |outcome: &Outcome| (outcome.number, outcome.place, outcome.tries);
    assert_eq!(told(&stayed), told(&returned));
    assert!(stayed.number > 0 || stayed.timetable == returned.timetable);
    stayed.number
}

/// Some id that is not listed returns alone at a later slot with what it owed, if its R bears that, and
/// is else refused 8, in full and by a short field. How many owed something.
fn returns_later(random: &mut Random, left: &Timetable, slot: u64) -> u32 {
    let Some(id) = random.pick(&unlisted_ids(left)) else { return 0 };
    let owed = left.entries[id].shortfall;
    let (later, k) = (random.between(slot, LAST_SLOT), random.below(9) as u8);
    let least = least_bound(i64::from(owed));
    let alone = |bound| answered(left, &record(later, 0, &[(id as u8, k, bound)]));
    let told = |outcome: Outcome| (outcome.number, outcome.place);
    let back = alone(least);
    assert_eq!(told(back), (0, 0));
    assert_eq!((back.timetable.starts[id], back.timetable.entries[id].shortfall), (owed, owed));
    if least > 1 {
        assert_eq!(told(alone(least - 1)), (8, id as u64));
    }
    let short = [record(later, 0, &[]), vec![3, 0, 2, id as u8, k]].concat();
    let expected = if owed < CYCLE as u16 { (0, 0) } else { (8, id as u64) };
    assert_eq!(told(answered(left, &short)), expected);
    u32::from(owed > 0)
}

/// 3.10 and 3.13: an id that is not listed is owed at most 2,047, and the same at the request slot and at
/// the base; it has no offset and no bound. That is so with a transition and without.
#[test]
fn what_an_absent_id_may_be_owed() {
    for timetable in [Timetable::empty(), after_b()] {
        for id in unlisted_ids(&timetable) {
            for (debt, sound) in
                [(1, true), (256, true), (2047, true), (2048, false), (4096, false)]
            {
                let mut edited = timetable;
                set_debt(&mut edited, id, debt);
                soundness(&edited, sound);
                assert_eq!(standing_query(&edited, id as u8, 7).0, if sound { 10 } else { 1 });
                for (start, shortfall) in [(debt - 1, debt), (debt, debt - 1), (0, debt), (debt, 0)]
                {
                    let mut differing = edited;
                    (differing.starts[id], differing.entries[id].shortfall) = (start, shortfall);
                    soundness(&differing, false);
                }
                edited.entries[id].bound = 8;
                soundness(&edited, false);
                (edited.entries[id].bound, edited.entries[id].offset) = (0, 1);
                soundness(&edited, false);
            }
        }
    }
}

/// A slot of the transition cannot be one's who is not listed, to take its debt off.
#[test]
fn an_absent_id_is_not_served() {
    let mut served = after_b();
    set_debt(&mut served, 9, 256);
    soundness(&served, true);
    (served.owners[0], served.entries[9].shortfall) = (9, 0);
    soundness(&served, false);
}

/// A request for what is listed, and for one who is not, by a short field.
#[test]
fn eight_names_the_lowest_id_listed_or_not() {
    let mut timetable = after_b();
    set_debt(&mut timetable, 5, 256);
    set_debt(&mut timetable, 9, 2047);
    let told = |shares: &[(u8, u8, u8)]| {
        let outcome = answered(&timetable, &record(8, 64, shares));
        (outcome.number, outcome.place)
    };
    assert_eq!(told(&[(2, 1, 1), (5, 3, 1), (9, 3, 1)]), (8, 2));
    assert_eq!(told(&[(2, 1, 2), (5, 3, 1), (9, 3, 1)]), (8, 5));
    assert_eq!(told(&[(2, 1, 2), (5, 3, 2), (9, 3, 7)]), (8, 9));
    assert_eq!(told(&[(2, 1, 2), (5, 3, 2), (9, 3, 8)]).0, 0);
    // One who returns and is owed nothing is not named.
    assert_eq!(told(&[(6, 3, 1), (9, 3, 7)]), (8, 9));
}

/// The stored stream of requests has so many ids that leave and return in debt, in one slot and later,
/// and so many refusals for it, that a debt that is dropped, or grows, shows.
#[test]
fn the_stored_stream_has_debts() {
    let debts = RequestCounts::of(Generator::new(1, 20_000)).debts;
    let [left, returned, whole, at_once, whole_at_once] = debts.ids;
    assert!(left >= 15_000 && returned >= 15_000 && whole >= 10_000, "{debts:?}");
    assert!(at_once >= 600 && whole_at_once >= 400, "{debts:?}");
    let [listed, by_bound, by_short] = debts.behind;
    assert!(listed >= 300 && by_bound >= 100 && by_short >= 300, "{debts:?}");
}

/// So has the stored stream of probes, and timetables with debts at the limit and beyond.
#[test]
fn the_stored_probes_have_debts() {
    let debts = ProbeCounts::of(Probes::new(1, 20_000)).debts;
    let [left, returned, whole, ..] = debts.ids;
    assert!(left >= 7000 && returned >= 7000 && whole >= 2500, "{debts:?}");
    let [listed, by_bound, by_short] = debts.behind;
    assert!(listed >= 120 && by_bound >= 40 && by_short >= 160, "{debts:?}");
    let [owed, most, too_much, differing] = debts.images;
    assert!(owed >= 10_000 && most >= 1000, "{debts:?}");
    assert!(too_much >= 150 && differing >= 400, "{debts:?}");
}
