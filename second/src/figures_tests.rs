//! The run against the queries and the windows; the cases by T and by slots, and what an old 9 means;
//! case B's answer read back, whole, damaged and by fields, and its request written; case D and what is
//! there by short fields, and the R that a short field asked, found in the archive; the screen through
//! a change, old numbers of slices and timetables of before CR 4 carried over; ids that leave and
//! return, and what was counted of them before CR 5;
//! documents that differ from the figures in a block, an example, the prose or a marker; and every
//! digit of the dictionary and of docs/WORKED.md.

use crate::archive::{read_answer, tell_field};
use crate::asking::Asking;
use crate::built::built;
use crate::cases::{record, request_a, request_b, request_d, request_left, request_short};
use crate::change::Outcome;
use crate::documents::{cited, faults, Document};
use crate::figures::{list_and, thousands, Figures};
use crate::probe::IMAGE;
use crate::queries::{owner_query, standing_query};
use crate::random::Random;
use crate::records::{read_request, with_longest, write_answer, Ask};
use crate::run::Run;
use crate::timetable::{Entry, Timetable, IDLE, LAST_SLOT};
use crate::worked::{
    after_before_cr_5, anew, answer_b, answer_e, answered, as_there, asked, asked_after,
    asks_there, before_cr_3, bound_by_archive, broken, by_longest, bytes_e, bytes_longer,
    bytes_with, carried_over, forgetful, ids, in_full, left_and_returned, left_at, lines_of,
    nine_before, nine_today, nine_without_longest, only_owners, own_in_transition, request_with,
    run_a, run_b, slots_from_records, Archived, Field, Waiting, VERSION_AS_BEFORE, VERSION_DEBTS,
    VERSION_STANDING,
};
use std::ops::Range;

/// A request for case A's or B's listing, or for some of the ids 0 to 3, soon after the base.
fn any_request(random: &mut Random, base: u64) -> Vec<u8> {
    let slot = base + random.below(7);
    let share = |id: u8| (id, 1 + random.below(3) as u8, 1 + random.below(3) as u8);
    let shares: Vec<(u8, u8, u8)> = (0..4).map(share).collect();
    let some = random.below(4) as usize;
    match random.below(5) {
        0 | 1 => record(slot, 8, &[(0, 2, 1), (1, 2, 1)]),
        2 | 3 => request_b(slot, 8),
        _ => record(slot, 8, &shares[some..]),
    }
}

/// The shortfall by all windows that end at a slot, back to slot 0.
fn largest_excess(run: &Run, id: u8, slot: u64) -> i64 {
    (0..=slot).map(|from| run.excess(id, from..slot)).max().unwrap_or(0)
}

/// Where the present timetable lists an id, the queries and the windows say what the run says.
fn same_standing(run: &Run, id: u8, slot: u64) {
    let present = run.present();
    if present.lists(id) {
        let (_, shortfall, slices) = standing_query(&present, id, slot);
        assert_eq!(run.shortfall(id, slot), i64::from(shortfall));
        assert_eq!(run.supply(id, present.request_slot..slot), slices as i64);
        assert_eq!(run.shortfall(id, slot), largest_excess(run, id, slot));
    }
}

/// From the request slot on, for some slots, the run is what the queries tell.
fn same_run(run: &Run, slots: Range<u64>) {
    for slot in slots {
        assert_eq!(run.owner(slot), owner_query(&run.present(), slot).1);
        (0..4).for_each(|id| same_standing(run, id, slot));
    }
}

/// The run of random histories is that of the queries, and its shortfalls are those of its windows.
#[test]
fn the_run_agrees_with_queries_and_windows() {
    let mut random = Random::new(7);
    let mut run = Run::empty();
    let mut lengths = 0;
    for step in 0..720 {
        run = if step % 6 == 0 { Run::empty() } else { run };
        let request = any_request(&mut random, run.present().base);
        run = run.after(&request);
        lengths += u64::from(run.present().length);
        same_run(&run, run.present().request_slot..run.present().base + 9);
    }
    assert!(lengths > 20, "transitions are among them: {lengths}");
}

/// An id that leaves and returns, in one slot or later, stands where it stood.
#[test]
fn leaving_and_returning() {
    let (b, returned) = (run_b(), left_and_returned());
    assert_eq!((b.shortfall(0, 7), returned.shortfall(0, 7)), (192, 192));
    assert_eq!((returned.present().request_slot, returned.present().starts[0]), (7, 192));
    let away = b.after(&record(7, 0, &[]));
    let later = away.after(&record(9, 0, &[(0, 2, 1)]));
    assert_eq!([7, 8, 9].map(|slot| later.shortfall(0, slot)), [192; 3]);
    assert_eq!(standing_query(&later.present(), 0, 9), (0, 192, 0));
    assert_eq!([7, 9, 300].map(|slot| later.shortfall(2, slot)), [128; 3]);
}

/// The supplier's script, as docs/RULES.md 11.5 has it.
#[test]
fn worked_script() {
    let left = left_at(8);
    assert_eq!(left.present().entries[2], Entry { shortfall: 256, ..Entry::default() });
    assert_eq!((left.present().starts[2], standing_query(&left.present(), 2, 8).0), (256, 10));
    let told = |request: &[u8]| {
        let it = answered(&left, request).0;
        (it.number, it.place, [0, 1, 2].map(|id| it.timetable.entries[id].offset))
    };
    for slot in [8, 20] {
        assert_eq!([request_d, request_short].map(|it| told(&it(slot, 0)).0), [8; 2]);
        assert_eq!([request_d, request_short].map(|it| told(&it(slot, 64)).1), [2; 2]);
        assert_eq!(told(&request_b(slot, 0)), (0, 0, [0, 2, 1]));
        let back = left.after(&request_b(slot, 0));
        let owed = [slot, slot + 1, slot + 2].map(|at| standing_query(&back.present(), 2, at).1);
        assert_eq!(owed, [256, 384, 256]);
    }
}

/// The script before CR 5: accepted with R 1, with the slots that it has today with R 2.
#[test]
fn worked_script_before_cr_5() {
    let left = after_before_cr_5(&run_b(), &request_left(8, 0));
    assert_eq!(left.present().starts[2], 0);
    for slot in [8, 20] {
        let old = after_before_cr_5(&left, &request_d(slot, 0));
        let today = left_at(8).after(&request_b(slot, 0));
        assert_eq!((old.present().request_slot, bounds(&old)), (slot, [1, 1, 1]));
        assert!((0..300).all(|at| old.owner(at) == today.owner(at)));
        let told = [slot, slot + 1, slot + 2].map(|at| standing_query(&old.present(), 2, at).1);
        assert_eq!(told, [0, 128, 0]);
        let owed = [slot, slot + 1, slot + 2].map(|at| old.shortfall(2, at));
        assert_eq!(owed, [256, 384, 256]);
        let larger = after_before_cr_5(&left, &request_b(slot, 0));
        assert!((0..300).all(|at| larger.owner(at) == today.owner(at)));
    }
}

/// A debt below a whole slot leaves room for R 1, and is worked off by the first slot.
#[test]
fn worked_debt_worked_off() {
    let back = left_at(9).after(&request_d(20, 0));
    assert_eq!([0, 1, 2].map(|id| back.present().entries[id].offset), [3, 1, 0]);
    let owed = |slots: Range<u64>| slots.map(|slot| back.shortfall(2, slot)).collect::<Vec<_>>();
    assert_eq!(owed(8..21), [vec![256], vec![128; 12]].concat());
    assert_eq!((owed(21..25), back.own_slots(2, 9..23)), (vec![0, 128, 0, 128], vec![20, 22]));
}

/// What the archive knows of an id before CR 5: since when it was counted, and by how much more it
/// was owed by today's meaning, on the same slots, where it was looked at last.
#[derive(Clone, Copy, Default)]
struct Counted {
    since: u64,
    more: i64,
}

/// At a slot of a run of before CR 5 the column says the largest excess since the id was counted; on
/// the same slots today's figure is as large or larger, by no more than it was before, and both are
/// 0 where today's is.
fn counted_at(run: &Run, id: u8, slot: u64, was: Counted) -> Counted {
    let told = i64::from(standing_query(&run.present(), id, slot).1);
    let since = (was.since..=slot).map(|from| run.excess(id, from..slot)).max();
    assert_eq!(Some(told), since);
    let more = run.shortfall(id, slot) - told;
    assert!(0 <= more && more <= was.more && (more == 0 || run.shortfall(id, slot) > 0));
    Counted { more, ..was }
}

/// Before CR 5 an id was counted anew wherever it returned; today's figure differs only for one that
/// left with a shortfall, at first by that.
#[test]
fn counted_before_cr_5() {
    let mut random = Random::new(61);
    let (mut run, mut counted) = (Run::empty(), [Counted::default(); 4]);
    let (mut differ, mut gone) = (0, 0);
    for step in 0..1500 {
        if step % 10 == 0 {
            (run, counted) = (Run::empty(), [Counted::default(); 4]);
        }
        let (before, request) = (run.clone(), any_short(&mut random, run.present().base));
        run = after_before_cr_5(&run, &request);
        let (was, is) = (before.present(), run.present());
        assert!(is.sound() && forgetful(&is) == is);
        for (id, counted) in (0..).zip(&mut counted) {
            let had = counted.more;
            if was.lists(id) {
                let passed = was.request_slot..=is.request_slot;
                *counted =
                    passed.fold(*counted, |counted, slot| counted_at(&before, id, slot, counted));
                gone += usize::from(had > 0 && counted.more == 0);
            } else if is.lists(id) {
                let more = run.shortfall(id, is.request_slot);
                *counted = Counted { since: is.request_slot, more };
                differ += usize::from(more > 0);
            }
        }
    }
    assert!(differ > 100 && gone > 10, "both are among them: {differ}, {gone}");
}

/// The figures that documents work through, as docs/RULES.md 11 has them.
#[test]
fn worked_cases() {
    assert_eq!([0, 1, 2].map(|id| run_b().shortfall(id, 6)), [128, 192, 0]);
    assert_eq!([0, 1, 2].map(|id| run_b().shortfall(id, 7)), [192, 0, 128]);
    assert_eq!((answer_b().0.tries, answer_b().1.len()), (2, 23));
    assert_eq!([0, 1, 2, 64].map(|longest| answer_e(longest).tries), [1, 2, 3, 3]);
    assert_eq!([0, 1, 2].map(|id| anew().entries[id].offset), [2, 0, 1]);
    assert_eq!(run_a().with(anew()).shortfall(0, 8), 256);
    assert_eq!((run_a().owner(4), run_a().owner(7)), (IDLE, 0));
    assert_eq!((Run::empty().owner(LAST_SLOT), Run::empty().shortfall(0, 9)), (IDLE, 0));
}

/// What the standing query tells of ids 0 to 3: each one's number, shortfall and slices.
fn stands(timetable: &Timetable, slot: u64) -> [(u8, u16, u64); 4] {
    [0, 1, 2, 3].map(|id| standing_query(timetable, id, slot))
}

/// The standing through case B's change, as docs/RULES.md 11.4 has it, and behind it.
#[test]
fn worked_standing() {
    let b = run_b().present();
    let none = (10, 0, 0);
    assert_eq!(stands(&b, 5), [(6, 0, 0); 4]);
    assert_eq!(stands(&b, 6), [(0, 128, 0), (0, 192, 0), (0, 0, 0), none]);
    assert_eq!(stands(&b, 7), [(0, 192, 0), (0, 0, 1), (0, 128, 0), none]);
    assert_eq!(stands(&b, 8), [(0, 0, 1), (0, 64, 1), (0, 256, 0), none]);
    assert_eq!(stands(&b, 10), [(0, 128, 1), (0, 0, 2), (0, 256, 1), none]);
    assert_eq!((&b.starts[..3], &b.starts[3..]), (&[128, 192, 0][..], &[0; 29][..]));
}

/// The standing through a transition of three slots: no count falls at the base.
#[test]
fn worked_longer_transition() {
    let longer = run_b().after(&bytes_longer()).present();
    assert_eq!((longer.request_slot, longer.transition(), longer.base), (9, &[0, 1, 2][..], 12));
    assert_eq!(stands(&longer, 9), [(0, 64, 0), (0, 128, 0), (0, 128, 0), (0, 0, 0)]);
    assert_eq!(stands(&longer, 10), [(0, 0, 1), (0, 160, 0), (0, 160, 0), (0, 64, 0)]);
    assert_eq!(stands(&longer, 11), [(0, 128, 1), (0, 0, 1), (0, 192, 0), (0, 128, 0)]);
    assert_eq!(stands(&longer, 12), [(0, 256, 1), (0, 32, 1), (0, 0, 1), (0, 192, 0)]);
    assert_eq!(stands(&longer, 13), [(0, 384, 1), (0, 64, 1), (0, 32, 1), (0, 0, 1)]);
    assert_eq!(stands(&run_b().present(), 9).map(|it| it.2), [1, 1, 1, 0]);
}

/// Sound timetables, whether a history reaches them or not, with slots enough behind the base.
fn any_timetables(seed: u64, mut look: impl FnMut(&mut Random, Timetable)) {
    let mut random = Random::new(seed);
    let mut transitions = 0;
    for _ in 0..600 {
        let timetable = built(&mut random);
        if timetable.base < LAST_SLOT - 300 {
            transitions += usize::from(timetable.length > 0);
            look(&mut random, timetable);
        }
    }
    assert!(transitions > 100, "transitions are among them: {transitions}");
}

/// A timetable of before CR 4 carried over is sound, tells the same from the base on but for the
/// slices, and refuses 6 before it; what its slices lack is told by the answer record alone.
#[test]
fn carried_over_from_the_base() {
    any_timetables(53, |_, today| {
        let (old, record) = (carried_over(&today), write_answer(&today));
        assert!(today.sound() && old.sound());
        for slot in today.request_slot..today.base {
            assert_eq!((owner_query(&old, slot).0, standing_query(&old, 0, slot).0), (6, 6));
        }
        for slot in [0, 1, 2, 3, 5, 8, 70, 290].map(|n| today.base + n) {
            assert_eq!(owner_query(&old, slot), owner_query(&today, slot));
            for id in 0..32 {
                let (number, shortfall, slices) = standing_query(&old, id, slot);
                let added = if number == 0 { own_in_transition(&record, id) } else { 0 };
                assert_eq!(standing_query(&today, id, slot), (number, shortfall, slices + added));
            }
        }
    });
}

/// Each change of a timetable carried over is answered as one of the timetable with its transition,
/// and leaves the same timetable.
#[test]
fn changes_of_what_is_carried_over() {
    let (mut accepted, mut refused) = (0, 0);
    any_timetables(59, |random, today| {
        let [old, new] = [carried_over(&today), today].map(|present| Run::empty().with(present));
        let slot = today.base + random.below(9);
        for request in [as_there(&new, slot, 8), request_d(slot, 64)] {
            let [of_old, of_new] = [&old, &new].map(|run| answered(run, &request));
            assert_eq!(of_old.1, of_new.1);
            let told = |it: &Outcome| (it.number, it.place, it.tries, it.written);
            assert_eq!(told(&of_old.0), told(&of_new.0));
            if of_new.0.number == 0 {
                assert_eq!(of_old.0.timetable, of_new.0.timetable);
                accepted += 1;
            } else {
                refused += 1;
            }
        }
    });
    assert!(accepted > 100 && refused > 30, "{accepted} and {refused} are among them");
}

/// With a base above the last slot a timetable can be sound, and can't be carried over.
#[test]
fn base_above_the_last_slot() {
    let b = run_b().present();
    let late = Timetable { request_slot: LAST_SLOT, base: LAST_SLOT + 1, ..b };
    assert!(late.sound() && !carried_over(&late).sound());
    let last = Timetable { request_slot: LAST_SLOT - 1, base: LAST_SLOT, ..b };
    assert!(last.sound() && carried_over(&last).sound());
}

/// The answers to case B's listing after A and to case E, by T, as docs/RULES.md 11 has them.
#[test]
fn worked_by_longest() {
    let told = |run: &Run, request: fn(u8) -> Vec<u8>| -> Vec<(u8, u8, u8, u64, u16)> {
        let rows = by_longest(run, request).into_iter();
        rows.map(|(first, last, it)| (first, last, it.number, it.place, it.tries)).collect()
    };
    let b = told(&run_a(), |longest| request_b(6, longest));
    assert_eq!(b, [(0, 0, 11, 0, 1), (1, 64, 0, 0, 2)]);
    let e = told(&run_b(), bytes_e);
    assert_eq!(e, [(0, 0, 11, 0, 1), (1, 1, 11, 1, 2), (2, 2, 11, 2, 3), (3, 64, 9, 2, 3)]);
    let lines = lines_of(&[request_a(), request_b(6, 0), request_b(6, 1), bytes_e(2), bytes_e(3)]);
    assert_eq!(lines, ["1 0 0 1 0", "2 11 0 1 0", "3 0 0 2 1", "4 11 2 3 0", "5 9 2 3 0"]);
}

/// A transition slot: its slot of the core, the shortfalls of ids 0, 1 and 2, and who can have it.
fn told(at: &Waiting) -> (u64, [i64; 3], Vec<u8>) {
    (at.slot, [0, 1, 2].map(|id| at.shortfalls[id]), at.owners.clone())
}

/// In case E slot 9 can go to the valve alone and slot 10 to the detector alone, slot 11 to nobody.
#[test]
fn worked_slots_of_e() {
    let e = asked(&bytes_e(64));
    let waiting = only_owners(&run_b(), &e);
    let wanted = [
        (9, [64, 128, 128], vec![2]),
        (10, [128, 192, 0], vec![1]),
        (11, [192, 0, 128], Vec::new()),
    ];
    assert_eq!(waiting.iter().map(told).collect::<Vec<_>>(), wanted);
    let breaks = |owner: u8| broken(&e.listing, &waiting[2].shortfalls, owner);
    assert_eq!([0, 1, 2, IDLE].map(breaks), [vec![2], vec![0, 2], vec![0], vec![0, 2]]);
}

/// Random histories of six requests for the listings of cases A, B and E; each request is looked at
/// with the run that it meets.
fn histories(seed: u64, mut look: impl FnMut(&Run, &[u8])) {
    let mut random = Random::new(seed);
    let mut run = Run::empty();
    for step in 0..1800 {
        run = if step % 6 == 0 { Run::empty() } else { run };
        let slot = run.present().base + random.below(7);
        let request = match random.below(3) {
            0 => record(slot, 8, &[(0, 2, 1), (1, 2, 1)]),
            1 => request_b(slot, 8),
            _ => request_d(slot, 8),
        };
        look(&run, &request);
        run = run.after(&request);
    }
}

/// Where each slot can go to one id alone, the search ends at the first that nobody can have.
#[test]
fn slots_that_nobody_can_have() {
    let mut missed = 0;
    histories(11, |run, request| {
        let (answer, waiting) = (answered(run, request).0, only_owners(run, &asked(request)));
        let last = &waiting[waiting.len() - 1];
        if answer.number == 9 && last.owners.is_empty() {
            assert_eq!(asked(request).slot + answer.place, last.slot);
            missed += 1;
        }
    });
    assert!(missed > 20, "missed slots are among them: {missed}");
}

/// After case E's 9 a larger R or a smaller share of any id is accepted, and no later slot is.
#[test]
fn worked_in_place_of_e() {
    let after_b = |shares: [(u8, u8, u8); 3]| answered(&run_b(), &record(9, 64, &shares)).0.number;
    assert_eq!(after_b([(0, 2, 1), (1, 2, 1), (2, 1, 1)]), 9);
    assert_eq!(after_b([(0, 2, 2), (1, 2, 1), (2, 1, 1)]), 0);
    assert_eq!(after_b([(0, 2, 1), (1, 2, 2), (2, 1, 1)]), 0);
    assert_eq!(after_b([(0, 2, 1), (1, 2, 1), (2, 1, 2)]), 0);
    assert_eq!(after_b([(0, 3, 1), (1, 2, 1), (2, 1, 1)]), 0);
    assert_eq!(after_b([(0, 2, 1), (1, 3, 1), (2, 1, 1)]), 0);
    assert_eq!(after_b([(0, 2, 1), (1, 2, 1), (2, 2, 1)]), 0);
    let later = |slot: u64| answered(&run_b(), &request_d(slot, 64)).0;
    let (even, odd) = (later(10), later(11));
    assert_eq!([(even.number, even.place), (odd.number, odd.place)], [(8, 2), (9, 0)]);
    assert!((12..600).all(|slot| later(slot) == [even, odd][slot as usize % 2]));
}

/// After case A case E's listing misses slot 7 if the valve is listed from slot 6 on, and is
/// accepted if it is listed from slot 7 on.
#[test]
fn worked_later_slot() {
    let after_a = |slot: u64| answered(&run_a(), &request_d(slot, 64)).0;
    assert_eq!([6, 7].map(|slot| (after_a(slot).number, after_a(slot).place)), [(9, 1), (0, 0)]);
    let waiting = |slot: u64| only_owners(&run_a(), &asked(&request_d(slot, 64)));
    let wanted = [(6, [128, 192, 0], vec![1]), (7, [192, 0, 128], Vec::new())];
    assert_eq!(waiting(6).iter().map(told).collect::<Vec<_>>(), wanted);
    assert_eq!(told(&waiting(7)[0]), (7, [192, 0, 0], vec![0]));
}

/// Case B sent again with a larger T meets its own timetable, and is too early.
#[test]
fn sent_again() {
    assert_eq!(answered(&run_b(), &with_longest(&request_b(6, 1), 2)).0.number, 6);
    assert_eq!(answered(&run_a(), &with_longest(&request_b(6, 1), 2)), answer_b());
}

/// What a 9 from before CR 1 means today is what is answered today, and a 9 of today stays.
fn same_nine(run: &Run, longest: u8, request: &[u8]) -> u8 {
    let answer = answered(run, request).0;
    if [9, 11].contains(&answer.number) {
        let today = Some((answer.number, answer.place));
        assert_eq!(nine_today(longest, nine_before(&answer)), today);
        assert_eq!(u64::from(answer.tries), answer.place + 1);
    }
    if answer.number == 9 {
        assert_eq!(nine_today(longest, (answer.place, answer.tries)), Some((9, answer.place)));
    }
    answer.number
}

/// Every 9 is read exactly from its place, its tries and its T, be it from before CR 1 or not.
#[test]
fn nines_are_read() {
    assert_eq!(nine_today(0, (0, 1)), Some((11, 0)));
    let third = [2, 3, 64].map(|longest| nine_today(longest, (0, 3)));
    assert_eq!(third, [(11, 2), (9, 2), (9, 2)].map(Some));
    assert_eq!([2, 64].map(|longest| nine_today(longest, (0, 1))), [Some((9, 0)); 2]);
    let mut numbers = [0; 12];
    histories(23, |run, request| {
        for longest in 0..=5 {
            let number = same_nine(run, longest, &with_longest(request, longest));
            numbers[usize::from(number)] += 1;
        }
    });
    assert!(numbers[9] > 20 && numbers[11] > 20, "both are among them: {numbers:?}");
}

/// Tries of 0 or above T + 1, and a place above 0 that is not below T or not tries - 1, come from
/// no version.
#[test]
fn nines_of_no_version() {
    assert_eq!([0, 4, 5].map(|tries| nine_today(2, (0, tries))), [None; 3]);
    assert_eq!([0, 2, 4].map(|tries| nine_today(64, (2, tries))), [None; 3]);
    let by_longest = [1, 2, 3].map(|longest| nine_today(longest, (2, 3)));
    assert_eq!(by_longest, [None, None, Some((9, 2))]);
}

/// Without T a 9 with a place above 0 means itself; one with place 0 is a 9 or an 11 at tries - 1,
/// and an 11 alone where its tries are all that there can be.
#[test]
fn nines_without_t() {
    assert!((1..64).all(|place| nine_without_longest((place, place as u16 + 1)) == [(9, place)]));
    let either = |place: u64| [(11, place), (9, place)];
    assert!((1..65).all(|tries| nine_without_longest((0, tries)) == either(u64::from(tries) - 1)));
    assert_eq!(nine_without_longest((0, 65)), [(11, 64)]);
    assert_eq!([0, 66].map(|tries| nine_without_longest((0, tries)).len()), [0; 2]);
}

/// The R of ids 0, 1 and 2 in the last timetable of a run.
fn bounds(run: &Run) -> [u8; 3] {
    [0, 1, 2].map(|id| run.present().entries[id].bound)
}

/// Number, place and tries of a request after case B, and then length and offsets.
fn after_b(request: &[u8]) -> ((u8, u64, u16), (u8, [u8; 3])) {
    let it = answered(&run_b(), request).0;
    let offsets = [0, 1, 2].map(|id| it.timetable.entries[id].offset);
    ((it.number, it.place, it.tries), (it.timetable.length, offsets))
}

/// Case D with a short field for the valve is case D with the R that B gave it; an id that left, for
/// the same slot or not, has R 1.
#[test]
fn worked_short_field() {
    assert_eq!(after_b(&request_d(8, 64)).0, (8, 2, 0));
    assert_eq!(after_b(&request_short(8, 64)), ((0, 0, 1), (0, [0, 2, 1])));
    assert_eq!(answered(&run_b(), &request_short(8, 64)), answered(&run_b(), &request_b(8, 64)));
    assert_eq!(bounds(&run_b().after(&request_short(8, 64))), [1, 1, 2]);
    let left = run_b().after(&request_left(7, 0));
    assert_eq!(bounds(&left), [1, 1, 0]);
    let returned = left.after(&request_short(8, 0));
    assert_eq!(
        (bounds(&returned), [0, 1, 2].map(|id| returned.present().entries[id].offset)),
        ([1, 1, 1], [3, 1, 0])
    );
    let again =
        |slot: u64| asked_after(&left, &request_short(slot, 0)).listing[2].map(|it| it.bound);
    assert_eq!([7, 9].map(again), [Some(1); 2]);
}

/// What is there after case B is accepted at its base and behind it, at some slots with other slots;
/// then the valve's shortfall reaches 384. Anything else may be refused.
#[test]
fn worked_what_is_there() {
    let b = run_b();
    let there = |slot: u64| after_b(&as_there(&b, slot, 0));
    assert_eq!(there(6).0, (6, 0, 0));
    assert_eq!([7, 8, 10].map(there), [((0, 0, 1), (0, [0, 2, 1])); 3]);
    assert_eq!(there(9), ((0, 0, 1), (0, [2, 0, 1])));
    let after = b.after(&as_there(&b, 8, 0));
    assert_eq!(after.own_slots(2, 8..16), [9, 11, 13, 15]);
    assert_eq!((8..600).map(|slot| after.shortfall(2, slot)).max(), Some(384));
    let asked = |fields: &[Field]| after_b(&request_with(8, 0, fields)).0;
    let (pump, detector, valve) = ((0, 2, None), (1, 2, None), (2, 1, None));
    assert_eq!(asked(&[pump, detector, valve, (3, 8, None)]), (7, 3, 0));
    assert_eq!(asked(&[(0, 1, None), detector, valve]), (7, 2, 0));
    assert_eq!(asked(&[pump, detector, (2, 1, Some(1))]), (8, 2, 0));
}

/// The answers after case B to a short field for the valve, by both meanings.
#[test]
fn worked_before_cr_3() {
    let told = |slot: u64| {
        let request = request_short(slot, 0);
        [before_cr_3(&request), request].map(|request| after_b(&request).0)
    };
    assert_eq!([7, 9].map(told), [[(11, 0, 1), (0, 0, 1)]; 2]);
    assert_eq!([8, 10].map(told), [[(8, 2, 0), (0, 0, 1)]; 2]);
    assert_eq!(before_cr_3(&request_short(8, 64)), request_d(8, 64));
    assert_eq!(before_cr_3(&request_b(6, 1)), request_b(6, 1));
}

/// A request for some of the ids 0 to 3, soon after the base, half of its fields short.
fn any_short(random: &mut Random, base: u64) -> Vec<u8> {
    let mut fields: Vec<Field> = Vec::new();
    for id in 0..4 {
        let (k, bound) = (1 + random.below(3) as u8, 1 + random.below(3) as u8);
        if random.below(4) > 0 {
            fields.push((id, k, (random.below(2) == 0).then_some(bound)));
        }
    }
    request_with(base + random.below(5), 8, &fields)
}

/// The R of a short field is found in the archive, whichever version took each request: the request
/// in full that has it is answered alike.
#[test]
fn bounds_by_the_archive() {
    let mut random = Random::new(41);
    let (mut run, mut archive) = (Run::empty(), Vec::new());
    let (mut accepted, mut otherwise) = (0, 0);
    for step in 0..3000 {
        if step % 10 == 0 {
            (run, archive) = (Run::empty(), Vec::new());
        }
        let request = any_short(&mut random, run.present().base);
        let (answer, before) = (answered(&run, &request), before_cr_3(&request));
        let found = in_full(&request, |id| bound_by_archive(&archive, id));
        assert_eq!(answered(&run, &found), answer);
        otherwise += usize::from(answer != answered(&run, &before));
        let version = 1 + random.below(5) as u8;
        let put = if version > 3 { &request } else { &before };
        if answered(&run, put).0.number == 0 {
            run = run.after(put);
            archive.push(Archived { request, version });
            accepted += 1;
        }
    }
    assert!(accepted > 1000 && otherwise > 100, "{accepted} and {otherwise} are among them");
}

/// The header.
const HEADER: &str = include_str!("../../include/tarnflaw.h");

/// The version that takes a short field as before is the one that the header tells of.
#[test]
fn version_of_the_header() {
    let told = told_of_version(VERSION_AS_BEFORE);
    assert!(told.contains("a short field asked R 1 of every id"));
}

/// What the header tells of the step to a version.
fn told_of_version(version: u8) -> &'static str {
    let heading = format!("From version {} to version {version}\n", version - 1);
    let rest = HEADER.split(&heading).nth(1).unwrap_or("");
    let ends = [" * From version ", " * Calls that overlap"];
    ends.iter().fold(rest, |told, end| told.split(end).next().unwrap_or(""))
}

/// The version that tells the standing from the request slot on is the one that the header tells of.
#[test]
fn version_of_the_standing() {
    let told = told_of_version(VERSION_STANDING);
    assert!(told.contains("counted from the request slot on, and were"));
}

/// The version in which a debt is kept is the one that the header tells of, and its images are.
#[test]
fn version_of_the_image() {
    assert!(told_of_version(VERSION_DEBTS).contains("it was forgotten, and returned with 0"));
    let defined = |name: &str, value: usize| HEADER.contains(&format!("#define {name} {value} "));
    assert!(defined("TARNFLAW_VERSION", usize::from(VERSION_DEBTS)));
    assert!(defined("TARNFLAW_IMAGE_VERSION", usize::from(VERSION_DEBTS)));
    assert!(defined("TARNFLAW_IMAGE", IMAGE));
}

/// An 8 names an id whose field is short only where it returns with a whole slot or more.
#[test]
fn short_fields_are_behind_where_they_return() {
    let mut random = Random::new(47);
    let mut run = Run::empty();
    let (mut behind, mut returning) = (0, 0);
    for step in 0..6000 {
        run = if step % 10 == 0 { Run::empty() } else { run };
        let request = any_short(&mut random, run.present().base);
        let answer = answered(&run, &request).0;
        if answer.number == 8 {
            let (id, slot) = (answer.place as u8, asked(&request).slot);
            let asks = read_request(&request).map(|read| read.asks[usize::from(id)]);
            if !matches!(asks, Ok(Some(Ask { bound: Some(_), .. }))) {
                assert!(!run.present().lists(id) && run.shortfall(id, slot) >= 256, "{answer:?}");
                returning += 1;
            }
            behind += 1;
        }
        run = run.after(&request);
    }
    assert!(behind > 50 && returning > 20, "both are among them: {behind}, {returning}");
}

/// What is there is granted, at any slot from the base on, after random histories.
#[test]
fn what_is_there() {
    let mut random = Random::new(43);
    let mut run = Run::empty();
    let mut moved = 0;
    for step in 0..900 {
        run = if step % 10 == 0 { Run::empty() } else { run };
        run = run.after(&any_short(&mut random, run.present().base));
        let (present, slot) = (run.present(), run.present().base + random.below(300));
        let it = answered(&run, &as_there(&run, slot, random.below(3) as u8)).0;
        assert_eq!((it.number, it.tries, it.timetable.length), (0, 1, 0));
        assert_eq!(it.timetable.listing(), present.listing());
        assert_eq!(asks_there(&run), asks_there(&run.with(it.timetable)));
        let owner = |timetable, slot| owner_query(timetable, slot).1;
        let other = |slot: u64| owner(&it.timetable, slot) != owner(&present, slot);
        moved += usize::from((slot..slot + 8).any(other));
    }
    assert!(moved > 100, "other slots are among them: {moved}");
}

/// In case B no shortfall reaches 256 R, and the valve's reaches 256.
#[test]
fn bounds_after_the_change() {
    let run = run_b();
    let most = |id: u8| (6..80).map(|slot| run.shortfall(id, slot)).max();
    assert_eq!([0, 1, 2].map(most), [Some(192), Some(192), Some(256)]);
}

/// Case B's answer with one byte changed is refused where docs/RULES.md 6.9 has it. It is read where
/// the owner is another id, an offset another byte, or id 2 one of 3 to 31.
#[test]
fn worked_answer_changed() {
    let b = answer_b().1;
    let at = |(byte, is): (usize, u8)| read_answer(&bytes_with(&b, byte, is)).err();
    assert_eq!([(0, 0x11), (2, 2), (3, 65)].map(at), [Some(0); 3]);
    assert_eq!([(3, 2), (3, 0), (6, 2), (7, 32)].map(at), [Some(4); 4]);
    assert_eq!([(8, 0x13), (11, 32)].map(at), [Some(8); 2]);
    assert_eq!([(11, 1), (13, 0), (16, 0)].map(at), [Some(13); 3]);
    assert_eq!(at((21, 1)), Some(18));
    let changed = (0..23).flat_map(|byte| (0..=255).map(move |is| (byte, is)));
    let read = changed.filter(|&(byte, is)| is != b[byte] && at((byte, is)).is_none()).count();
    assert_eq!(read, 31 + 3 * 255 + 29);
}

/// Case B's answer with bytes lost is read where it ends behind the owners or a field of tag 12, or
/// where one whole field of tag 12 is lost; with bytes behind it it is refused where they begin.
#[test]
fn worked_answer_lost() {
    let b = answer_b().1;
    let at = |length: usize| read_answer(&b[..length]).err();
    let places = [[Some(0); 4], [Some(4); 4], [None, Some(8), Some(8), Some(8)]].concat();
    assert_eq!((0..12).map(at).collect::<Vec<_>>(), places);
    let places = [Some(8), None, Some(13), Some(13), Some(13), Some(13), None];
    assert_eq!((12..19).map(at).collect::<Vec<_>>(), places);
    assert_eq!((19..24).map(at).collect::<Vec<_>>(), [[Some(18); 4].to_vec(), vec![None]].concat());
    let behind = |more: &[u8]| read_answer(&[&b[..], more].concat()).err();
    assert_eq!([behind(&[0x12]), behind(&b), behind(&[0; 231 - 23])], [Some(23); 3]);
    let without = |at: usize| read_answer(&[&b[..at], &b[at + 5..]].concat()).err();
    assert_eq!([8, 13, 18].map(without), [None; 3]);
}

/// Case B's answer by its fields: what stands at each place, and the place after it.
#[test]
fn worked_answer_by_fields() {
    let told = |record: &[u8], place: u64| {
        let it = tell_field(record, place);
        (it.number, it.place, it.tag, it.first, it.second, it.next)
    };
    let b = answer_b().1;
    assert_eq!(told(&b, 0), (0, 0, 0x10, 1, 0, 4));
    assert_eq!(told(&b, 4), (0, 0, 0x11, 1, 0, 8));
    assert_eq!(told(&b, 8), (0, 0, 0x12, 0, 0, 13));
    assert_eq!(told(&b, 13), (0, 0, 0x12, 1, 2, 18));
    assert_eq!(told(&b, 18), (0, 0, 0x12, 2, 1, 23));
    assert_eq!(told(&b, 23), (0, 0, 0, 0, 0, 23));
    assert_eq!(told(&bytes_with(&b, 16, 0), 13), (3, 13, 0, 0, 0, 13));
}

/// Case B's request is written from its listing, and each of its faults is refused at its place.
#[test]
fn worked_request_written() {
    let asking = |slot: u64, longest: u8, listing: &[u8], area: usize| {
        let mut area = vec![0; area];
        let asking = Asking { slot, longest, listing: listing.to_vec() };
        let (number, place, written) = asking.write(&mut area);
        ((number, place, written), area)
    };
    let b = [0, 2, 1, 1, 2, 1, 2, 1, 2];
    assert_eq!(asking(6, 1, &b, 33), ((0, 0, 33), request_b(6, 1)));
    assert_eq!(asking(1 << 48, 65, &b, 33).0, (4, 64, 0));
    assert_eq!(asking(6, 65, &b, 33).0, (4, 65, 0));
    assert_eq!(asking(6, 256_u32 as u8, &b, 33), ((0, 0, 33), request_b(6, 0)));
    assert_eq!(asking(6, 1, &bytes_with(&b, 4, 9), 33).0, (4, 1, 0));
    assert_eq!(asking(6, 1, &bytes_with(&b, 8, 0), 33).0, (4, 2, 0));
    assert_eq!(asking(6, 1, &b[..8], 33).0, (4, 2, 0));
    assert_eq!(asking(6, 1, &[0, 2, 1, 2, 1, 2, 1, 2, 1], 33).0, (5, 2, 0));
    assert_eq!(asking(6, 1, &b, 32).0, (2, 0, 0));
}

/// A request and its answer record alone give the base and the cyclic slots of the run.
#[test]
fn slots_of_archived_records() {
    let mut accepted = 0;
    histories(31, |run, request| {
        let (answer, record) = answered(run, request);
        if answer.number == 0 {
            let after = run.after(request);
            let (base, first) = slots_from_records(request, &record);
            assert_eq!(base, after.present().base);
            let listed: Vec<u8> = first.iter().map(|&(id, _)| id).collect();
            assert_eq!(listed, ids(&asked(request).listing));
            let own = |&(id, slot): &(u8, u64)| after.own_slots(id, base..slot + 1) == [slot];
            assert!(first.iter().all(own));
            accepted += 1;
        }
    });
    assert!(accepted > 500, "acceptances are among them: {accepted}");
}

/// Numbers as the documents write them.
#[test]
fn numbers_in_words() {
    assert_eq!(["0", "999", "1,000", "4,096"], [0, 999, 1000, 4096].map(thousands)[..]);
    assert_eq!(["3", "3 and 4", "3, 4 and 5"], [3..4, 3..5, 3..6].map(list_and)[..]);
}

/// Some figures: a block, an example and a phrase, for one document.
fn some_figures() -> Figures {
    let mut figures = Figures::default();
    figures.block("slots of A", String::from("slot  0 1\nowner . 1"));
    figures.cell("Title", "base", 7);
    figures.phrase("Part", "At slot 6 it is 128");
    figures.phrase("Part", "at slot 8 it is 256");
    figures
}

/// A document that shows them.
const SHOWN: &str = "\
# Title

<!-- figures: slots of A -->
```
slot  0 1
owner . 1
```

| Figure | Meaning | Example (B) |
|---|---|---|
| base | the cycle's first slot | 7 |

## Part

<!-- given: 2 ms; promise 9 -->
Slots last 2 ms (`docs/RULES.md` 2.1 and 11.B). At slot 6 it is 128, and at slot
8 it is 256: promise 9.

```sh
second/figures 3
```
";

/// The faults of a document, each in words.
fn faults_of(text: &str) -> Vec<String> {
    let document = Document { name: String::from("D.md"), text: String::from(text) };
    faults(&[document], &some_figures()).iter().map(ToString::to_string).collect()
}

/// With one piece changed, the document has one fault, which says where, what and instead of what.
fn refused(from: &str, to: &str, fault: [&str; 3]) {
    assert_eq!(SHOWN.matches(from).count(), 1, "{from}");
    let [place, expected, found] = fault;
    let wanted = format!("{place}\n    expected: {expected}\n    found:    {found}");
    assert_eq!(faults_of(&SHOWN.replace(from, to)), [wanted]);
}

/// What shows the figures has no fault.
#[test]
fn figures_shown() {
    assert_eq!(faults_of(SHOWN), [""; 0]);
    assert_eq!(faults_of(&SHOWN.replace("`docs/RULES.md`", "[it](docs/RULES.md)")), [""; 0]);
    assert_eq!(faults_of(&SHOWN.replace("2.1 and 11.B", "12")), [""; 0]);
}

/// A changed figure in a block, a line more or less, and another block's name are refused.
#[test]
fn changed_block() {
    refused("owner . 1", "owner . 2", ["D.md:6: \"Title\"", "owner . 1", "owner . 2"]);
    refused("slot  0 1", "slot 0 1", ["D.md:5: \"Title\"", "slot  0 1", "slot 0 1"]);
    let end = "the end of the block";
    refused("owner . 1\n", "", ["D.md:6: \"Title\"", "owner . 1", end]);
    refused("owner . 1", "owner . 1\n7", ["D.md:7: \"Title\"", end, "7"]);
    let renamed = faults_of(&SHOWN.replace("slots of A", "slots of B"));
    assert!(renamed[0].contains("D.md:4") && renamed[0].contains("slots of B"));
    assert!(renamed[1].contains("a document that shows: block \"slots of A\""));
}

/// A changed example and a row without one are refused.
#[test]
fn changed_example() {
    refused("first slot | 7 |", "first slot | 8 |", ["D.md:11: \"Title\"", "7", "8"]);
    let renamed = faults_of(&SHOWN.replace("| base |", "| room |"));
    assert!(renamed[0].contains("D.md:11") && renamed[0].contains("found:    room"));
    assert!(renamed[1].contains("example of \"base\" in \"Title\""));
}

/// A changed figure in the prose, one too many, and phrases in another order are refused.
#[test]
fn changed_prose() {
    let first = "At slot 6 it is 128";
    let place = "D.md:16: \"Part\"";
    refused("it is 128", "it is 192", [place, first, "At slot 6 it is 192, and at slo"]);
    let found = "At slot 7 it is 128, and at slo";
    refused("At slot 6", "At slot 7", [place, first, found]);
    refused(
        "8 it is 256",
        "8 it is 25",
        [place, "at slot 8 it is 256", "at slot 8 it is 25: promise 9."],
    );
    let number = "a number that a block, an example or a phrase gives";
    let found = "ot 8 it is 256: promise 9 and 3.";
    refused("promise 9.", "promise 9 and 3.", ["D.md:17: \"Part\"", number, found]);
    let cell = "--| | base | the cycle's slot 0 |";
    refused("the cycle's first slot", "the cycle's slot 0", ["D.md:11: \"Title\"", number, cell]);
    let turned = SHOWN.replace("slot 6 it is 128", "slot 8 it is 256");
    assert_eq!(faults_of(&turned.replace("slot\n8 it is 256", "slot\n6 it is 128")).len(), 2);
}

/// A given phrase stands in its section, and is a number with a word beside it.
#[test]
fn changed_given() {
    let stands = "a given phrase that stands in the section";
    refused("last 2 ms", "last 3 ms", ["D.md:15: \"Part\"", stands, "2 ms"]);
    refused(": promise 9", ": promise 90", ["D.md:15: \"Part\"", stands, "promise 9"]);
    let word = "a given number with a word beside it";
    refused("given: 2 ms", "given: 2", ["D.md:15: \"Part\"", word, "2"]);
}

/// A block without a marker, a marker without a block and a fence without an end are refused.
#[test]
fn changed_markers() {
    let marker = "a marker <!-- figures: NAME --> above the block, or ```sh for commands";
    refused("```sh", "```", ["D.md:19:", marker, "```"]);
    let block = "a block under its marker";
    let lone = "<!-- figures: slots of A -->";
    refused("## Part", "<!-- figures: slots of A -->\n## Part", ["D.md:13:", block, lone]);
    refused(
        "figures 3\n```\n",
        "figures 3\n",
        ["D.md:19:", "a fence that ends the block", "```sh"],
    );
    let unmarked = faults_of(&SHOWN.replace("<!-- figures: slots of A -->\n", ""));
    assert!(unmarked[0].contains(marker) && unmarked[1].contains("block \"slots of A\""));
}

/// A section that is gone leaves its phrases without a document.
#[test]
fn figures_that_nobody_shows() {
    let part = SHOWN.find("## Part").unwrap_or(0);
    let faults = faults_of(&SHOWN[..part]);
    assert_eq!(faults.len(), 2);
    assert!(faults[0].contains("a document that shows: \"At slot 6 it is 128\" in \"Part\""));
}

/// The bytes of a text that are digits and no numbers of cited sections.
fn digits(text: &str) -> Vec<usize> {
    let path = "docs/RULES.md";
    let cites = |(at, _): (usize, &str)| {
        let from = at + path.len();
        from..from + cited(&text[from..])
    };
    let citations: Vec<Range<usize>> = text.match_indices(path).map(cites).collect();
    let digit = |at: &usize| text.as_bytes()[*at].is_ascii_digit();
    let free = |at: &usize| !citations.iter().any(|range| range.contains(at));
    (0..text.len()).filter(digit).filter(free).collect()
}

/// The faults of a document of the repository that stand in it.
fn own_faults(text: &str, figures: &Figures) -> usize {
    let document = Document { name: String::from("own"), text: String::from(text) };
    let faults = faults(&[document], figures);
    faults.iter().filter(|fault| fault.to_string().starts_with("own:")).count()
}

/// A document shows its figures, and no longer does if any digit is another one.
fn each_digit_is_held(text: &str, figures: &Figures, least: usize) {
    assert_eq!(own_faults(text, figures), 0);
    let digits = digits(text);
    assert!(digits.len() > least, "{} digits", digits.len());
    for at in digits {
        let digit = text.as_bytes()[at] - b'0';
        let other = (digit + 1) % 10;
        let changed = format!("{}{other}{}", &text[..at], &text[at + 1..]);
        assert!(own_faults(&changed, figures) > 0, "{}", &text[at..]);
    }
}

/// No digit of the dictionary and of docs/WORKED.md can be changed without being refused.
#[test]
fn every_digit_of_the_documents() {
    let figures = Figures::of_documents();
    each_digit_is_held(include_str!("../../docs/DICTIONARY.md"), &figures, 2000);
    each_digit_is_held(include_str!("../../docs/WORKED.md"), &figures, 170);
}
