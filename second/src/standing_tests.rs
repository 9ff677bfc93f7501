//! Standing during a change: what a start has to be (docs/RULES.md 3.13), where the walk of the
//! transition leads (3.14), what is told from the request slot on (3.15, 8.2, 11.4), the image (10.1),
//! and by brute force that the figures are the run's own (1.7).

use crate::breaks::{broken, Clause};
use crate::built::{built, led_to, listed_ids, match_base, unlisted_ids};
use crate::cases::{self, record};
use crate::change::{change, AREA};
use crate::clauses::broken_alone;
use crate::counts::ProbeCounts;
use crate::generate::Generator;
use crate::probe::{image_of, read_probe, timetable_of, Probe, IMAGE};
use crate::probes::{Made, Origin, Probes};
use crate::queries::{owner_query, standing_query};
use crate::random::Random;
use crate::records::read_request;
use crate::standing_counts::Answered;
use crate::tests::{after_a, after_b, listing_from_5, sound_in_numbers, soundness};
use crate::timetable::{Entry, Timetable, IDS, LAST_SLOT};
use crate::windows::Run;

/// The timetable that lists some ids from 5 on, after a transition of these owners from these starts:
/// the shortfalls at the base are those to which it leads.
fn walked<const N: usize>(
    entries: [(u16, u8, u8, u16); N],
    owners: &[u8],
    request_slot: u64,
) -> Timetable {
    let mut timetable = listing_from_5(entries);
    timetable.owners[..owners.len()].copy_from_slice(owners);
    (timetable.request_slot, timetable.length) = (request_slot, owners.len() as u8);
    match_base(&mut timetable);
    for id in listed_ids(&timetable) {
        timetable.entries[id].shortfall = led_to(&timetable, id, timetable.starts[id]);
    }
    timetable
}

/// The shortfall that a timetable leads to after so many transition slots, by windows: the largest
/// excess of those that end there, where the longest one counts from the start.
fn by_windows(timetable: &Timetable, id: usize, passed: usize) -> i64 {
    let weight = 256 / i64::from(timetable.entries[id].period);
    let excess = |from: usize| {
        let own = |owner: &u8| usize::from(*owner) == id;
        let supply = timetable.owners[from..passed].iter().filter(|owner| own(owner)).count();
        weight * (passed - from) as i64 - 256 * supply as i64
    };
    let within = (1..=passed).map(excess);
    within.chain([i64::from(timetable.starts[id]) + excess(0)]).max().unwrap_or(0)
}

/// The transition slots before the given number whose owner is the id.
fn had(timetable: &Timetable, id: usize, passed: usize) -> u64 {
    timetable.owners[..passed].iter().filter(|&&owner| usize::from(owner) == id).count() as u64
}

/// At each slot of the transition and at the base the standing is what the windows and owners give.
fn transition_told(timetable: &Timetable) {
    for passed in 0..=usize::from(timetable.length) {
        let slot = timetable.request_slot + passed as u64;
        for id in listed_ids(timetable).into_iter().filter(|_| slot <= LAST_SLOT) {
            let told = standing_query(timetable, id as u8, slot);
            let shortfall = by_windows(timetable, id, passed) as u16;
            assert_eq!(told, (0, shortfall, had(timetable, id, passed)), "{id} at {slot}");
        }
    }
}

/// 3.13: a start is below 256 R: one below is sound, exactly 256 R and more is refused 1, though the
/// transition leads to the kept shortfall and all else holds.
#[test]
fn a_start_is_below_256_r() {
    for bound in 1..=8 {
        let limit = 256 * u16::from(bound);
        let from = |start| walked([(4, 0, bound, start)], &[5], 6);
        for start in [0, limit - 256, limit - 1] {
            soundness(&from(start), true);
        }
        for start in [limit, limit + 1, limit + 100] {
            let timetable = from(start);
            assert_eq!(timetable.entries[5].shortfall, start - 192);
            soundness(&timetable, false);
        }
        // The bound of the id itself counts, not a neighbour's.
        let two = |one, other| walked([(8, 0, bound, one), (8, 1, 8, other)], &[5, 6], 6);
        soundness(&two(limit - 1, 2047), true);
        soundness(&two(limit - 1, 2048), false);
        soundness(&two(limit, 0), false);
    }
    // Without a transition 256 R at the request slot is 256 R at the base, which 3.10 refuses too.
    soundness(&listing_from_5([(4, 0, 1, 255)]), true);
    soundness(&listing_from_5([(4, 0, 1, 256)]), false);
}

/// 3.13: every other id starts with its shortfall at the base. An id that is not listed has weight 0,
/// and no slot where owners are listed, so its start is what the walk leads to: where the two differ 3.14
/// is broken too, or 3.9 if slots of its own take it off.
#[test]
fn an_unlisted_id_starts_with_what_it_is_owed() {
    for timetable in [Timetable::empty(), after_b(), walked([(4, 0, 1, 0)], &[5, 5], 6)] {
        soundness(&timetable, true);
        for id in unlisted_ids(&timetable) {
            for (start, sound) in [(1, true), (255, true), (2047, true), (2048, false)] {
                let mut edited = timetable;
                edited.starts[id] = start;
                assert_eq!(led_to(&edited, id, start), start);
                soundness(&edited, false);
                edited.entries[id].shortfall = start;
                soundness(&edited, sound);
            }
        }
    }
    let mut served = walked([(4, 0, 1, 0)], &[5, 9, 9], 6);
    served.starts[9] = 512;
    assert_eq!(led_to(&served, 9, 512), 0);
    soundness(&served, false);
}

/// 3.14: without a transition the two kept shortfalls are the same.
#[test]
fn no_transition_leads_nowhere_else() {
    for shortfall in [0, 1, 100, 255] {
        let timetable = listing_from_5([(4, 0, 1, shortfall)]);
        for start in 0..256 {
            let mut edited = timetable;
            edited.starts[5] = start;
            soundness(&edited, start == shortfall);
        }
    }
}

/// 3.14: case B's walk from 128, 192 and 0 to 192, 0 and 128. Another start, shortfall or owner is
/// refused, each alone; where the slot takes more off than is there, every start up to 192 leads to 0.
#[test]
fn each_figure_of_the_walk_counts() {
    let b = after_b();
    soundness(&b, true);
    for (id, right) in [(0, 128..129), (1, 0..193), (2, 0..1)] {
        let limit = 256 * u16::from(b.entries[id].bound);
        for start in 0..limit {
            let mut edited = b;
            edited.starts[id] = start;
            soundness(&edited, right.contains(&start));
        }
    }
    for (id, most) in [(0, 255), (1, 127), (2, 383)] {
        for shortfall in 0..=most {
            let mut edited = b;
            edited.entries[id].shortfall = shortfall;
            soundness(&edited, shortfall == b.entries[id].shortfall);
        }
    }
    for owner in [0, 2] {
        let mut edited = b;
        edited.owners[0] = owner;
        soundness(&edited, false);
    }
    let mut further = b;
    (further.starts[1], further.entries[1].shortfall) = (193, 1);
    soundness(&further, true);
}

/// 3.14: the slots count one after the other, by the id's weight. What falls below 0 is 0 at each slot
/// and not at the end, so it is not all one in which order the slots come.
#[test]
fn the_order_of_the_slots_counts() {
    let early = walked([(4, 0, 2, 0), (4, 1, 2, 0)], &[5, 6, 6, 6], 6);
    let late = walked([(4, 0, 2, 0), (4, 1, 2, 0)], &[6, 6, 6, 5], 6);
    assert_eq!([5, 6].map(|id| early.entries[id].shortfall), [192, 0]);
    assert_eq!([5, 6].map(|id| late.entries[id].shortfall), [0, 64]);
    soundness(&early, true);
    soundness(&late, true);
    soundness(&Timetable { owners: late.owners, ..early }, false);
    soundness(&Timetable { owners: early.owners, ..late }, false);
    // The weight is the listed period's: with another one the same slots lead elsewhere.
    let mut heavier = early;
    heavier.entries[5].period = 2;
    soundness(&heavier, false);
}

/// 3.14: nothing is asked of the shortfalls on the way. The farthest that a sound timetable can be
/// behind on it is 6143: period 2 and R 8, 32 slots of others and then 32 of its own.
#[test]
fn a_bound_may_be_broken_on_the_way() {
    let timetable = walked([(4, 0, 1, 255), (4, 1, 8, 0)], &[6, 5], 6);
    soundness(&timetable, true);
    assert_eq!([6, 7, 8].map(|slot| standing_query(&timetable, 5, slot).1), [255, 319, 127]);
    let owners = [[6; 32], [5; 32]].concat();
    let farthest = walked([(2, 0, 8, 2047), (256, 1, 8, 0)], &owners, 6);
    soundness(&farthest, true);
    let told = [6, 38, 70].map(|slot| standing_query(&farthest, 5, slot));
    assert_eq!(told, [(0, 2047, 0), (0, 6143, 0), (0, 2047, 32)]);
    transition_told(&farthest);
}

/// 3.15: a listed id's shortfall and slices at every slot from the request slot on, by hand: a
/// transition of four slots, then the cycle, in which the slices go on and never jump back.
#[test]
fn standings_from_the_request_slot_on() {
    let timetable = walked([(4, 1, 2, 100), (4, 3, 2, 300), (2, 0, 4, 0)], &[6, 5, 6, 7], 6);
    soundness(&timetable, true);
    let told = |id| (6..14).map(|slot| standing_query(&timetable, id, slot)).collect::<Vec<_>>();
    let figures = |figures: [(u16, u64); 8]| figures.map(|(owed, had)| (0, owed, had)).to_vec();
    let first = [(100, 0), (164, 0), (0, 1), (64, 1), (128, 1), (192, 1), (0, 2), (64, 2)];
    assert_eq!(told(5), figures(first));
    let second = [(300, 0), (108, 1), (172, 1), (0, 2), (64, 2), (128, 2), (192, 2), (256, 2)];
    assert_eq!(told(6), figures(second));
    let third = [(0, 0), (128, 0), (256, 0), (384, 0), (256, 1), (128, 2), (256, 2), (128, 3)];
    assert_eq!(told(7), figures(third));
    assert_eq!([5, 6, 7].map(|id| timetable.entries[id].shortfall), [128, 64, 256]);
    assert_eq!(standing_query(&timetable, 6, LAST_SLOT), (0, 128, 2 + (1 << 46) - 3));
}

/// 8.2: it refuses 1, then 4, then 6 before the request slot only, then 10.
#[test]
fn refusals_of_the_standing_query_in_their_order() {
    let timetable = walked([(4, 0, 1, 0)], &[5; 3], 6);
    let unsound = Timetable { base: 8, ..timetable };
    for (id, slot) in [(5, 7), (32, 7), (5, 5), (9, 7), (255, u64::MAX)] {
        assert_eq!(standing_query(&unsound, id, slot), (1, 0, 0));
    }
    for slot in [0, 5, 6, 7, LAST_SLOT + 1, u64::MAX] {
        assert_eq!(standing_query(&timetable, 32, slot), (4, 0, 0));
        assert_eq!(standing_query(&timetable, 255, slot), (4, 0, 0));
    }
    for id in [5, 9] {
        assert_eq!(standing_query(&timetable, id, LAST_SLOT + 1), (4, 0, 0));
        assert_eq!([0, 4, 5].map(|slot| standing_query(&timetable, id, slot)), [(6, 0, 0); 3]);
    }
    for slot in [6, 7, 8, 9, 10, LAST_SLOT] {
        assert_eq!(standing_query(&timetable, 9, slot), (10, 0, 0));
        assert_eq!(standing_query(&timetable, 5, slot).0, 0);
    }
    // From slot 0 on no slot is before the request slot.
    assert_eq!(standing_query(&Timetable::empty(), 0, 0), (10, 0, 0));
    assert_eq!(standing_query(&after_a(), 0, 0), (0, 0, 0));
    // At the highest slot the transition is told as far as slots go.
    let (request_slot, base) = (LAST_SLOT, LAST_SLOT + 64);
    let highest = Timetable { request_slot, base, ..cases::all_listed() };
    assert_eq!(standing_query(&highest, 3, LAST_SLOT), (0, 0, 0));
    assert_eq!(standing_query(&highest, 3, LAST_SLOT + 1), (4, 0, 0));
    assert_eq!(standing_query(&highest, 3, LAST_SLOT - 1), (6, 0, 0));
}

/// 11.4: standing during case B's change.
#[test]
fn standing_during_case_b() {
    let b = after_b();
    let told = |slot| [0, 1, 2].map(|id| standing_query(&b, id, slot));
    assert_eq!(told(5), [(6, 0, 0); 3]);
    assert_eq!(told(6), [(0, 128, 0), (0, 192, 0), (0, 0, 0)]);
    assert_eq!(told(7), [(0, 192, 0), (0, 0, 1), (0, 128, 0)]);
    assert_eq!(told(8)[..2], [(0, 0, 1), (0, 64, 1)]);
    assert_eq!((b.starts[..3].to_vec(), b.starts[3..].to_vec()), (vec![128, 192, 0], vec![0; 29]));
}

/// 10.1: the starts follow the entries, two bytes an id, high byte first; what stands before them is
/// as it was without them.
#[test]
fn starts_in_the_image() {
    let image = image_of(&after_b());
    assert_eq!((image.len(), IMAGE), (337, 337));
    assert_eq!(image[273..279], [0, 128, 0, 192, 0, 0]);
    assert!(image[279..].iter().all(|&byte| byte == 0));
    let without = Timetable { starts: [0; IDS], ..after_b() };
    assert_eq!(image_of(&without)[..273], image[..273]);
    for id in 0..IDS {
        let mut edited = image.clone();
        edited[273 + 2 * id..275 + 2 * id].copy_from_slice(&[0x12, 0x34]);
        let mut starts = after_b().starts;
        starts[id] = 0x1234;
        assert_eq!(timetable_of(&edited), Some(Timetable { starts, ..after_b() }));
    }
    for length in [0, 272, 273, 274, 336, 338, 65535] {
        assert_eq!(timetable_of(&vec![0; length]), None);
    }
}

/// Every transition of up to five slots among three ids, from every tenth start: the timetable is
/// sound with the shortfalls by windows, with one more or less it is not, and each slot is told.
#[test]
fn all_short_transitions() {
    let periods = [(2, 0), (4, 1), (8, 3)];
    let mut clamped = 0;
    for choice in 0..3u32.pow(5) {
        let owners: Vec<u8> = (0..5).map(|at| 5 + (choice / 3u32.pow(at) % 3) as u8).collect();
        for length in 0..=owners.len() {
            let start = (choice as u16 * 7 + length as u16 * 31) % 250;
            let entries = periods.map(|(period, offset)| (period, offset, 8, start));
            let mut timetable = walked(entries, &owners[..length], 6);
            for id in [5, 6, 7] {
                let reached = by_windows(&timetable, id, length);
                assert_eq!(i64::from(timetable.entries[id].shortfall), reached);
                let own = had(&timetable, id, length) as i64;
                let weight = 256 / i64::from(timetable.entries[id].period);
                let plain = i64::from(start) + weight * length as i64 - 256 * own;
                clamped += u32::from(reached > plain);
            }
            assert!(timetable.sound() && sound_in_numbers(&timetable));
            transition_told(&timetable);
            timetable.entries[6].shortfall += 1;
            soundness(&timetable, false);
        }
    }
    assert!(clamped > 1000, "{clamped}");
}

/// Any sound timetables are told at each transition slot, at the base, and refused 6 before.
#[test]
fn any_transition_is_told() {
    let mut random = Random::new(21);
    let (mut slots, mut beyond, mut kept) = (0, 0, 0);
    for _ in 0..1500 {
        let timetable = built(&mut random);
        transition_told(&timetable);
        slots += u32::from(timetable.length);
        for id in listed_ids(&timetable) {
            let limit = 256 * i64::from(timetable.entries[id].bound);
            let on_the_way = 0..usize::from(timetable.length);
            let broken = |passed| by_windows(&timetable, id, passed) >= limit;
            beyond += u32::from(on_the_way.clone().any(broken));
            let nearby = timetable.starts[id] ^ 1;
            kept += u32::from(led_to(&timetable, id, nearby) == timetable.entries[id].shortfall);
            if let Some(before) = timetable.request_slot.checked_sub(1) {
                assert_eq!(standing_query(&timetable, id as u8, before), (6, 0, 0));
            }
        }
    }
    assert!(slots > 20_000 && beyond > 200 && kept > 500, "{slots} {beyond} {kept}");
}

/// Where several starts lead to the same shortfall every one of them is sound, and no other.
#[test]
fn starts_that_lead_to_the_same() {
    let mut random = Random::new(22);
    let (mut sound, mut others) = (0, 0);
    for _ in 0..150 {
        let timetable = built(&mut random);
        for id in listed_ids(&timetable).into_iter().take(3) {
            let Entry { bound, shortfall, .. } = timetable.entries[id];
            for start in (0..256 * u16::from(bound)).step_by(3) {
                let mut edited = timetable;
                edited.starts[id] = start;
                let leads = led_to(&timetable, id, start) == shortfall;
                assert_eq!(edited.sound(), leads);
                (sound, others) = (sound + u32::from(leads), others + u32::from(!leads));
            }
        }
    }
    assert!(sound > 2000 && others > 20_000, "{sound} {others}");
}

/// 4.2: a new timetable's starts are the shortfalls that the present one tells at its request slot, or
/// keeps for an id that it does not list; for an id that is not listed then that is all of its entry.
#[test]
fn starts_of_new_timetables() {
    let mut timetable = Timetable::empty();
    let (mut kept, mut returned, mut left) = (0, 0, 0);
    for request in Generator::new(6, 2500) {
        let before = timetable;
        let outcome = change(&before, &request, &mut [0; AREA]);
        timetable = outcome.timetable;
        for id in (0..IDS).filter(|_| outcome.number == 0) {
            let told = standing_query(&before, id as u8, timetable.request_slot);
            let start = if told.0 == 10 { before.entries[id].shortfall } else { told.1 };
            assert_eq!(timetable.starts[id], start);
            let owing = Entry { shortfall: start, ..Entry::default() };
            let is_listed = timetable.entries[id].listed();
            assert!(is_listed || timetable.entries[id] == owing);
            kept += u32::from(is_listed && told.0 == 0 && start > 0);
            returned += u32::from(is_listed && told.0 == 10 && start > 0);
            left += u32::from(!is_listed && told.0 == 0 && start > 0);
        }
    }
    assert!(kept > 2000 && returned > 2000 && left > 1000, "{kept} {returned} {left}");
}

/// 1.7: at a slot of the run every listed id's standing is the shortfall of all windows that end there
/// and the run's supply since the request slot; the owner is the run's.
fn run_told(run: &Run, slot: u64) {
    let timetable = &run.timetable;
    assert_eq!(owner_query(timetable, slot).1, run.owner(slot as usize));
    for id in listed_ids(timetable) {
        let shortfall = run.shortfall(id, slot as usize);
        let supply = run.supply(id, timetable.request_slot as usize..slot as usize);
        let told = standing_query(timetable, id as u8, slot);
        assert_eq!(told, (0, shortfall as u16, supply), "{id} at {slot}");
    }
}

/// 1.7: the kept shortfalls of every id are the run's, and so is what the queries tell at every slot of
/// the transition and at the first of the cycle; the slot before the request slot is refused 6.
fn accepted_told(run: &mut Run) {
    let timetable = run.timetable;
    let (first, base) = (timetable.request_slot, timetable.base);
    run.record_to(base as usize + 20);
    for id in 0..IDS {
        let kept = [timetable.starts[id], timetable.entries[id].shortfall].map(i64::from);
        assert_eq!(kept, [first, base].map(|slot| run.shortfall(id, slot as usize)));
        if let Some(before) = first.checked_sub(1) {
            assert_eq!(standing_query(&timetable, id as u8, before), (6, 0, 0));
        }
    }
    (first..base + 20).for_each(|slot| run_told(run, slot));
}

/// 1.7 on random histories, across any number of changes: by all windows of the recorded slots.
#[test]
fn the_standing_is_the_runs_own() {
    let (mut lengths, mut changes, mut behind) = ([0; 65], 0, 0);
    for seed in 0..100 {
        let mut run = Run::empty();
        for request in Generator::new(seed, 100) {
            let near = read_request(&request).map_or(true, |request| request.slot < 900);
            if near && run.put(&request).number == 0 {
                accepted_told(&mut run);
                lengths[usize::from(run.timetable.length)] += 1;
                behind += run.timetable.starts.iter().filter(|&&start| start > 0).count();
                changes += 1;
            }
        }
    }
    let (short, long): (u32, u32) = (lengths[1..9].iter().sum(), lengths[9..].iter().sum());
    assert!(changes > 800 && behind > 10_000, "{changes} {behind}");
    assert!(short > 60 && long > 20, "{lengths:?}");
}

/// Within one slot each request counts, and each leaves the shortfalls: an id that leaves and returns
/// starts where it was, as one that stays, at the same request slot again.
#[test]
fn several_changes_in_one_slot() {
    let again = |timetable: &Timetable, shares: &[(u8, u8, u8)]| {
        change(timetable, &record(7, 64, shares), &mut [0; AREA]).timetable
    };
    let left = again(&after_b(), &[(0, 2, 1), (1, 2, 1)]);
    let back = again(&left, &[(0, 2, 1), (1, 2, 1), (2, 1, 2)]);
    assert_eq!((left.request_slot, left.starts[..4].to_vec()), (7, vec![192, 0, 128, 0]));
    let stays = again(&after_b(), &[(0, 2, 1), (1, 2, 1), (2, 1, 2)]);
    assert_eq!((stays.request_slot, stays.starts[..4].to_vec()), (7, vec![192, 0, 128, 0]));
    assert_eq!(back, stays);
    // The slices count from the last request slot.
    assert_eq!(standing_query(&after_b(), 1, 7), (0, 0, 1));
    assert_eq!(standing_query(&stays, 1, 7), (0, 0, 0));
    let broken = broken(&mut Random::new(1), Clause::Base, &stays);
    assert_eq!(standing_query(&broken, 1, 7), (1, 0, 0));
}

/// The image of a change or a query; none in other probes.
fn image_in(made: &Made) -> Vec<u8> {
    match read_probe(&made.content) {
        Probe::Change { image, .. } | Probe::Owner { image, .. } => image,
        Probe::Standing { image, .. } => image,
        _ => Vec::new(),
    }
}

/// A listed id starts at exactly 256 R, and nothing else is wrong.
fn starts_at_256_r(timetable: &Timetable) -> bool {
    let exact = |id: usize| timetable.starts[id] == 256 * u16::from(timetable.entries[id].bound);
    let ids = listed_ids(timetable);
    broken_alone(timetable, Clause::Start) && ids.into_iter().any(exact)
}

/// The stored stream of probes breaks each clause of the starts and of the walk alone, and sweeps
/// whole transitions, so often that the wrong programs of docs/RULES.md 12.21 to 12.23 show; images
/// without their starts, or a byte short or long, are in it.
#[test]
fn the_stored_stream_has_starts_and_sweeps() {
    let stream: Vec<Made> = Probes::new(1, 20_000).collect();
    let images: Vec<Vec<u8>> = stream.iter().map(image_in).collect();
    let of_length = |length| images.iter().filter(|image| image.len() == length).count();
    assert!([273, 336, 338].iter().all(|&length| of_length(length) >= 30));
    let timetables = images.iter().filter_map(|image| timetable_of(image));
    let exact = timetables.filter(starts_at_256_r).count();
    let counts = ProbeCounts::of(stream);
    let alone = |clause| {
        let mut origins = counts.origins.iter();
        origins.find(|count| count.origin == Origin::Broken(clause)).map_or(0, |count| count.alone)
    };
    let clauses = [
        Clause::Start,
        Clause::UnlistedStart,
        Clause::Debt,
        Clause::OtherStart,
        Clause::OtherShortfall,
        Clause::OtherOwner,
    ];
    assert!(clauses.iter().all(|&clause| alone(clause) >= 200), "{:?}", clauses.map(alone));
    assert!(exact >= 100, "{exact}");
    let standings = counts.standings;
    assert!(standings.least() >= 200 && standings.too_early >= 500, "{standings:?}");
    assert!(standings.whole.iter().all(|&whole| whole >= 200), "{:?}", standings.whole);
    let all = |figure: fn(&Answered) -> u64| standings.answered.iter().map(figure).sum::<u64>();
    assert!(all(|answered| answered.other_slices) >= 10_000, "{standings:?}");
    assert!(all(|answered| answered.other_shortfall) >= 5000, "{standings:?}");
    assert!(standings.answered[6..].iter().all(|later| later.other_slices >= 300));
}
