//! The bench cases with their exact bytes and numbers, every refusal and the order of the stages,
//! transitions worked out by hand, the clauses of soundness, both queries, the frames, and the skip
//! of repeated cycles.

use crate::cases::{self, record, request_a, request_d, request_left, request_short};
use crate::change::{change, most_urgent, placement, Outcome, AREA};
use crate::counts::RequestCounts;
use crate::frames::{frame, print_lines, LONGEST_FRAME};
use crate::generate::Generator;
use crate::probe::probe_line;
use crate::queries::{owner_query, standing_query};
use crate::records::{longest_field, share_field, slot_field};
use crate::slots::{last_offset, next_shortfall, room, Shortfalls, Walk};
use crate::timetable::{Entry, Listing, Share, Timetable, IDLE, IDS, LAST_SLOT};

/// A byte that no answer leaves in a whole area, to see which bytes were written.
const BEFORE: u8 = 0xa5;

/// The outcome of a request with an area of 300 bytes, all checks on the area included.
fn answered(timetable: &Timetable, record: &[u8]) -> (Outcome, Vec<u8>) {
    let mut area = vec![BEFORE; 300];
    let outcome = change(timetable, record, &mut area);
    let rest = area.split_off(outcome.written);
    assert!(rest.iter().all(|&byte| byte == BEFORE), "bytes after the record stay");
    (outcome, area)
}

/// A request is refused with a number, a place and tries, and the timetable is handed back.
fn refused(timetable: &Timetable, record: &[u8], number: u8, place: u64, tries: u16) {
    let (outcome, _) = answered(timetable, record);
    let wanted = Outcome { number, place, tries, written: 0, timetable: *timetable };
    assert_eq!(outcome, wanted);
}

/// A request is accepted with so many tries; the new timetable is sound.
fn accepted(timetable: &Timetable, record: &[u8], tries: u16) -> Timetable {
    let (outcome, _) = answered(timetable, record);
    assert_eq!((outcome.number, outcome.place, outcome.tries), (0, 0, tries));
    assert!(outcome.timetable.sound());
    outcome.timetable
}

/// The offsets of some ids.
fn offsets<const N: usize>(timetable: &Timetable, ids: [usize; N]) -> [u8; N] {
    ids.map(|id| timetable.entries[id].offset)
}

/// The shortfalls of ids 0, 1 and 2 at a slot, as the standing query gives them.
fn shortfalls(timetable: &Timetable, slot: u64) -> [u16; 3] {
    [0, 1, 2].map(|id| standing_query(timetable, id, slot).1)
}

/// Case B's request with some T.
fn request_b(longest: u8) -> Vec<u8> {
    cases::request_b(6, longest)
}

/// The timetable after case A.
pub(crate) fn after_a() -> Timetable {
    accepted(&Timetable::empty(), &request_a(), 1)
}

/// The timetable after case B.
pub(crate) fn after_b() -> Timetable {
    accepted(&after_a(), &request_b(1), 2)
}

/// A: on the empty timetable, two periods of 4 get offsets 3 and 2.
#[test]
fn case_a() {
    let (outcome, area) = answered(&Timetable::empty(), &request_a());
    let bytes = [0x10, 0, 1, 0, 0x11, 0, 0, 0x12, 0, 2, 0, 3, 0x12, 0, 2, 1, 2];
    assert_eq!(area, bytes);
    assert_eq!((outcome.number, outcome.place, outcome.tries), (0, 0, 1));
    assert_eq!(outcome.written, bytes.len());
    let timetable = after_a();
    assert_eq!((timetable.request_slot, timetable.length, timetable.base), (0, 0, 0));
    assert_eq!(offsets(&timetable, [0, 1]), [3, 2]);
}

/// A with short fields: the empty timetable lists none of the ids, so R is 1 as in A.
#[test]
fn case_a_with_short_fields() {
    let record = [1, 0, 8, 0, 0, 0, 0, 0, 0, 0, 0, 2, 0, 1, 0, 3, 0, 2, 0, 2, 3, 0, 3, 1, 2, 1];
    assert_eq!(accepted(&Timetable::empty(), &record, 1), after_a());
    let short = [slot_field(0), longest_field(0), share_field(0, 2, None), share_field(1, 2, None)];
    assert_eq!(short.concat().len(), 25);
    assert_eq!(accepted(&Timetable::empty(), &short.concat(), 1), after_a());
}

/// B: length 0 is passed over, slot 6 goes to id 1, and the base is 7.
#[test]
fn case_b() {
    let a = after_a();
    assert_eq!(standing_query(&a, 0, 6), (0, 128, 1));
    assert_eq!(standing_query(&a, 1, 6), (0, 192, 1));
    let (outcome, area) = answered(&a, &request_b(1));
    let bytes =
        [0x10, 0, 1, 1, 0x11, 0, 1, 1, 0x12, 0, 2, 0, 0, 0x12, 0, 2, 1, 2, 0x12, 0, 2, 2, 1];
    assert_eq!(area, bytes);
    assert_eq!((outcome.number, outcome.place, outcome.tries, outcome.written), (0, 0, 2, 23));
    let b = outcome.timetable;
    assert_eq!((b.request_slot, b.length, b.base), (6, 1, 7));
    assert_eq!(b.transition(), [1]);
    assert_eq!(offsets(&b, [0, 1, 2]), [0, 2, 1]);
    assert_eq!([0, 1, 2].map(|id| b.entries[id].shortfall), [192, 0, 128]);
    assert_eq!(b.starts[..4], [128, 192, 0, 0]);
    assert_eq!(accepted(&a, &request_b(64), 2), b);
}

/// C: B with T 0 is refused 11 after one try.
#[test]
fn case_c() {
    refused(&after_a(), &request_b(0), 11, 0, 1);
}

/// D: a shortfall of 256 is not below 256 times a new R of 1.
#[test]
fn case_d() {
    let b = after_b();
    assert_eq!(shortfalls(&b, 8)[2], 256);
    refused(&b, &request_d(8, 64), 8, 2, 0);
}

/// D with a short field for id 2, which B lists with R 2: 256 is below 512, and the last offsets at
/// slot 8 are 3, 2 and 1, so id 2 takes the odd slots, id 1 slot 2 and id 0 slot 0.
#[test]
fn case_d_with_a_short_field() {
    let b = after_b();
    assert_eq!(shortfalls(&b, 8), [0, 64, 256]);
    for longest in [0, 1, 64] {
        let after = accepted(&b, &request_short(8, longest), 1);
        assert_eq!((after.request_slot, after.length, after.base), (8, 0, 8));
        assert_eq!(offsets(&after, [0, 1, 2]), [0, 2, 1]);
        assert_eq!([0, 1, 2].map(|id| after.entries[id].bound), [1, 1, 2]);
        assert_eq!([0, 1, 2].map(|id| after.entries[id].shortfall), [0, 64, 256]);
    }
    let (_, area) = answered(&b, &request_short(8, 64));
    let bytes = [0x10, 0, 1, 0, 0x11, 0, 0, 0x12, 0, 2, 0, 0, 0x12, 0, 2, 1, 2, 0x12, 0, 2, 2, 1];
    assert_eq!(area, bytes);
}

/// An entry that is not listed, of an id that is owed so much.
fn absent(shortfall: u16) -> Entry {
    Entry { shortfall, ..Entry::default() }
}

/// 11.3: at slot 7 id 2, which is owed 128, is left out: id 0, with room 0, takes slot 0, and id 1 slot 3.
/// It returns at slot 8 by a short field, with R 1, and is still owed 128: its last offset is 0, so it
/// takes the even slots, id 1 slot 1 and id 0 slot 3.
#[test]
fn leaving_and_returning_with_a_short_field() {
    let left = accepted(&after_b(), &request_left(7, 0), 1);
    assert_eq!(offsets(&left, [0, 1]), [0, 3]);
    assert_eq!((left.entries[2], left.starts[2]), (absent(128), 128));
    let returned = accepted(&left, &request_short(8, 0), 1);
    assert_eq!((returned.request_slot, returned.length, returned.base), (8, 0, 8));
    assert_eq!(offsets(&returned, [0, 1, 2]), [3, 1, 0]);
    assert_eq!([0, 1, 2].map(|id| returned.entries[id].bound), [1, 1, 1]);
    assert_eq!([0, 1, 2].map(|id| returned.entries[id].shortfall), [0, 64, 128]);
    // At slot 7 ids 0 and 2 have room 0 both.
    refused(&left, &request_short(7, 0), 11, 0, 1);
    refused(&left, &request_short(7, 64), 9, 0, 1);
}

/// 11.5: id 2 leaves at slot 8, where it is owed 256. With R 1, in full or by a short field, it does not
/// return at slot 8 nor after twelve slots; with R 2 it does, and is owed what it was.
#[test]
fn a_debt_across_an_absence() {
    let left = accepted(&after_b(), &request_left(8, 0), 1);
    assert_eq!((left.entries[2], left.starts[2]), (absent(256), 256));
    assert_eq!([8, 9, 20].map(|slot| standing_query(&left, 2, slot)), [(10, 0, 0); 3]);
    for slot in [8, 9, 20, LAST_SLOT] {
        for longest in [0, 64] {
            refused(&left, &request_d(slot, longest), 8, 2, 0);
            refused(&left, &request_short(slot, longest), 8, 2, 0);
        }
    }
    let returned = accepted(&left, &cases::request_b(8, 0), 1);
    assert_eq!(offsets(&returned, [0, 1, 2]), [0, 2, 1]);
    assert_eq!(shortfalls(&returned, 8), [0, 64, 256]);
    assert_eq!(returned, accepted(&after_b(), &cases::request_b(8, 0), 1));
    let later = accepted(&left, &cases::request_b(20, 0), 1);
    assert_eq!((later.starts[2], later.entries[2].shortfall), (256, 256));
}

/// 11.5: from the empty timetable with what id 2 is owed at the request slot and at the base.
#[test]
fn the_largest_debt() {
    let kept = accepted(&cases::in_debt(2047, 2047), &record(9, 0, &[]), 1);
    assert_eq!((kept.entries[2], kept.starts[2]), (absent(2047), 2047));
    for (start, shortfall) in [(2048, 2048), (2047, 2046), (2046, 2047), (2048, 2047), (0, 1)] {
        refused(&cases::in_debt(start, shortfall), &record(0, 0, &[]), 1, 0, 0);
    }
    // It returns with R 8 alone, and has to be served at once.
    for bound in 1..8 {
        refused(&kept, &record(9, 64, &[(2, 2, bound)]), 8, 2, 0);
    }
    let returned = accepted(&kept, &record(9, 64, &[(2, 2, 8)]), 1);
    assert_eq!((offsets(&returned, [2]), returned.starts[2]), ([0], 2047));
}

/// The cases end with nothing listed and nothing owed.
#[test]
fn the_cases_end_without_debts() {
    let end = cases::requests().iter().fold(Timetable::empty(), |timetable, request| {
        change(&timetable, request, &mut [0; AREA]).timetable
    });
    assert_eq!(end, Timetable { request_slot: 14, base: 14, ..Timetable::empty() });
}

/// So the stored stream meets behind the cases what it was made for.
#[test]
fn a_stream_follows_the_cases() {
    let (mut alone, mut behind) = (Timetable::empty(), Timetable::empty());
    for request in cases::requests() {
        behind = change(&behind, &request, &mut [0; AREA]).timetable;
    }
    for request in Generator::new(1, 500) {
        let outcome = change(&alone, &request, &mut [0; AREA]);
        assert_eq!(outcome, change(&behind, &request, &mut [0; AREA]));
        (alone, behind) = (outcome.timetable, outcome.timetable);
    }
}

/// A request is refused 9 with a slot as its place at each T above it, and else 11 with place T.
fn missed_at(timetable: &Timetable, request: impl Fn(u8) -> Vec<u8>, slot: u8) {
    for longest in 0..=64 {
        let (number, place) = if longest > slot { (9, slot) } else { (11, longest) };
        refused(timetable, &request(longest), number, u64::from(place), u16::from(place) + 1);
    }
}

/// E: the rooms are 2, 1 and 0; id 2 gets slot 0 and id 1 slot 1, then ids 0 and 2 have room 0. So
/// slot 2 is missed where it is sought, and up to T 2 all lengths are searched in vain.
#[test]
fn case_e() {
    let b = after_b();
    assert_eq!(shortfalls(&b, 9), [64, 128, 128]);
    missed_at(&b, |longest| request_d(9, longest), 2);
}

/// F: a slot before the base is too early, the base is not.
#[test]
fn case_f() {
    let b = after_b();
    refused(&b, &record(6, 64, &[]), 6, 0, 0);
    refused(&b, &request_d(6, 64), 6, 0, 0);
    accepted(&b, &record(7, 64, &[]), 1);
    // At the base ids 0 and 2, with shortfalls 192 and 128 and R 1, have room 0 both.
    missed_at(&b, |longest| request_d(7, longest), 0);
}

/// G: the shortfall of figure 7 in the 2021 paper (docs/RULES.md 14) is 448 at slot 8.
#[test]
fn case_g() {
    let mut shortfall = 0;
    for slot in 0..8 {
        let weight = if slot < 4 { 64 } else { 256 };
        shortfall = next_shortfall(shortfall, weight, [0, 4, 5, 6].contains(&slot));
    }
    assert_eq!(shortfall, 448);
}

/// H: room and last offset of the shares named there.
#[test]
fn case_h() {
    let quarter = Share { period: 4, bound: 1 };
    assert_eq!([0, 128, 192].map(|shortfall| room(shortfall, quarter)), [3, 1, 0]);
    let half = Share { period: 2, bound: 2 };
    assert_eq!((room(0, half), last_offset(0, half)), (3, 1));
    let longest = Share { period: 256, bound: 8 };
    assert_eq!([0, 1792, 1793].map(|shortfall| room(shortfall, longest)), [2047, 255, 254]);
    assert_eq!([0, 1792, 1793].map(|shortfall| last_offset(shortfall, longest)), [255, 255, 254]);
}

/// Room by passing slots is (256 R - 1 - shortfall) / weight, rounded down.
#[test]
fn room_is_the_quotient_rounded_down() {
    for k in 0..=8 {
        for bound in 1..=8 {
            let share = Share { period: 1 << k, bound };
            for shortfall in 0..256 * i64::from(bound) {
                let quotient = (256 * i64::from(bound) - 1 - shortfall) / share.weight();
                assert_eq!(i64::from(room(shortfall, share)), quotient);
            }
        }
    }
}

/// I: the empty listing is accepted with seven bytes.
#[test]
fn case_i() {
    let (outcome, area) = answered(&Timetable::empty(), &record(0, 0, &[]));
    assert_eq!(area, [0x10, 0, 1, 0, 0x11, 0, 0]);
    assert_eq!((outcome.number, outcome.tries, outcome.written), (0, 1, 7));
    assert_eq!(outcome.timetable, Timetable::empty());
    let after = accepted(&after_b(), &record(99, 64, &[]), 1);
    let mut empty = Timetable { request_slot: 99, base: 99, ..Timetable::empty() };
    for (id, owed) in [192, 64, 128].into_iter().enumerate() {
        (empty.entries[id], empty.starts[id]) = (absent(owed), owed);
    }
    assert_eq!(after, empty);
}

/// J: period 1 alone gets offset 0; a later id besides is refused 7 at that id.
#[test]
fn case_j() {
    let alone = accepted(&Timetable::empty(), &record(0, 0, &[(4, 0, 1)]), 1);
    assert_eq!(offsets(&alone, [4]), [0]);
    for later in 5..32 {
        refused(
            &Timetable::empty(),
            &record(0, 64, &[(4, 0, 1), (later, 8, 8)]),
            7,
            u64::from(later),
            0,
        );
    }
}

/// The cases that are run only: records cut short, the limits of slot, T and area.
#[test]
fn run_only_cases() {
    let empty = Timetable::empty();
    refused(&empty, &[], 3, 0, 0);
    refused(&empty, &slot_field(0), 3, 11, 0);
    refused(&empty, &record(LAST_SLOT + 1, 0, &[]), 4, 0, 0);
    accepted(&empty, &record(LAST_SLOT, 64, &[]), 1);
    refused(&empty, &record(0, 65, &[]), 4, 11, 0);
    let mut area = [BEFORE; 230];
    let outcome = change(&empty, &request_a(), &mut area);
    assert_eq!((outcome.number, outcome.place, outcome.tries, outcome.written), (2, 0, 0, 0));
    assert_eq!((outcome.timetable, area), (empty, [BEFORE; 230]));
    assert_eq!(change(&empty, &request_a(), &mut [BEFORE; 231]).number, 0);
    assert_eq!(change(&empty, &[], &mut []).number, 2);
}

/// 64 owners and 32 offsets make 231 bytes.
#[test]
fn the_longest_answer_has_231_bytes() {
    assert!(cases::all_listed().sound());
    assert_eq!(crate::records::write_answer(&cases::all_listed()).len(), 231);
}

/// The timetable of slot 0 without a transition that lists these ids.
fn listing<const N: usize>(entries: [(usize, Entry); N]) -> Timetable {
    let mut timetable = Timetable::empty();
    for (id, entry) in entries {
        (timetable.entries[id], timetable.starts[id]) = (entry, entry.shortfall);
    }
    timetable
}

/// All 32 ids with period 32, each with its own offset.
fn all_listed() -> Timetable {
    let mut timetable = Timetable::empty();
    for (offset, entry) in (0..).zip(&mut timetable.entries) {
        *entry = Entry { period: 32, offset, bound: 1, shortfall: 0 };
    }
    timetable
}

/// All 32 ids are written with their offsets, ids rising.
#[test]
fn a_full_area_is_written() {
    let shares: Vec<(u8, u8, u8)> = (0..32).map(|id| (id, 5, 1)).collect();
    let (outcome, area) = answered(&Timetable::empty(), &record(0, 64, &shares));
    assert_eq!((outcome.number, outcome.written), (0, 7 + 160));
    for id in 0..32 {
        let at = 7 + 5 * id;
        assert_eq!(area[at..at + 5], [0x12, 0, 2, id as u8, 31 - id as u8]);
    }
}

/// A field cut off, missing, unknown, out of order or of wrong length is 3 at its tag's byte.
#[test]
fn fields_refused_3() {
    let empty = Timetable::empty();
    let whole = record(5, 7, &[(1, 2, 3), (4, 5, 6)]);
    for end in 0..whole.len() {
        let place = [0, 11, 15, 21].into_iter().filter(|&at| at <= end).max();
        match end {
            15 | 21 => assert_eq!(answered(&empty, &whole[..end]).0.number, 0),
            _ => refused(&empty, &whole[..end], 3, place.unwrap_or(0) as u64, 0),
        }
    }
    for (at, tag) in [(0, 2), (0, 3), (11, 1), (11, 3), (15, 1), (15, 2), (21, 4), (21, 0x12)] {
        let mut changed = whole.clone();
        changed[at] = tag;
        refused(&empty, &changed, 3, at as u64, 0);
    }
    for (at, length) in [(0, 7), (0, 9), (11, 0), (11, 2), (15, 0), (15, 1), (15, 4), (21, 255)] {
        let mut changed = whole.clone();
        changed[at + 2] = length;
        refused(&empty, &changed, 3, at as u64, 0);
        changed[at + 2] = whole[at + 2];
        changed[at + 1] = 1;
        refused(&empty, &changed, 3, at as u64, 0);
    }
    for tail in [0, 1, 2, 3, 255] {
        refused(&empty, &[&whole[..], &[tail]].concat(), 3, 27, 0);
    }
    refused(&empty, &longest_field(0), 3, 0, 0);
    refused(&empty, &[slot_field(0), share_field(0, 0, Some(1))].concat(), 3, 11, 0);
    refused(&empty, &[&whole[..15], &longest_field(0)].concat(), 3, 15, 0);
}

/// A value out of range is 4 at its field's tag byte.
#[test]
fn fields_refused_4() {
    let empty = Timetable::empty();
    for share in
        [(32, 0, 1), (255, 0, 1), (0, 9, 1), (0, 255, 1), (0, 0, 0), (0, 0, 9), (0, 0, 255)]
    {
        refused(&empty, &record(0, 0, &[share]), 4, 15, 0);
    }
    refused(&empty, &[record(0, 0, &[]), vec![3, 0, 2, 32, 0]].concat(), 4, 15, 0);
    refused(&empty, &[record(0, 0, &[]), vec![3, 0, 2, 0, 9]].concat(), 4, 15, 0);
    refused(&empty, &record(u64::MAX, 0, &[]), 4, 0, 0);
    refused(&empty, &record(0, 255, &[]), 4, 11, 0);
}

/// An id not above the one before is 5; a 33rd field is 4, 5 or 3.
#[test]
fn fields_refused_5() {
    let empty = Timetable::empty();
    refused(&empty, &record(0, 0, &[(3, 8, 1), (3, 8, 1)]), 5, 21, 0);
    refused(&empty, &record(0, 0, &[(3, 8, 1), (4, 8, 1), (0, 8, 1)]), 5, 27, 0);
    let mut shares: Vec<(u8, u8, u8)> = (0..32).map(|id| (id, 8, 1)).collect();
    accepted(&empty, &record(0, 0, &shares), 1);
    for (id, number) in [(31, 5), (0, 5), (32, 4), (255, 4)] {
        shares.push((id, 8, 1));
        refused(&empty, &record(0, 0, &shares), number, 15 + 32 * 6, 0);
        shares.pop();
    }
    let thirty_third = [record(0, 0, &shares), vec![3, 0, 1, 0]].concat();
    refused(&empty, &thirty_third, 3, 15 + 32 * 6, 0);
}

/// A request with several faults is refused for the one of the lowest stage.
#[test]
fn the_lowest_stage_wins() {
    let b = after_b();
    let unsound = Timetable { base: 0, ..b };
    let mut small = [BEFORE; 230];
    assert_eq!(change(&unsound, &[], &mut small).number, 1);
    assert_eq!(change(&b, &[], &mut small).number, 2);
    assert_eq!(small, [BEFORE; 230]);
    // Within a field 3 stands before 4 and 4 before 5; an earlier field stands before a later one.
    refused(&b, &[record(6, 0, &[]), vec![3, 0, 4, 32, 9, 9, 9]].concat(), 3, 15, 0);
    refused(&b, &[record(6, 0, &[]), vec![3, 0, 3, 32, 9]].concat(), 3, 15, 0);
    refused(&b, &record(6, 0, &[(5, 0, 1), (4, 9, 1)]), 4, 21, 0);
    refused(&b, &record(6, 0, &[(5, 0, 1), (5, 0, 1), (40, 9, 1)]), 5, 21, 0);
    refused(&b, &[record(LAST_SLOT + 1, 65, &[(32, 0, 1)]), vec![9]].concat(), 4, 0, 0);
    refused(&b, &[record(6, 65, &[(32, 0, 1)]), vec![9]].concat(), 4, 11, 0);
    // Every field comes before 6, 6 before 7, 7 before 8, 8 before 9 and 11.
    refused(&b, &record(6, 0, &[(0, 0, 1), (0, 0, 1)]), 5, 21, 0);
    refused(&b, &record(6, 0, &[(0, 0, 1), (2, 1, 1)]), 6, 0, 0);
    refused(&b, &record(8, 0, &[(0, 0, 1), (2, 1, 1)]), 7, 2, 0);
    refused(&b, &request_d(8, 0), 8, 2, 0);
    refused(&b, &request_d(8, 64), 8, 2, 0);
    refused(&b, &request_d(9, 0), 11, 0, 1);
    refused(&b, &request_d(9, 64), 9, 2, 3);
}

/// The place of 7 is the id at which the running sum, ids rising, first passes 256.
#[test]
fn seven_names_the_id_where_the_running_sum_passes() {
    let empty = Timetable::empty();
    refused(&empty, &record(0, 0, &[(1, 1, 1), (2, 2, 1), (9, 1, 1), (11, 0, 1)]), 7, 9, 0);
    refused(&empty, &record(0, 0, &[(1, 1, 1), (2, 1, 1), (30, 8, 1), (31, 8, 1)]), 7, 30, 0);
    accepted(&empty, &record(0, 0, &[(1, 1, 1), (2, 1, 1)]), 1);
}

/// One that leaves and returns in one slot comes to the same as one that stays; one that returns later
/// is owed what it was, however many slots have passed.
#[test]
fn a_partition_returns_with_its_debt() {
    let a = after_a();
    assert_eq!(shortfalls(&a, 2), [128, 128, 0]);
    let kept = accepted(&a, &record(2, 0, &[(0, 2, 1), (1, 2, 1)]), 1);
    assert_eq!([0, 1].map(|id| kept.entries[id].shortfall), [128, 128]);
    assert_eq!(offsets(&kept, [0, 1]), [1, 0]);
    let left = accepted(&a, &record(2, 0, &[(1, 2, 1)]), 1);
    assert_eq!(accepted(&left, &record(2, 0, &[(0, 2, 1), (1, 2, 1)]), 1), kept);
    for slot in [3, 4, 258, 1 << 40, LAST_SLOT] {
        let later = accepted(&left, &record(slot, 0, &[(0, 2, 1)]), 1);
        assert_eq!((later.starts[0], later.entries[0].shortfall), (128, 128));
        assert_eq!(offsets(&later, [0]), [1]);
    }
}

/// A shortfall of exactly 256 R is refused 8, one less is not.
#[test]
fn a_shortfall_of_exactly_the_bound_is_refused() {
    let timetable = |shortfall| listing([(7, Entry { period: 2, offset: 0, bound: 3, shortfall })]);
    assert!(timetable(512).sound());
    refused(&timetable(512), &record(0, 64, &[(7, 1, 2)]), 8, 7, 0);
    accepted(&timetable(511), &record(0, 64, &[(7, 1, 2)]), 1);
}

/// The place of 8 is the lowest id that is behind, not the first that is listed, nor the last.
#[test]
fn eight_names_the_lowest_id() {
    let entry = |offset, shortfall| Entry { period: 4, offset, bound: 3, shortfall };
    let timetable = listing([(3, entry(0, 255)), (5, entry(1, 256)), (9, entry(2, 600))]);
    assert!(timetable.sound());
    refused(&timetable, &record(0, 64, &[(3, 2, 1), (5, 2, 1), (9, 2, 1)]), 8, 5, 0);
    refused(&timetable, &record(0, 64, &[(3, 2, 1), (5, 2, 2), (9, 2, 2)]), 8, 9, 0);
}

/// Four of period 8 wait side by side, and a newcomer takes every second slot: three are served
/// one by one before the fourth, at room 0, and the others find slots of the other half.
#[test]
fn a_transition_of_three_slots() {
    let block = [(0, 3, 1), (1, 3, 1), (2, 3, 1), (3, 3, 1)];
    let before = accepted(&Timetable::empty(), &record(0, 0, &block), 1);
    assert_eq!(offsets(&before, [0, 1, 2, 3]), [7, 6, 5, 4]);
    let with_newcomer = [&block[..], &[(4, 1, 4)]].concat();
    for longest in 0..3 {
        let request = record(4, longest, &with_newcomer);
        refused(&before, &request, 11, u64::from(longest), u16::from(longest) + 1);
    }
    let after = accepted(&before, &record(4, 3, &with_newcomer), 4);
    assert_eq!((after.request_slot, after.base), (4, 7));
    assert_eq!(after.transition(), [0, 1, 2]);
    assert_eq!(offsets(&after, [0, 1, 2, 3, 4]), [4, 6, 2, 0, 1]);
    assert_eq!([0, 1, 2, 3, 4].map(|id| after.entries[id].shortfall), [64, 32, 0, 224, 384]);
    assert_eq!(
        [4, 5, 6, 7, 8].map(|slot| owner_query(&after, slot)),
        [0, 1, 2, 3, 4].map(|id| (0, id))
    );
}

/// Id 0 takes every second slot and others fill the core but for two slots, 128 apart. Ids 11 and
/// 12 have so much room; below 128 there is only one slot for both.
fn two_in_want(rooms: [u16; 2]) -> (Timetable, Vec<(u8, u8, u8)>) {
    let entry = |at: usize| {
        let shortfall = 255 - rooms[at];
        (11 + at, Entry { period: 256, offset: at as u8, bound: 2, shortfall })
    };
    let timetable = listing([0, 1].map(entry));
    let mut shares = vec![(0, 1, 1)];
    shares.extend((1..8).map(|id| (id, 4, 8)));
    shares.extend([(8, 5, 8), (9, 6, 8), (10, 7, 8), (11, 8, 1), (12, 8, 1)]);
    (timetable, shares)
}

/// The longest transition: id 0, with room 1, is served until id 11 has room 0, in the 64th slot.
#[test]
fn the_longest_transition() {
    let (timetable, shares) = two_in_want([63, 127]);
    refused(&timetable, &record(0, 63, &shares), 11, 63, 64);
    let after = accepted(&timetable, &record(0, 64, &shares), 65);
    assert_eq!((after.request_slot, after.length, after.base), (0, 64, 64));
    assert_eq!(after.transition()[..63], [0; 63]);
    assert_eq!(after.transition()[63], 11);
    assert_eq!(offsets(&after, [0, 1, 2, 3, 4, 5, 6, 7]), [0, 15, 13, 11, 9, 7, 5, 3]);
    assert_eq!(offsets(&after, [8, 9, 10, 11, 12]), [17, 33, 65, 129, 1]);
    let left = [0, 1, 7, 8, 9, 10, 11, 12].map(|id| after.entries[id].shortfall);
    assert_eq!(left, [128, 1024, 1024, 512, 256, 128, 0, 192]);
    // One slot more, and id 12 has slot 128 at once.
    let (timetable, shares) = two_in_want([63, 128]);
    assert_eq!(accepted(&timetable, &record(0, 64, &shares), 1).entries[12].offset, 128);
}

/// Where both have the same room, id 0 is served before them until their room is 0: that slot is
/// missed where it is sought.
#[test]
fn a_slot_missed_at_each_place() {
    for slot in 0..64 {
        let (timetable, shares) = two_in_want([slot; 2]);
        missed_at(&timetable, |longest| record(0, longest, &shares), slot as u8);
    }
}

/// With room 64 the wait is longer than any T: in vain, whether or not slot 64 would be missed.
#[test]
fn the_largest_t_in_vain() {
    for room in [64, 65, 127] {
        let (timetable, shares) = two_in_want([64, room]);
        refused(&timetable, &record(0, 64, &shares), 11, 64, 65);
        refused(&timetable, &record(0, 63, &shares), 11, 63, 64);
    }
}

/// A transition slot takes 256 of a larger shortfall, and the rest stays.
#[test]
fn a_transition_slot_leaves_the_rest() {
    let timetable = listing([
        (0, Entry { period: 4, offset: 1, bound: 3, shortfall: 640 }),
        (1, Entry { period: 4, offset: 0, bound: 3, shortfall: 700 }),
    ]);
    let after = accepted(&timetable, &record(0, 1, &[(0, 2, 3), (1, 2, 3), (2, 1, 2)]), 2);
    assert_eq!(after.transition(), [0]);
    assert_eq!(offsets(&after, [0, 1, 2]), [2, 0, 1]);
    assert_eq!([0, 1, 2].map(|id| after.entries[id].shortfall), [448, 764, 128]);
    assert_eq!([0, 1, 2].map(|id| after.starts[id]), [640, 700, 0]);
}

/// Period 2 takes offset 1, so that a period of 4 with last offset 0 finds its slot free.
#[test]
fn the_latest_free_offset_is_taken() {
    let timetable = listing([(3, Entry { period: 4, offset: 0, bound: 1, shortfall: 192 })]);
    let both = accepted(&timetable, &record(0, 0, &[(0, 1, 1), (3, 2, 1)]), 1);
    assert_eq!(offsets(&both, [0, 3]), [1, 0]);
}

/// A listing of some ids, each with its period and R, and their shortfalls.
fn standing(shares: &[(usize, u16, u8, i64)]) -> (Listing, Shortfalls) {
    let (mut listing, mut shortfalls) = ([None; IDS], [0; IDS]);
    for &(id, period, bound, shortfall) in shares {
        listing[id] = Some(Share { period, bound });
        shortfalls[id] = shortfall;
    }
    (listing, shortfalls)
}

/// Who gets the next transition slot, if it is not missed.
fn urgent(shares: &[(usize, u16, u8, i64)]) -> Option<u8> {
    let (listing, shortfalls) = standing(shares);
    most_urgent(&listing, &shortfalls)
}

/// Rule 3: the least room, ties to the lower id, and the missed slot.
#[test]
fn the_least_room_is_served_first() {
    assert_eq!(urgent(&[]), None);
    assert_eq!(urgent(&[(4, 4, 1, 192)]), Some(4));
    assert_eq!(urgent(&[(4, 4, 1, 191), (9, 4, 1, 192)]), Some(9));
    // Ties go to the lower id, whatever the shortfalls and periods.
    assert_eq!(urgent(&[(4, 4, 1, 64), (9, 4, 1, 120), (20, 2, 2, 255)]), Some(4));
    assert_eq!(urgent(&[(4, 4, 1, 0), (9, 4, 1, 65), (20, 2, 2, 250)]), Some(9));
    // The slot is missed if another has room 0 as well.
    assert_eq!(urgent(&[(4, 4, 1, 192), (9, 1, 1, 0)]), None);
    assert_eq!(urgent(&[(4, 4, 1, 191), (9, 1, 1, 0)]), Some(9));
    assert_eq!(urgent(&[(4, 4, 1, 192), (5, 1, 1, 0)]), None);
    assert_eq!(urgent(&[(4, 256, 8, 2047), (9, 256, 8, 2046), (31, 256, 8, 2047)]), None);
    assert_eq!(urgent(&[(4, 256, 8, 2046), (9, 256, 8, 2046), (31, 256, 8, 2047)]), Some(31));
}

/// The offsets of the placement, in the order in which the ids are given.
fn placed(shares: &[(usize, u16, u8, i64)]) -> Option<Vec<u16>> {
    let (listing, shortfalls) = standing(shares);
    let offsets = placement(&listing, &shortfalls)?;
    Some(shares.iter().map(|&(id, ..)| offsets[id]).collect())
}

/// Rule 4: by period, then last offset, then id, each with the largest free offset.
#[test]
fn the_placement_keeps_its_order() {
    assert_eq!(placed(&[]), Some(vec![]));
    // Period 2 takes 1 and 3; of two periods of 4 the one with the smaller last offset comes first.
    assert_eq!(placed(&[(0, 4, 1, 0), (1, 4, 1, 64), (2, 2, 1, 0)]), Some(vec![0, 2, 1]));
    assert_eq!(placed(&[(0, 4, 1, 64), (1, 4, 1, 0), (2, 2, 1, 0)]), Some(vec![2, 0, 1]));
    // With equal last offsets the lower id comes first.
    assert_eq!(placed(&[(0, 4, 1, 0), (1, 4, 1, 0), (2, 2, 1, 0)]), Some(vec![2, 0, 1]));
    assert_eq!(placed(&[(0, 4, 2, 0), (1, 4, 1, 0), (2, 4, 8, 0)]), Some(vec![3, 2, 1]));
    // The shorter period comes first, though its last offset is 2 and that of period 8 is 1.
    assert_eq!(placed(&[(3, 4, 1, 64), (4, 4, 1, 64), (5, 8, 1, 192)]), Some(vec![2, 1, 0]));
    assert_eq!(placed(&[(3, 8, 1, 192), (4, 4, 1, 64), (5, 4, 1, 64)]), Some(vec![0, 2, 1]));
    // An offset is taken up to the last offset, and none beyond it.
    assert_eq!(placed(&[(5, 8, 1, 192), (6, 2, 1, 0)]), Some(vec![0, 1]));
    assert_eq!(placed(&[(5, 8, 1, 191), (6, 2, 1, 0)]), Some(vec![2, 1]));
    assert_eq!(placed(&[(5, 8, 1, 224), (6, 2, 1, 128)]), None);
    // Case B's length 0 is passed over.
    assert_eq!(placed(&[(0, 4, 1, 128), (1, 4, 1, 192), (2, 2, 2, 0)]), None);
}

/// A timetable is sound, or it is refused with 1 everywhere and handed back as it is.
pub(crate) fn soundness(timetable: &Timetable, sound: bool) {
    assert_eq!(timetable.sound(), sound, "{timetable:?}");
    if !sound {
        refused(timetable, &record(100, 0, &[]), 1, 0, 0);
        refused(timetable, &[], 1, 0, 0);
        assert_eq!(owner_query(timetable, u64::MAX), (1, 0));
        assert_eq!(standing_query(timetable, 255, u64::MAX), (1, 0, 0));
    }
}

/// The timetable of slot 6 that lists some ids from 5 on: period, offset, R and shortfall of each.
pub(crate) fn listing_from_5<const N: usize>(entries: [(u16, u8, u8, u16); N]) -> Timetable {
    let mut id = 4;
    let entries = entries.map(|(period, offset, bound, shortfall)| {
        id += 1;
        (id, Entry { period, offset, bound, shortfall })
    });
    Timetable { request_slot: 6, base: 6, ..listing(entries) }
}

/// An entry alone on the core, its values at their limits and one step further: no other clause
/// is broken, but that with R 0 no shortfall is below 256 R.
#[test]
fn soundness_of_an_entry() {
    let alone = |period, offset, bound, shortfall, sound| {
        soundness(&listing_from_5([(period, offset, bound, shortfall)]), sound)
    };
    for k in 0..16 {
        alone(1 << k, 0, 8, 0, k <= 8);
    }
    for period in [3, 5, 6, 7, 96, 255, 257, 384, 511, 513, u16::MAX] {
        alone(period, 0, 8, 0, false);
    }
    for (bound, sound) in [(0, false), (1, true), (8, true), (9, false), (255, false)] {
        alone(4, 0, bound, 0, sound);
    }
    for (period, last) in [(1, 0), (4, 3), (128, 127)] {
        alone(period, last, 8, 0, true);
        alone(period, last + 1, 8, 0, false);
    }
    alone(256, 255, 8, 0, true);
    // Shortfall + offset x weight is below 256 R.
    for (period, offset, bound, most) in
        [(4, 0, 1, 255), (4, 3, 1, 63), (256, 255, 1, 0), (1, 0, 8, 2047), (32, 31, 8, 1799)]
    {
        alone(period, offset, bound, most, true);
        alone(period, offset, bound, most + 1, false);
    }
    alone(4, 0, 8, u16::MAX, false);
    // An unlisted entry has no offset and no bound, and a shortfall below 256 times the largest R.
    for (debt, sound) in [(0, true), (1, true), (2047, true), (2048, false), (u16::MAX, false)] {
        alone(0, 0, 0, debt, sound);
        alone(0, 1, 0, debt, false);
        alone(0, 0, 1, debt, false);
        alone(0, 0, 8, debt, false);
    }
}

/// Two partitions that share a slot with equal and with different periods, and neighbours.
#[test]
fn soundness_of_two_entries() {
    let two = |one: (u16, u8), other: (u16, u8), sound| {
        soundness(&listing_from_5([(one.0, one.1, 8, 0), (other.0, other.1, 8, 0)]), sound);
        soundness(&listing_from_5([(other.0, other.1, 8, 0), (one.0, one.1, 8, 0)]), sound);
    };
    two((4, 1), (4, 1), false);
    two((4, 1), (4, 2), true);
    two((2, 1), (4, 3), false);
    two((2, 1), (4, 2), true);
    two((2, 0), (256, 254), false);
    two((2, 0), (256, 255), true);
    two((256, 7), (256, 7), false);
    two((256, 254), (256, 255), true);
    two((1, 0), (256, 255), false);
}

/// The timetable that lists id 5, with these slots.
fn slots(request_slot: u64, length: u8, base: u64) -> Timetable {
    Timetable { request_slot, length, base, ..listing_from_5([(4, 0, 1, 0)]) }
}

/// Request slot, length and base at their limits and one step further.
#[test]
fn soundness_of_slots() {
    for (slot, sound) in [(0, true), ((1 << 48) - 1, true), (1 << 48, false), (u64::MAX, false)] {
        soundness(&slots(slot, 0, slot), sound);
    }
    for (base, sound) in [(5, false), (6, true), (7, false), (262, false)] {
        soundness(&slots(6, 0, base), sound);
    }
    for (length, sound) in [(64, true), (65, false), (255, false)] {
        let owners = [5; 64];
        let base = u64::from(length) + (1 << 48) - 1;
        soundness(&Timetable { owners, ..slots((1 << 48) - 1, length, base) }, sound);
        soundness(&Timetable { owners, ..slots((1 << 48) - 1, length, (1 << 48) - 1) }, false);
    }
}

/// Owners of the transition are listed ids, and the others are zero.
#[test]
fn soundness_of_owners() {
    let mut timetable = listing_from_5([(4, 0, 1, 0), (4, 1, 1, 0)]);
    (timetable.length, timetable.base) = (3, 9);
    timetable.owners[..3].copy_from_slice(&[6, 5, 6]);
    timetable.entries[5].shortfall = 64;
    soundness(&timetable, true);
    for place in [0, 1, 2] {
        for owner in [0, 4, 7, 32, 5 + 32, IDLE] {
            let mut edited = timetable;
            edited.owners[place] = owner;
            soundness(&edited, false);
        }
    }
    for place in [3, 4, 63] {
        let mut edited = timetable;
        edited.owners[place] = 5;
        soundness(&edited, false);
    }
}

/// A sound timetable may end above the highest slot: every request is then too early.
#[test]
fn a_base_above_the_highest_slot() {
    let (request_slot, base) = (LAST_SLOT, LAST_SLOT + 64);
    let timetable = Timetable { request_slot, base, ..cases::all_listed() };
    assert!(timetable.sound());
    refused(&timetable, &record(LAST_SLOT, 0, &[]), 6, 0, 0);
    assert_eq!(owner_query(&timetable, LAST_SLOT), (0, 0));
    assert_eq!(standing_query(&timetable, 31, LAST_SLOT), (0, 0, 0));
    assert_eq!(standing_query(&timetable, 31, LAST_SLOT + 1), (4, 0, 0));
}

/// The owner query in the transition, in the cycle, when idle, and refused.
#[test]
fn owner_query_answers_and_refuses() {
    let b = after_b();
    let owners = [1, 0, 2, 1, 2, 0, 2, 1, 2, 0];
    for (slot, owner) in (6..).zip(owners) {
        assert_eq!(owner_query(&b, slot), (0, owner));
    }
    assert_eq!(owner_query(&b, 5), (6, 0));
    assert_eq!(owner_query(&b, LAST_SLOT + 1), (4, 0));
    assert_eq!(owner_query(&b, u64::MAX), (4, 0));
    assert_eq!(owner_query(&Timetable::empty(), 0), (0, IDLE));
    assert_eq!(owner_query(&Timetable::empty(), LAST_SLOT), (0, IDLE));
    let a = after_a();
    assert_eq!([0, 1, 2, 3, 4].map(|slot| owner_query(&a, slot).1), [IDLE, IDLE, 1, 0, IDLE]);
    assert_eq!(owner_query(&a, LAST_SLOT), (0, 0));
    let longest = listing_from_5([(256, 0, 1, 0), (256, 128, 1, 0), (256, 255, 1, 0)]);
    let owners = [5, 6, 133, 134, 135, 260, 261, 262, 263].map(|slot| owner_query(&longest, slot));
    let wanted =
        [(6, 0), (0, 5), (0, IDLE), (0, 6), (0, IDLE), (0, IDLE), (0, 7), (0, 5), (0, IDLE)];
    assert_eq!(owners, wanted);
}

/// From the base on, each step of one period from the offset meets the same owner.
#[test]
fn owner_query_agrees_with_stepping() {
    let b = after_b();
    for (id, entry) in (0..).zip(&b.entries).filter(|(_, entry)| entry.listed()) {
        let mut slot = b.base + u64::from(entry.offset);
        for _ in 0..700 {
            assert_eq!(owner_query(&b, slot), (0, id));
            slot += u64::from(entry.period);
        }
    }
}

/// The standing query's shortfalls and slices, and its refusals in their order.
#[test]
fn standing_query_answers_and_refuses() {
    let b = after_b();
    let standings = |slot| [0, 1, 2].map(|id| standing_query(&b, id, slot));
    assert_eq!(standings(6), [(0, 128, 0), (0, 192, 0), (0, 0, 0)]);
    assert_eq!(standings(7), [(0, 192, 0), (0, 0, 1), (0, 128, 0)]);
    assert_eq!(standings(8), [(0, 0, 1), (0, 64, 1), (0, 256, 0)]);
    assert_eq!(standing_query(&b, 2, 9), (0, 128, 1));
    assert_eq!(standing_query(&b, 1, 7 + 4 * 1000), (0, 64, 1001));
    assert_eq!(standing_query(&b, 32, 7), (4, 0, 0));
    assert_eq!(standing_query(&b, 32, 0), (4, 0, 0));
    assert_eq!(standing_query(&b, 3, LAST_SLOT + 1), (4, 0, 0));
    assert_eq!(standing_query(&b, 3, 5), (6, 0, 0));
    assert_eq!(standing_query(&b, 0, 5), (6, 0, 0));
    assert_eq!(standing_query(&b, 3, 6), (10, 0, 0));
    assert_eq!(standing_query(&b, 31, LAST_SLOT), (10, 0, 0));
}

/// Queries and requests near 2^48 are answered without walking there.
#[test]
fn far_off_slots() {
    let b = after_b();
    assert_eq!(standing_query(&b, 0, LAST_SLOT), (0, 192, (1 << 46) - 2));
    assert_eq!(standing_query(&b, 1, LAST_SLOT), (0, 64, (1 << 46) - 1));
    assert_eq!(standing_query(&b, 2, LAST_SLOT), (0, 128, (1 << 47) - 4));
    let far = accepted(&b, &record(LAST_SLOT - 1, 0, &[(0, 2, 1), (1, 2, 1), (2, 1, 2)]), 1);
    assert_eq!(far.base, LAST_SLOT - 1);
}

/// Skipping repeated cycles gives what walking each slot gives.
#[test]
fn the_skip_agrees_with_plain_walking() {
    let mut timetable = Timetable::empty();
    for request in Generator::new(5, 600) {
        let outcome = change(&timetable, &request, &mut [0; AREA]);
        timetable = outcome.timetable;
        let mut plain = Walk::from_request_slot(&timetable);
        let start = plain.clone();
        let mut distance = 0;
        for further in [0, 1, 255, 256, 257, 300, 511, 512, 900, 1024, 3000] {
            plain.pass_each(further);
            distance += further;
            let mut skipping = start.clone();
            skipping.pass(distance);
            assert_eq!(skipping.shortfalls, plain.shortfalls);
            assert_eq!(skipping.slices, plain.slices);
        }
    }
}

/// The lines that the program prints for some input.
fn lines_of(input: &[u8]) -> String {
    let mut output = Vec::new();
    let done = print_lines(&mut &input[..], &mut output);
    assert!(done.is_ok());
    String::from_utf8_lossy(&output).into_owned()
}

/// The lines that docs/RULES.md 9 gives for cases A and B; no input gives no line.
#[test]
fn lines_of_a_and_b() {
    let input = [frame(&request_a()), frame(&request_b(1))].concat();
    assert_eq!(lines_of(&input), "1 0 0 1 0\n2 0 0 2 1\n");
    assert_eq!(lines_of(&[]), "");
}

/// The lines of the cases of docs/RULES.md 11, in the stream's order.
#[test]
fn lines_of_the_cases() {
    let input: Vec<u8> = cases::requests().iter().flat_map(|request| frame(request)).collect();
    let lines = "1 3 0 0 0\n2 3 11 0 0\n3 4 0 0 0\n4 4 11 0 0\n5 0 0 1 0\n6 0 0 1 0\n7 7 9 0 0\n\
                 8 0 0 1 0\n9 0 0 1 0\n10 0 0 1 0\n11 11 0 1 0\n12 0 0 2 1\n13 8 2 0 0\n\
                 14 11 0 1 0\n15 11 1 2 0\n16 11 2 3 0\n17 9 2 3 0\n18 9 2 3 0\n19 6 0 0 0\n\
                 20 0 0 1 0\n21 0 0 1 0\n22 0 0 1 0\n23 8 2 0 0\n24 8 2 0 0\n25 8 2 0 0\n\
                 26 0 0 1 0\n27 0 0 1 0\n28 0 0 1 0\n29 0 0 1 0\n30 0 0 1 0\n31 0 0 1 0\n\
                 32 0 0 1 0\n";
    assert_eq!(lines_of(&input), lines);
}

/// The image of the empty timetable, packed: 255 zeros and 82.
const IMAGE_EMPTY: &str = "00ff0052";
/// The image after case A: periods 4, offsets 3 and 2, R 1.
const IMAGE_A: &str = "0052040301000304020100f6";
/// The image after case B: slot 6, length 1, owner 1, base 7; offsets 0, 2, 1; shortfalls 192, 0, 128;
/// starts 128, 192, 0.
const IMAGE_B: &str =
    "00070601010046070001040001010001c00001040201000302010200018000af800001c0003c";
/// Case B's answer.
const ANSWER_B: &str = "1000010111000101120002000012000201021200020201";

/// The probe's lines for the cases that are requests, from empty, after A and after B.
fn change_lines() -> Vec<String> {
    let mut lines: Vec<String> = ["3 0 0", "3 11 0", "4 0 0", "4 11 0"]
        .map(|refusal| format!("change {refusal} 0 {IMAGE_EMPTY} +231"))
        .to_vec();
    lines.extend([(); 2].map(|_| format!("change 0 0 1 7 {IMAGE_EMPTY} 10000100110000+224")));
    lines.push(format!("change 7 9 0 0 {IMAGE_EMPTY} +231"));
    let last_slot = "0002ffffffffffff0043ffffffffffff00ff0001";
    lines.push(format!("change 0 0 1 7 {last_slot} 10000100110000+224"));
    lines.push("change 0 0 1 12 006a0100010100e4 100001001100001200020400+219".to_string());
    let answer_a = "1000010011000012000200031200020102";
    lines.push(format!("change 0 0 1 17 {IMAGE_A} {answer_a}+214"));
    lines.push(format!("change 11 0 1 0 {IMAGE_A} +231"));
    lines.extend([(); 2].map(|_| format!("change 0 0 2 23 {IMAGE_B} {ANSWER_B}+208")));
    let refusals = ["8 2 0", "11 0 1", "11 1 2", "11 2 3", "9 2 3", "9 2 3", "6 0 0"];
    lines.extend(refusals.map(|refusal| format!("change {refusal} 0 {IMAGE_B} +231")));
    lines
}

/// The image after B with its schedule at slot 8: R 2 for id 2, and shortfalls 0, 64 and 256, which are
/// the starts.
const IMAGE_KEPT: &str = "000708004808000104000101000304020100014000010201020100b24001003b";

/// The probe's lines for the short fields after B: slot 8 with R 2; slot 7 without id 2, shortfalls 192,
/// 0 and 128; and slot 8 with it again, R 1 and shortfalls 0, 64 and 128. The starts are these.
fn short_lines() -> Vec<String> {
    let left = "0007070048070001040001010001c0000104030100078000afc0000380003a";
    let returned = "0007080048080001040301000304010100014000010200010100018000b140000180003a";
    let answer = ANSWER_B.replace("1000010111000101", "10000100110000");
    let without = "1000010011000012000200001200020103";
    let again = "10000100110000120002000312000201011200020200";
    vec![
        format!("change 0 0 1 22 {IMAGE_KEPT} {answer}+209"),
        format!("change 0 0 1 17 {left} {without}+214"),
        format!("change 0 0 1 22 {returned} {again}+209"),
    ]
}

/// The probe's lines for the debts: slot 8 without id 2, which is owed 256 (01 00 at the base and at the
/// request slot), what is then asked, its standing, and the empty listing at 2,047 (07 ff) and beyond.
fn debt_lines() -> Vec<String> {
    let left = "0007080048080001040301000304020100014000040100b24001003b";
    let (answer, without) = (
        ANSWER_B.replace("1000010111000101", "10000100110000"),
        "1000010011000012000200031200020102",
    );
    vec![
        format!("change 0 0 1 17 {left} {without}+214"),
        format!("change 8 2 0 0 {left} +231"),
        format!("change 8 2 0 0 {left} +231"),
        format!("change 0 0 1 22 {IMAGE_KEPT} {answer}+209"),
        format!("change 8 2 0 0 {left} +231"),
        "standing 10 0 0 0".to_string(),
        "change 0 0 1 7 006107ff00b207ff003a 10000100110000+224".to_string(),
        "change 1 0 0 0 00610800b308003b +231".to_string(),
        "change 1 0 0 0 006107fe00b207ff003a +231".to_string(),
        "change 1 0 0 0 006107ff00b207fe003a +231".to_string(),
    ]
}

/// The probe's lines for the cases' areas: 230 is refused 2, 231 and more are enough.
fn area_lines() -> Vec<String> {
    let answer_a = "1000010011000012000200031200020102";
    vec![
        format!("change 2 0 0 0 {IMAGE_EMPTY} +0"),
        format!("change 2 0 0 0 {IMAGE_EMPTY} +230"),
        format!("change 0 0 1 17 {IMAGE_A} {answer_a}+215"),
        format!("change 0 0 1 17 {IMAGE_A} {answer_a}+65518"),
        format!("change 2 0 0 0 {IMAGE_EMPTY} +230"),
        "change 1 0 0 0 00500100ff0001 +230".to_string(),
        "change 1 0 0 0 00500100ff0001 +231".to_string(),
    ]
}

/// The probe's lines for the queries: owners after A and B, then the standings before and during B's
/// change, and the limits.
fn query_lines() -> Vec<String> {
    let owners = ["0 0 255", "0 0 255", "0 0 1", "0 0 0"];
    let after_b = ["6 0 0", "0 0 1", "0 0 0", "0 0 2", "0 0 1", "0 0 2", "0 0 0", "4 0 0"];
    let standings = [
        ["0 0 128 1", "0 0 192 1", "10 0 0 0"],
        ["6 0 0 0", "6 0 0 0", "6 0 0 0"],
        ["0 0 128 0", "0 0 192 0", "0 0 0 0"],
        ["0 0 192 0", "0 0 0 1", "0 0 128 0"],
        ["0 0 0 1", "0 0 64 1", "0 0 256 0"],
    ];
    let limits = ["0 0 128 140737488355324", "4 0 0 0", "4 0 0 0", "4 0 0 0"];
    let owners = owners.iter().chain(&after_b).map(|figures| format!("owner {figures}"));
    let standings = standings.iter().flatten().chain(&limits);
    let standings = standings.map(|figures| format!("standing {figures}"));
    owners.chain(standings).collect()
}

/// The probe's lines for the cases of docs/RULES.md 11.
#[test]
fn probe_lines_of_the_cases() {
    let lines: Vec<String> = cases::probes().iter().map(|probe| probe_line(probe)).collect();
    let (empties, rest) = lines.split_at(3);
    assert_eq!(empties, [&format!("empty 0 {IMAGE_EMPTY}"), "empty 1 a5a5", "empty 1 -"]);
    let (changes, rest) = rest.split_at(20);
    assert_eq!(changes, change_lines());
    let (others, rest) = rest.split_at(3);
    let after_f = IMAGE_B.replace("00070601010046", "0007070048");
    let after_f = after_f.replace("00af800001c0003c", "00afc0000380003a");
    let answer_f = ANSWER_B.replace("1000010111000101", "10000100110000");
    assert_eq!(others[0], format!("change 0 0 1 22 {after_f} {answer_f}+209"));
    let late_slice = "0052020101000f040001010001c000afc00038";
    let answer = "1000010011000012000200011200020300";
    assert_eq!(others[1], format!("change 0 0 1 17 {late_slice} {answer}+214"));
    assert!(others[2].starts_with("change 0 0 1 167 0007400048400001200001010001f80001200101"));
    assert!(others[2].ends_with("1200021e1e1200021f1f+64"));
    let (short, rest) = rest.split_at(3);
    assert_eq!(short, short_lines());
    let (debts, rest) = rest.split_at(10);
    assert_eq!(debts, debt_lines());
    let (areas, queries) = rest.split_at(7);
    assert_eq!(areas, area_lines());
    assert_eq!(queries, query_lines());
}

/// A wrong tag, a longer length or a frame cut off prints `bad frame` and ends it.
#[test]
fn bad_frames() {
    let a = frame(&request_a());
    let then = |rest: &[u8]| lines_of(&[&a[..], rest].concat());
    for rest in [&[0x41, 0, 0][..], &[0][..], &[0x40][..], &[0x40, 0][..], &[0x40, 0, 1][..]] {
        assert_eq!(then(rest), "1 0 0 1 0\nbad frame\n");
    }
    for length in [4097usize, 0xffff] {
        let mut long = vec![0x40, (length >> 8) as u8, length as u8];
        long.resize(3 + length, 0);
        assert_eq!(then(&long), "1 0 0 1 0\nbad frame\n");
    }
    for end in 1..a.len() {
        assert_eq!(lines_of(&a[..end]), "bad frame\n");
    }
    assert_eq!(then(&[&[0x3f, 0, 0], &a[..]].concat()), "1 0 0 1 0\nbad frame\n");
    assert_eq!(then(&[0x40, 0, 0]), "1 0 0 1 0\n2 3 0 0 0\n");
}

/// A frame of 4,096 bytes is read.
#[test]
fn the_longest_frame() {
    let mut longest = request_a();
    longest.resize(LONGEST_FRAME, 0);
    let input = [frame(&longest), frame(&request_a())].concat();
    assert_eq!(input[..3], [0x40, 0x10, 0]);
    assert_eq!(lines_of(&input), "1 3 27 0 0\n2 0 0 1 0\n");
    assert_eq!(lines_of(&input[..LONGEST_FRAME + 2]), "bad frame\n");
}

/// The random numbers are those of splitmix64, as they are published for two seeds.
#[test]
fn the_source_is_splitmix64() {
    assert_eq!(crate::random::Random::new(0).bits(), 0xe220_a839_7b1d_cdaf);
    let mut random = crate::random::Random::new(1_234_567);
    let first = [6_457_827_717_110_365_317, 3_203_168_211_198_807_973, 9_817_491_932_198_370_423];
    assert_eq!([(); 3].map(|()| random.bits()), first);
}

/// A seed and a count give one stream, whose requests fit into frames.
#[test]
fn a_seed_always_gives_the_same_stream() {
    let stream = |seed| Generator::new(seed, 200).collect::<Vec<_>>();
    assert_eq!(stream(3), stream(3));
    assert_ne!(stream(3), stream(4));
    assert_eq!(stream(3).len(), 200);
    assert_eq!(Generator::new(3, 0).count(), 0);
    assert!(stream(3).iter().all(|request| request.len() <= LONGEST_FRAME));
}

/// A start below 256 R, or the shortfall for an id that is not listed, and the largest excess of
/// entitlement over supply in the windows that end at the base; the one of the whole transition counts
/// from the start.
fn start_in_numbers(timetable: &Timetable, id: usize) -> bool {
    let Entry { period, bound, shortfall, .. } = timetable.entries[id];
    let (weight, start) = (256i64.checked_div(period.into()).unwrap_or(0), timetable.starts[id]);
    let transition = timetable.transition();
    let excess = |from: usize| {
        let own = transition[from..].iter().filter(|&&owner| usize::from(owner) == id).count();
        weight * (transition.len() - from) as i64 - 256 * own as i64
    };
    let within = (1..=transition.len()).map(excess);
    let reached = within.chain([i64::from(start) + excess(0)]).max();
    let holds = if period > 0 { start < 256 * u16::from(bound) } else { start == shortfall };
    holds && reached == Some(shortfall.into())
}

/// Soundness once more, clause by clause in numbers instead of slots.
pub(crate) fn sound_in_numbers(timetable: &Timetable) -> bool {
    let length = usize::from(timetable.length);
    let listed = |id: u8| id < 32 && timetable.entries[usize::from(id)].period > 0;
    let owner = |(slot, &id): (usize, &u8)| if slot < length { listed(id) } else { id == 0 };
    let entry = |entry: &Entry| match entry.period {
        0 => (entry.offset, entry.bound) == (0, 0) && entry.shortfall < 2048,
        period if period > 256 || 256 % period != 0 => false,
        period => {
            let reached =
                u32::from(entry.shortfall) + u32::from(entry.offset) * u32::from(256 / period);
            u16::from(entry.offset) < period
                && entry.bound <= 8
                && reached < 256 * u32::from(entry.bound)
        }
    };
    let meet = |one: &Entry, other: &Entry| {
        one.offset.abs_diff(other.offset) as u16 % one.period.min(other.period) == 0
    };
    let shares: Vec<&Entry> = timetable.entries.iter().filter(|entry| entry.period > 0).collect();
    let pairs = |(at, one): (usize, &&Entry)| shares[..at].iter().all(|other| !meet(one, other));
    timetable.request_slot < 1 << 48
        && length <= 64
        && timetable.base == timetable.request_slot + length as u64
        && timetable.owners.iter().enumerate().all(owner)
        && timetable.entries.iter().all(entry)
        && shares.iter().enumerate().all(pairs)
        && (0..IDS).all(|id| start_in_numbers(timetable, id))
}

/// Soundness by slots is soundness in numbers, on timetables reached and then edited.
#[test]
fn soundness_by_slots_and_in_numbers() {
    let mut random = crate::random::Random::new(12);
    let (mut timetable, mut sound) = (Timetable::empty(), 0);
    for request in Generator::new(9, 3000) {
        timetable = change(&timetable, &request, &mut [0; AREA]).timetable;
        for hostilities in [0, 1, 1, 1, 2] {
            let mut edited = timetable;
            for _ in 0..hostilities {
                hostile(&mut random, &mut edited);
            }
            assert_eq!(edited.sound(), sound_in_numbers(&edited));
            sound += u32::from(edited.sound());
        }
    }
    assert!((3500..14000).contains(&sound), "{sound}");
}

/// Random bytes and random timetables are answered without a stop; a refusal changes nothing.
#[test]
fn any_bytes_and_any_timetable_are_answered() {
    let mut random = crate::random::Random::new(11);
    for round in 0..20_000 {
        let mut timetable = if round % 2 == 0 { after_b() } else { all_listed() };
        for _ in 0..random.below(3) {
            hostile(&mut random, &mut timetable);
        }
        let mut record = request_b(random.byte());
        for _ in 0..random.below(3) {
            let at = random.below(record.len() as u64) as usize;
            record[at] = random.byte();
        }
        let sound = sound_in_numbers(&timetable);
        let (outcome, _) = answered(&timetable, &record);
        assert_eq!(outcome.number == 1, !sound);
        assert!(outcome.number == 0 || outcome.timetable == timetable);
        assert!(outcome.number > 0 || sound_in_numbers(&outcome.timetable));
        let slot = random.bits() >> random.below(64);
        assert_eq!(owner_query(&timetable, slot).0 == 1, !sound);
        assert_eq!(standing_query(&timetable, random.byte(), slot).0 == 1, !sound);
    }
}

/// One field of a timetable gets any value.
fn hostile(random: &mut crate::random::Random, timetable: &mut Timetable) {
    let value = random.bits() >> random.below(64);
    let id = random.below(32) as usize;
    let entry = &mut timetable.entries[id];
    match random.below(15) {
        0 => timetable.request_slot = value,
        1 => timetable.length = value as u8,
        2 => timetable.base = value,
        3 => timetable.owners[random.below(64) as usize] = value as u8,
        4 => entry.period = value as u16,
        5 => entry.offset = value as u8,
        6 => entry.bound = value as u8,
        7 => entry.shortfall = value as u16,
        8 => entry.shortfall = entry.shortfall.wrapping_add(1),
        9 => entry.bound = entry.bound.wrapping_sub(1),
        10 => entry.offset ^= 1 << (value % 8),
        11 => timetable.starts[id] = value as u16,
        12 => timetable.starts[id] = timetable.starts[id].wrapping_add(1),
        13 => {
            timetable.starts[id] = timetable.starts[id].wrapping_add(1);
            entry.shortfall = entry.shortfall.wrapping_add(1);
        }
        _ => {
            *entry = Entry { period: 1 << (value % 9), offset: 0, bound: 8, shortfall: 0 };
            timetable.starts[id] = 0;
        }
    }
}

/// A stream brings each number that frames can bring, refusals for want of a schedule of every
/// class, what a desk asks after them, and transitions of every class of length.
#[test]
fn the_stream_reaches_every_answer() {
    let counts = RequestCounts::of(Generator::new(1, 4000));
    let numbers = counts.numbers;
    assert_eq!(numbers[1] + numbers[2] + numbers[10], 0);
    assert!(numbers[3..10].iter().all(|&count| count >= 80), "{numbers:?}");
    assert!(numbers[11] >= 160, "{numbers:?}");
    assert!(counts.wants.least() >= 20, "{:?}", counts.wants);
    assert!(counts.again.iter().all(|&count| count >= 10), "{:?}", counts.again);
    assert!(counts.lengths[0] > 400, "{:?}", counts.lengths);
    assert!(counts.lengths.iter().all(|&count| count >= 80), "{:?}", counts.lengths);
}

/// Every timetable along a stream is sound.
#[test]
fn timetables_along_a_stream_are_sound() {
    let mut timetable = Timetable::empty();
    for request in Generator::new(1, 4000) {
        timetable = change(&timetable, &request, &mut [0; AREA]).timetable;
        assert!(timetable.sound() && sound_in_numbers(&timetable));
    }
}
