//! The figures of docs/DICTIONARY.md that are the desk's: how 9 and 11 are read, whether a larger T may
//! help, and the earlier meaning of 9.

use crate::cases::{record, request_a, request_b, request_d};
use crate::change::{listed, Outcome, Request};
use crate::figures::{aligned, hexadecimal, in_turn, list, list_and, list_with, Figures};
use crate::frames::frame;
use crate::numbers;
use crate::queries::standing_query;
use crate::records::{share_field, with_longest, HEAD, TAG_LONGEST, TAG_SHARE, TAG_SLOT};
use crate::run::Run;
use crate::timetable::{
    Listing, Share, CYCLE, IDLE, LARGEST_BOUND, LARGEST_EXPONENT, LONGEST_TRANSITION,
};
use crate::worked::{
    answer_c, answer_e, around_e, asked, asked_b, asked_c, asked_e, behind, bound, broken,
    by_longest, by_t_e, bytes_b, bytes_c, ids, least_room, limit_of, lines_of, name, nine_before,
    nine_today, nine_without_longest, only_owners, outcome, room_at, run_a, run_b, searched_more,
    share, waiting_e, Waiting, PUMP_LOOP, SLOT_MS, VALVE,
};

/// The figures of each part.
pub fn add_to(figures: &mut Figures) {
    add_search_refused(figures);
    add_raising(figures);
    add_cost(figures);
    add_bytes_asked(figures);
    add_raising_c(figures);
    add_raising_e(figures);
    add_slots_e(figures);
    add_needed_e(figures);
    add_owners_e(figures);
    add_in_place_of_e(figures);
    add_later_slot(figures);
    add_earlier(figures);
    add_undecided(figures);
}

/// "What each number says": the refusals for want of a schedule, and an id that is not listed.
fn add_search_refused(figures: &mut Figures) {
    use numbers::*;
    let section = "What each number says";
    let (most, run) = (LONGEST_TRANSITION as u8, run_b());
    let (asked, answer) = (asked_e(), answer_e(most));
    let counted = format!("counted from {} at the request slot", waiting_e()[0].slot - asked.slot);
    figures.phrase(section, format!("| {SLOT_MISSED} | the place is a transition slot, {counted}"));
    let tries = format!("(tries is place + {})", searched_more(&answer));
    figures.phrase(section, format!("lengths 0 to place were searched in vain {tries}"));
    let is = format!("that is slot {}", asked.slot + answer.place);
    let missed = format!("E, at slot {} with T {most}: {}, {is}", asked.slot, in_vain(&answer));
    figures.cell(section, SLOT_MISSED, missed);
    figures.phrase(section, format!("| {NOT_LISTED} | the timetable that was accepted last"));
    let (other, base) = (VALVE + 1, run.present().base);
    let number = standing_query(&run.present(), other, base).0;
    figures.cell(section, NOT_LISTED, format!("after B, id {other}, slot {base}: {number}"));
    let tries = format!("(tries is T + {})", searched_more(&answer_c()));
    let vain = format!("lengths 0 to T were searched in vain {tries}: **raise T**");
    figures.phrase(section, format!("| {LENGTHS_EXHAUSTED} | the place is T, and {vain}"));
    figures.phrase(section, format!("to {most} at most. What is accepted"));
    figures.phrase(section, format!("and may find it missed ({})", answer_e(around_e().1).number));
    figures.phrase(section, format!("With T {most} already, do as with {SLOT_MISSED} |"));
    let (last, next) = around_e();
    let of_c = format!("C with T {}: {}", asked_c().longest, in_vain(&answer_c()));
    let of_e = [last, next].map(|t| format!("E with T {t}: {}", in_vain(&answer_e(t))));
    figures.cell(section, LENGTHS_EXHAUSTED, format!("{of_c}; {}", of_e.join("; ")));
}

/// The number, the place and the tries of a refusal for want of a schedule.
fn in_vain(answer: &Outcome) -> String {
    format!("{} at {}, tries {}", answer.number, answer.place, answer.tries)
}

/// The section on raising T.
const RAISING: &str = "Whether a larger T may help";

/// A block of answers: what is asked, then number, place, tries and length.
fn answers(asked: &str, rows: &[(String, Outcome)]) -> String {
    let width = rows.iter().map(|(label, _)| label.len()).max().unwrap_or(0).max(asked.len());
    let head = format!("{asked:width$}  number  place  tries  length");
    let row = |(label, answer): &(String, Outcome)| {
        let Outcome { number, place, tries, timetable, .. } = answer;
        let length = if *number == numbers::ACCEPTED { timetable.length } else { 0 };
        format!("{label:width$}  {number:>6}  {place:>5}  {tries:>5}  {length:>6}")
    };
    let lines: Vec<String> = [head].into_iter().chain(rows.iter().map(row)).collect();
    lines.join("\n")
}

/// A block of the answers to a request for every T.
fn answers_by_t(rows: &[(u8, u8, Outcome)]) -> String {
    let row = |&(first, last, answer): &(u8, u8, Outcome)| match last - first {
        0 => (first.to_string(), answer),
        _ => (format!("{first} to {last}"), answer),
    };
    answers("T", &rows.iter().map(row).collect::<Vec<_>>())
}

/// "Whether a larger T may help": the table of what the desk does.
fn add_raising(figures: &mut Figures) {
    use numbers::{ACCEPTED, ID_NOT_RISING, NOT_SOUND, SHORTFALL_TOO_LARGE, WRONG_FIELD};
    use numbers::{LENGTHS_EXHAUSTED as EXHAUSTED, SLOT_MISSED as MISSED};
    let most = LONGEST_TRANSITION as u8;
    let may = format!("After an {EXHAUSTED} a larger T may help, after a {MISSED} it can't");
    figures.phrase(RAISING, may);
    figures.phrase(RAISING, format!("| {EXHAUSTED}, T below {most} |"));
    let missed = format!("gets {MISSED}, at a place not below the old T");
    figures.phrase(RAISING, format!("{missed}, or {EXHAUSTED} again"));
    let above = format!("can't be asked: a T above {most} is refused {}", refused_above());
    figures.phrase(RAISING, format!("| {EXHAUSTED}, T {most} | {above} | as with {MISSED}."));
    figures.phrase(RAISING, format!("| {MISSED} | gets the same {MISSED}, with the same place"));
    figures.phrase(RAISING, format!("| {NOT_SOUND} to {SHORTFALL_TOO_LARGE} | gets the same"));
    figures.phrase(RAISING, format!("{WRONG_FIELD} to {ID_NOT_RISING} aside, where the request"));
    figures.phrase(RAISING, format!("| {ACCEPTED} | would have got the same answer"));
    let larger = asked_b().longest + 1;
    let again = outcome(&run_b(), &with_longest(&bytes_b(), larger)).number;
    figures.phrase(RAISING, format!("(B sent again with T {larger}: {again})"));
}

/// The number that refuses a T above the largest.
fn refused_above() -> u8 {
    outcome(&Run::empty(), &record(0, LONGEST_TRANSITION as u8 + 1, &[])).number
}

/// "Whether a larger T may help": what is refused before the base, and how long that may be.
fn add_cost(figures: &mut Figures) {
    let run = run_b();
    let before = run.present().base - 1;
    let refused = outcome(&run, &request_b(before, LONGEST_TRANSITION as u8)).number;
    figures.phrase(RAISING, format!("a slot before its base is refused {refused};"));
    let lasts = LONGEST_TRANSITION * SLOT_MS;
    figures.phrase(RAISING, format!("the longest, {LONGEST_TRANSITION} slots, takes {lasts} ms"));
}

/// "Whether a larger T may help": the bytes of what the desk may change, and what is proved.
fn add_bytes_asked(figures: &mut Figures) {
    let (b, c) = (bytes_b(), bytes_c());
    let longest = b.iter().zip(&c).position(|(of_b, of_c)| of_b != of_c).unwrap_or(0);
    let first = outcome(&Run::empty(), &[]).place;
    figures.phrase(RAISING, format!("T is byte {longest} of the request, counted from {first}"));
    figures.phrase(RAISING, format!("a larger number in field {TAG_SLOT:02x}"));
    figures.phrase(RAISING, format!("field {TAG_SHARE:02x}, at most {LARGEST_BOUND}"));
    let Share { period, bound } = share(&asked_b().listing, PUMP_LOOP);
    let field = |bound| share_field(PUMP_LOOP, period.trailing_zeros() as u8, bound);
    let (short, full) = (field(None), field(Some(bound)));
    let head = |field: &[u8]| hexadecimal(&field[..HEAD]);
    figures.phrase(RAISING, format!("a short field `{} id k`, which asks R as", head(&short)));
    let grows = frame(&full).len() - frame(&short).len();
    let full = format!("becomes `{} id k R`", head(&full));
    figures.phrase(RAISING, format!("{full}, and the frame's length grows by {grows}"));
    figures.phrase(RAISING, format!("a larger k, at most {LARGEST_EXPONENT}"));
    figures.phrase(RAISING, format!("for the {} promise", refused_above()));
}

/// "Whether a larger T may help": case C, and case B behind it.
fn add_raising_c(figures: &mut Figures) {
    let (slot, rows) = (asked_c().slot, by_longest(&run_a(), |t| request_b(asked_c().slot, t)));
    figures.block("B's listing by T", answers_by_t(&rows));
    let (c, number) = (asked_c().longest, answer_c().number);
    let none = format!("it is refused {number}: length {} has no schedule", list(0..=c));
    figures.phrase(RAISING, format!("asked at slot {slot}. With T {c}, that is C, {none}"));
    let accepted = rows.iter().find(|(_, _, answer)| answer.number == numbers::ACCEPTED);
    let (first, last, length) = accepted
        .map_or((0, 0, 0), |(first, last, answer)| (*first, *last, answer.timetable.length));
    let each = format!("so it is with each T up to {last}");
    figures.phrase(
        RAISING,
        format!("with T {first} it is B, accepted with length {length}, and {each}"),
    );
}

/// "Whether a larger T may help": case E by its T.
fn add_raising_e(figures: &mut Figures) {
    let (asked, (last, next)) = (asked_e(), around_e());
    figures.block("E by T", answers_by_t(&by_t_e()));
    let (had, asks) = (bound(VALVE), share(&asked.listing, VALVE).bound);
    let (slot, place) = (asked.slot, answer_e(next).place);
    let (core, missed, exhausted) = (slot + place, answer_e(next).number, answer_e(last).number);
    let valve = format!("the valve asks R {asks} where it had R {had}");
    figures.phrase(RAISING, format!("After B, at slot {slot}, {valve}"));
    let slots = format!("slots {slot} and {core} are slots of the core");
    let told = format!("have nothing to do with the numbers {missed} and {exhausted}");
    figures.phrase(RAISING, format!("({slots}, and {told})"));
    figures.phrase(RAISING, format!("After each {exhausted} the desk"));
    let ends = format!("the {missed} at T {next} ends that");
    figures.phrase(RAISING, format!("{ends}: place {place} is slot {slot} + {place} = {core}"));
    figures.phrase(RAISING, format!("Slot {core} stood in the way before"));
    let ended = format!("the search ended before it looked at transition slot {place}");
    figures.phrase(RAISING, format!("with T {last} {ended}"));
}

/// A row for each listed id: a figure of it at each transition slot.
fn rows_by_id(
    waiting: &[Waiting],
    figure: &str,
    of: impl Fn(&Waiting, u8) -> String,
) -> Vec<(String, Vec<String>)> {
    let row = |id: u8| {
        let label = format!("{}, {figure}", name(id));
        (label, waiting.iter().map(|at| of(at, id)).collect())
    };
    ids(&asked_e().listing).into_iter().map(row).collect()
}

/// "Whether a larger T may help": the shortfalls and rooms of case E, slot by slot.
fn add_slots_e(figures: &mut Figures) {
    let (asked, waiting) = (asked_e(), waiting_e());
    let numbers = |from: u64| waiting.iter().map(|at| (at.slot - from).to_string()).collect();
    let can = |at: &Waiting| match at.owners[..] {
        [] => String::from("none"),
        _ => list(&at.owners),
    };
    let owed = |at: &Waiting, id: u8| at.shortfalls[usize::from(id)].to_string();
    let left = |at: &Waiting, id: u8| room_at(&asked.listing, at, id).to_string();
    let mut rows = vec![
        (String::from("transition slot"), numbers(asked.slot)),
        (String::from("slot"), numbers(0)),
    ];
    rows.extend(rows_by_id(&waiting, "shortfall", owed));
    rows.extend(rows_by_id(&waiting, "room", left));
    rows.push((String::from("id that can have it"), waiting.iter().map(can).collect()));
    let rows: Vec<(&str, Vec<String>)> =
        rows.iter().map(|(label, row)| (&label[..], row.clone())).collect();
    figures.block("E by slots", aligned(&rows, 0));
}

/// "Whether a larger T may help": who needs each slot of case E.
fn add_needed_e(figures: &mut Figures) {
    let (listing, waiting) = (asked_e().listing, waiting_e());
    let missed = &waiting[waiting.len() - 1];
    let (none, urgent) = least_room(&listing, missed);
    let below = ids(&listing).into_iter().map(|id| limit_of(share(&listing, id)));
    let below = list(in_turn(below));
    figures.phrase(RAISING, format!("Why slot {}, by slots", missed.slot));
    figures.phrase(RAISING, format!("has to stay below {below}, and room {none} means"));
    let goes = waiting.iter().filter(|at| !at.owners.is_empty()).map(|at| {
        let owners = list(at.owners.iter().map(|&id| name(id)));
        format!("slot {} goes to the {owners}", at.slot)
    });
    figures.phrase(RAISING, format!("no choice: {}", list(goes)));
    let by = urgent.into_iter().map(|id| format!("by the {}", name(id)));
    figures.phrase(RAISING, format!("Slot {} is needed {}", missed.slot, list_and(by)));
}

/// "Whether a larger T may help": what is broken by whoever gets the slot that case E misses.
fn add_owners_e(figures: &mut Figures) {
    let (listing, waiting) = (asked_e().listing, waiting_e());
    let Waiting { slot, shortfalls, .. } = &waiting[waiting.len() - 1];
    let label = format!("slot {slot} goes to");
    let row = |owner: u8| {
        let behind = behind(&listing, shortfalls, owner);
        let owed = |id: u8| format!("  {:>1$}", behind[usize::from(id)], name(id).len());
        let owed: String = ids(&listing).into_iter().map(owed).collect();
        let broken = list(broken(&listing, shortfalls, owner).into_iter().map(name));
        format!("{:1$}{owed}  {broken}", name(owner), label.len())
    };
    let names: Vec<&str> = ids(&listing).into_iter().map(name).collect();
    let head = format!("{label}  {}  broken", names.join("  "));
    let owners = || ids(&listing).into_iter().chain([IDLE]);
    let lines: Vec<String> = [head].into_iter().chain(owners().map(row)).collect();
    figures.block(&format!("whoever gets slot {slot}"), lines.join("\n"));
    let reached = |owner: u8| {
        let behind = behind(&listing, shortfalls, owner);
        let told = move |id: u8| {
            let bound = share(&listing, id).bound;
            format!("{}, not below {CYCLE} x {bound}", behind[usize::from(id)])
        };
        broken(&listing, shortfalls, owner).into_iter().map(told)
    };
    let reached = list(in_turn(owners().flat_map(reached)));
    let ends = format!("at its end a shortfall is {reached}");
    figures.phrase(RAISING, format!("Whoever gets slot {slot}, {ends}"));
}

/// The answer after case B to a listing at a slot, with the largest T.
fn answer_after_b(slot: u64, listing: &Listing) -> Outcome {
    outcome(&run_b(), &request_of(slot, LONGEST_TRANSITION as u8, listing))
}

/// The answer in place of case E's, where one id asks for another share.
fn answer_with(id: u8, share: Share) -> Outcome {
    let Request { slot, mut listing, .. } = asked_e();
    listing[usize::from(id)] = Some(share);
    answer_after_b(slot, &listing)
}

/// What may be asked in place of case E: some later slots, larger bounds, smaller shares.
fn in_place_of_e() -> Vec<(String, Outcome)> {
    let Request { slot, listing, .. } = asked_e();
    let shares: Vec<(u8, Share)> =
        ids(&listing).into_iter().map(|id| (id, share(&listing, id))).collect();
    let longest = shares.iter().map(|(_, share)| u64::from(share.period)).max().unwrap_or(0);
    let later = slot + 1..=slot + longest;
    let later = later.map(|slot| (format!("at slot {slot}"), answer_after_b(slot, &listing)));
    let larger = shares.iter().map(|&(id, Share { period, bound })| {
        let share = Share { period, bound: bound + 1 };
        (format!("R {} for the {}", share.bound, name(id)), answer_with(id, share))
    });
    let smaller = shares.iter().map(|&(id, Share { period, bound })| {
        let share = Share { period: 2 * period, bound };
        let k = share.period.trailing_zeros();
        (format!("k {k} for the {}", name(id)), answer_with(id, share))
    });
    later.chain(larger).chain(smaller).collect()
}

/// "Whether a larger T may help": what may be asked in place of case E.
fn add_in_place_of_e(figures: &mut Figures) {
    let (Request { slot, listing, .. }, most) = (asked_e(), LONGEST_TRANSITION as u8);
    figures.block("in place of E", answers("in place of E", &in_place_of_e()));
    figures.phrase(RAISING, format!("After E's {}.", answer_e(most).number));
    figures.phrase(RAISING, format!("with T {most} and at slot {slot} unless"));
    let after = slot + 1..slot + 1 + 2 * CYCLE as u64;
    let stands = in_turn(after.clone().map(|slot| run_b().shortfall(VALVE, slot)));
    figures.phrase(RAISING, format!("the valve stands at {}", list_with(stands, "or")));
    let refused = in_turn(after.map(|slot| answer_after_b(slot, &listing).number));
    let refused = list_with(refused, "or");
    figures.phrase(RAISING, format!("each slot from {} on is refused {refused}", slot + 1));
}

/// A request for a listing at a slot with some T.
fn request_of(slot: u64, longest: u8, listing: &Listing) -> Vec<u8> {
    let field =
        |(id, share): (usize, Share)| (id as u8, share.period.trailing_zeros() as u8, share.bound);
    record(slot, longest, &listed(listing).map(field).collect::<Vec<_>>())
}

/// "Whether a larger T may help": case E's listing after case A, where a later slot helps.
fn add_later_slot(figures: &mut Figures) {
    let (run, slot, most) = (run_a(), asked_b().slot, LONGEST_TRANSITION as u8);
    let answer = |slot: u64| outcome(&run, &request_d(slot, most));
    let rows = [slot, slot + 1].map(|slot| (format!("at slot {slot}"), answer(slot)));
    figures.block("E's listing after A", answers("E's listing after A", &rows));
    let Outcome { number, place, .. } = answer(slot);
    let missed = format!("gets {number} with place {place}: slot {} is missed", slot + place);
    figures.phrase(RAISING, format!("E's listing at slot {slot} {missed}"));
    add_needed_later(figures, slot);
    let asked = asked(&request_d(slot + 1, most));
    let first = &only_owners(&run, &asked)[0];
    let owed = first.shortfalls[usize::from(VALVE)];
    let left = room_at(&asked.listing, first, VALVE);
    let begins = format!("the valve begins there with {owed} and can wait (room {left})");
    figures.phrase(RAISING, format!("Asked for at slot {}, {begins}", asked.slot));
}

/// "Whether a larger T may help": who needs the slots of case E's listing after case A.
fn add_needed_later(figures: &mut Figures, slot: u64) {
    let asked = asked(&request_d(slot, LONGEST_TRANSITION as u8));
    let waiting = only_owners(&run_a(), &asked);
    let (first, missed) = (&waiting[0], &waiting[waiting.len() - 1]);
    let owed = |at: &Waiting, id: u8| at.shortfalls[usize::from(id)];
    let goes = first.owners.iter().map(|&id| format!("the {} ({})", name(id), owed(first, id)));
    figures.phrase(RAISING, format!("Slot {slot} goes to {}", list(goes)));
    let by = |id: u8| match run_a().present().lists(id) {
        true => format!("by the {} ({})", name(id), owed(missed, id)),
        false => format!("by the {} ({}, listed since slot {slot})", name(id), owed(missed, id)),
    };
    let by: Vec<String> = least_room(&asked.listing, missed).1.into_iter().map(by).collect();
    figures.phrase(RAISING, format!("slot {} is then needed {}", missed.slot, by.join(" and ")));
}

/// The section on what changes of the rules moved.
const EARLIER: &str = "Earlier meanings";

/// "Earlier meanings": what CR 1 moved.
fn add_earlier(figures: &mut Figures) {
    use numbers::{LENGTHS_EXHAUSTED as EXHAUSTED, SLOT_MISSED as MISSED};
    let section = EARLIER;
    let (place, _) = nine_before(&answer_c());
    figures.phrase(section, format!("| number {MISSED} | no length up to T gives a schedule"));
    let today = format!("| {MISSED} where a slot is missed, {EXHAUSTED} where all lengths");
    figures.phrase(section, today);
    let today = format!("the missed slot; with {EXHAUSTED} it is T |");
    figures.phrase(section, format!("| place with {MISSED} | {place} | {today}"));
    figures.phrase(section, format!("Tries with {MISSED} is what it was"));
    figures.phrase(section, format!("Every {MISSED}, old or new, is read exactly"));
    let lacks = format!("the line of a {MISSED} does not have it");
    figures.phrase(section, format!("(field {TAG_LONGEST:02x}; {lacks})"));
    figures.phrase(section, format!("| A {MISSED} with | It means today"));
    let more = searched_more(&answer_c());
    let all = format!("place {place}, tries T + {more}");
    figures.phrase(section, format!("| {all} | {EXHAUSTED} with place T"));
    let fewer = format!("place {place}, tries T or fewer");
    figures.phrase(section, format!("| {fewer} | {MISSED} with place tries - {more}"));
    figures.phrase(section, format!("if tries is above {more}; with tries {more} old and new"));
    let new = format!("a place above {place}");
    figures.phrase(section, format!("| {new} | what it says"));
    add_nines(figures, [all, fewer, new]);
}

/// "Earlier meanings": a 9 as it was told and what it means today.
fn add_nines(figures: &mut Figures, [all, fewer, new]: [String; 3]) {
    let (section, most) = (EARLIER, LONGEST_TRANSITION as u8);
    let with = |case: &str, longest: u8, answer: &Outcome| {
        let (place, tries) = nine_before(answer);
        let today = nine_today(longest, (place, tries));
        let today = list(today.map(|(number, at)| format!("{number} at {at}")));
        let was = format!("{} at {place}, tries {tries}", numbers::SLOT_MISSED);
        format!("{case} with T {longest}: {was} is {today}")
    };
    let of_c = with("C", asked_c().longest, &answer_c());
    let (last, _) = around_e();
    figures.cell(section, all, format!("{of_c}; {}", with("E", last, &answer_e(last))));
    let of_e = with("E", most, &answer_e(most));
    let next = asked_e().slot + answer_e(most).place;
    let later = format!("E's listing at slot {next}");
    let same = with(&later, most, &outcome(&run_b(), &request_d(next, most)));
    figures.cell(section, fewer, format!("{of_e}; {same}"));
    figures.cell(section, new, format!("E with T {most}: {}", in_vain(&answer_e(most))));
}

/// "Earlier meanings": what can't be decided of a 9, and how old is told from new.
fn add_undecided(figures: &mut Figures) {
    use numbers::{LENGTHS_EXHAUSTED as EXHAUSTED, SLOT_MISSED as MISSED};
    let (place, _) = nine_before(&answer_c());
    let more = searched_more(&answer_c());
    figures.phrase(EARLIER, format!("Without T a {MISSED} with a place above {place} is read"));
    let nine = format!("it means {MISSED} with place tries - {more}");
    figures.phrase(EARLIER, format!("One with place {place} is not decided: {nine}"));
    figures.phrase(EARLIER, format!("one, {EXHAUSTED} with place tries - {more}"));
    let alone = |tries: u16| match nine_without_longest((place, tries))[..] {
        [(number, at)] => Some(format!("only with tries {tries} it is always {number} at {at}")),
        _ => None,
    };
    figures.phrase(EARLIER, list((0..=u16::from(u8::MAX)).filter_map(alone)));
    let wrong = format!("whose tries is not place + {more}");
    figures.phrase(EARLIER, format!("gave a {MISSED} with a place above {place} {wrong}"));
    let never = (0..).find(|&tries| nine_without_longest((place, tries)).is_empty());
    let never = format!("a {MISSED} with tries {}", list(never));
    figures.phrase(EARLIER, format!("{never} or above T + {more}"));
    figures.phrase(EARLIER, format!("the first with {EXHAUSTED}."));
    let lines = lines_of(&[request_a()]);
    let first = lines.iter().flat_map(|line| line.split(' ').next()).next().unwrap_or_default();
    figures.phrase(EARLIER, format!("its ordinals from {first} on, a number is {EXHAUSTED}"));
    figures.phrase(EARLIER, format!("a place may be {EXHAUSTED} too"));
}
