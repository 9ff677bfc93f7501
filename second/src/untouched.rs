//! The figures of docs/DICTIONARY.md that are the method software's: what a short field asks, what
//! asking for what is there gives, and the earlier meaning of the short field.

use crate::cases::{request_a, request_b, request_d, request_left, request_short};
use crate::change::{bound_before, Outcome, AREA};
use crate::figures::{aligned, code, hexadecimal, in_turn, list, list_and, list_with, Figures};
use crate::numbers::{ACCEPTED, LENGTHS_EXHAUSTED, SHORTFALL_TOO_LARGE, SLOT_MISSED};
use crate::records::{share_field, HEAD, TAG_SHARE};
use crate::run::Run;
use crate::timetable::{CYCLE, LARGEST_EXPONENT, LONGEST_TRANSITION};
use crate::worked::{
    answered, as_before, as_there, asked_after, asks_there, before_cr_3, bound_by_archive, bytes_b,
    ids, left_at, limit_of, name, offsets, outcome, request_with, run_a, run_b, share, Archived,
    Field, DETECTOR, LAST_SHOWN, PUMP_LOOP, SLOT_D, VALVE, VERSION_AS_BEFORE, VERSION_DEBTS,
};

/// The figures of each part.
pub fn add_to(figures: &mut Figures) {
    add_sources(figures);
    add_short_d(figures);
    add_judged(figures);
    add_there(figures);
    add_other_slots(figures);
    add_something_else(figures);
    add_ended(figures);
    add_found(figures);
    add_otherwise(figures);
}

/// The sections on the short field, and on what is there.
const SHORT: &str = "The short field: R as before";
const THERE: &str = "What is there is granted";
const EARLIER: &str = "Earlier meanings";

/// The largest T.
const LONGEST: u8 = LONGEST_TRANSITION as u8;

/// Case D with a short field for the valve.
fn short_d() -> Vec<u8> {
    request_short(SLOT_D, LONGEST)
}

/// The R that a short field asks for an id, put after a run.
fn asks_short(run: &Run, id: u8) -> u8 {
    let request = request_with(run.present().base, 0, &[as_before(run, id)]);
    share(&asked_after(run, &request).listing, id).bound
}

/// "The short field": its form, and where the R that it asks comes from.
fn add_sources(figures: &mut Figures) {
    let (b, new) = (run_b(), asks_short(&run_a(), VALVE));
    let [full, short] = [Some(1), None].map(|bound| share_field(0, 0, bound).len() - HEAD);
    figures.phrase(SHORT, format!("A field {TAG_SHARE:02x} of length {full} gives the R"));
    figures.phrase(SHORT, format!("One of length {short}, the short field, gives none"));
    let of = |id: u8| format!("R {} for id {id}", asks_short(&b, id));
    figures.cell(SHORT, "is listed", format!("after B: {}, {}", of(PUMP_LOOP), of(VALVE)));
    figures.phrase(SHORT, format!("| is not listed | R {new} |"));
    figures.cell(SHORT, "is not listed", format!("after A: R {new} for id {VALVE}"));
    let (base, had) = (b.present().base, bound_before(&b.present(), usize::from(VALVE)));
    let returned = b.after(&request_left(base, 0)).after(&request_short(base + 1, 0));
    let has = bound_before(&returned.present(), usize::from(VALVE));
    figures.phrase(SHORT, format!("| has left | R {has}: its R is forgotten"));
    let slots = format!("left out at slot {base} and asked for again at slot {}", base + 1);
    let text = format!("B, then id {VALVE} {slots} by a short field: R {has}, not {had}");
    figures.cell(SHORT, "has left", text);
    figures.phrase(SHORT, format!("an R of its own, be it {new}, or"));
}

/// The R that a request asks for the valve after case B.
fn asks_valve(request: &[u8]) -> u8 {
    share(&asked_after(&run_b(), request).listing, VALVE).bound
}

/// The offsets of an acceptance.
pub fn placed(outcome: &Outcome) -> String {
    match outcome.number {
        ACCEPTED => list(offsets(&outcome.timetable)),
        _ => String::from("none"),
    }
}

/// "The short field": case D with R 1 for the valve, with a short field, and with the R so found.
fn add_short_d(figures: &mut Figures) {
    let (b, in_full) = (run_b(), request_d(SLOT_D, LONGEST));
    let owed = b.shortfall(VALVE, SLOT_D);
    let (has, less) = (asks_short(&b, VALVE), asks_valve(&in_full));
    let stands = format!("at slot {SLOT_D} it stands at {owed}");
    figures.phrase(SHORT, format!("the valve is listed with R {has}, and {stands}"));
    let refused = outcome(&b, &in_full).number;
    let much = format!("not below {CYCLE} x {less}: refused {refused}");
    figures.phrase(SHORT, format!("With R {less} that is too much, {much}"));
    let asks = asks_valve(&short_d());
    let below = format!("{owed} is below {CYCLE} x {asks}");
    figures.phrase(SHORT, format!("The short field asks R {asks}, and {below}"));
    let row = |request: &Vec<u8>| {
        let it = outcome(&b, request);
        let field = hexadecimal(field_of(request, VALVE));
        let Outcome { number, place, tries, timetable, .. } = &it;
        let length = if *number == ACCEPTED { timetable.length } else { 0 };
        let told = format!("{number:>6}  {place:>5}  {tries:>5}  {length:>6}  {}", placed(&it));
        format!("{field:17}  {:>7}  {told}", asks_valve(request))
    };
    let head = "the valve's field  R asked  number  place  tries  length  offsets";
    let requests = [in_full, short_d(), request_b(SLOT_D, LONGEST)];
    let rows: Vec<String> =
        [String::from(head)].into_iter().chain(requests.iter().map(row)).collect();
    figures.block("D by the valve's field", rows.join("\n"));
    let answers = requests[1..].iter().map(|request| code(&answered(&b, request).1));
    let answers = list(in_turn(answers));
    figures.phrase(SHORT, format!("The last two get the same answer, {answers}, and leave"));
}

/// The bytes of an id's field in a request: the last one, as here.
pub fn field_of(request: &[u8], id: u8) -> &[u8] {
    let forms = [Some(0), None].map(|bound| share_field(id, 0, bound).len());
    let ends = |size: &usize| {
        let field = &request[request.len() - size..];
        field[0] == TAG_SHARE && usize::from(field[2]) == size - HEAD && field[HEAD] == id
    };
    forms.iter().find(|size| ends(size)).map_or(&[], |size| &request[request.len() - size..])
}

/// "The short field": the refusals that look at R.
fn add_judged(figures: &mut Figures) {
    let refused = list_and([SHORTFALL_TOO_LARGE, SLOT_MISSED, LENGTHS_EXHAUSTED]);
    figures.phrase(SHORT, format!("The refusals {refused} go by the R that is found"));
    let listed = format!("its shortfall is below {CYCLE} x the R with which it is listed");
    figures.phrase(SHORT, format!("And no {SHORTFALL_TOO_LARGE} names a listed id"));
    figures.phrase(SHORT, listed);
    let asks = asks_short(&left_at(SLOT_D), VALVE);
    let owes = format!("R {asks} is asked of it, and its shortfall is not below {CYCLE}");
    figures.phrase(SHORT, format!("An {SHORTFALL_TOO_LARGE} may name one that returns: {owes}"));
}

/// The first slots at which what is there may be asked for after case B.
fn asked_at() -> [u64; 4] {
    let base = run_b().present().base;
    [base, base + 1, base + 2, base + 3]
}

/// The first two slots that an id has after what is there was asked for at a slot.
fn first_slots(slot: u64, id: u8) -> Vec<u64> {
    let run = run_b().after(&as_there(&run_b(), slot, 0));
    let mut own = run.own_slots(id, slot..slot + CYCLE as u64);
    own.truncate(2);
    own
}

/// "What is there is granted": what B lists, asked for as before at some slots.
fn add_there(figures: &mut Figures) {
    let b = run_b();
    let alike = in_turn(asked_at().into_iter().map(|slot| {
        let it = outcome(&b, &as_there(&b, slot, 0));
        (it.number, it.timetable.length)
    }));
    let length = list(alike.iter().map(|(_, length)| length));
    figures.phrase(THERE, format!("With an area of {AREA} bytes, who asks"));
    figures.phrase(THERE, format!("It is accepted with length {length}, and each id"));
    let base = b.present().base;
    let fields = ids(&b.present().listing()).into_iter().map(|id| {
        let (id, k, bound) = as_before(&b, id);
        code(&share_field(id, k, bound))
    });
    figures.phrase(THERE, format!("whose base is {base}, its fields are {}", list_and(fields)));
    let row = |slot: u64| {
        let it = outcome(&b, &as_there(&b, slot, 0));
        let Outcome { number, place, timetable, .. } = &it;
        let length = timetable.length;
        let told = format!("{slot:>7}  {number:>6}  {place:>5}  {length:>6}  {}", placed(&it));
        let own = |id: u8| list(first_slots(slot, id));
        let [pump, detector, valve] = [PUMP_LOOP, DETECTOR, VALVE].map(own);
        format!("{told}  {pump:>9}  {detector:>8}  {valve:>6}")
    };
    let names = format!("{}  {}  {:>6}", name(PUMP_LOOP), name(DETECTOR), name(VALVE));
    let head = format!("at slot  number  place  length  offsets  {names}");
    let rows: Vec<String> = [head].into_iter().chain(asked_at().into_iter().map(row)).collect();
    figures.block("what is there after B", rows.join("\n"));
}

/// "What is there is granted": the slots that may be others, and the valve's shortfall then.
fn add_other_slots(figures: &mut Figures) {
    let b = run_b();
    let shown = b.present().base..LAST_SHOWN + 1;
    figures.phrase(THERE, format!("the valve has slots {}", list(b.own_slots(VALVE, shown))));
    let stays = |slot: &u64| {
        let after = b.after(&as_there(&b, *slot, 0));
        (*slot..*slot + CYCLE as u64).all(|slot| after.owner(slot) == b.owner(slot))
    };
    let (stay, move_on): (Vec<u64>, Vec<u64>) = asked_at().into_iter().partition(stays);
    let stay = list_with(stay, "or");
    figures.phrase(THERE, format!("Asked for at slot {stay} what is there has B's slots"));
    figures.phrase(THERE, format!("asked for at slot {} it has", list_with(move_on, "or")));
    let after = b.after(&as_there(&b, SLOT_D, 0));
    let shown = SLOT_D..LAST_SHOWN + 1;
    let own = list(after.own_slots(VALVE, shown.clone()));
    figures.phrase(THERE, format!("from slot {SLOT_D} on the valve has slots {own}"));
    let most = |run: &Run| shown.clone().map(|slot| run.shortfall(VALVE, slot)).max();
    let (reaches, reached) = (list(most(&after)), list(most(&b)));
    let then = format!("Its shortfall then reaches {reaches}, where in B it reached {reached}");
    figures.phrase(THERE, then);
    let limit = limit_of(share(&after.present().listing(), VALVE));
    figures.phrase(THERE, format!("Below {limit} its bound is kept"));
    let owed = |run: &Run| -> Vec<String> {
        shown.clone().map(|slot| run.shortfall(VALVE, slot).to_string()).collect()
    };
    let label = format!("shortfall if asked for at slot {SLOT_D} ");
    let rows = [
        ("slot", shown.clone().map(|slot| slot.to_string()).collect()),
        ("shortfall in B", owed(&b)),
        (&label[..], owed(&after)),
    ];
    figures.block(&format!("the valve from slot {SLOT_D} on"), aligned(&rows, 0));
}

/// What may be asked instead of what is there after case B: what differs, and the request.
fn something_else() -> Vec<(String, Vec<u8>)> {
    let b = run_b();
    let there = asks_there(&b);
    let with = |id: u8, k: u8, bound: Option<u8>| {
        let mut fields: Vec<Field> = there.iter().copied().filter(|field| field.0 != id).collect();
        fields.push((id, k, bound));
        fields.sort_unstable();
        request_with(SLOT_D, 0, &fields)
    };
    let (more, least) = (VALVE + 1, LARGEST_EXPONENT);
    let k = |id: u8| as_before(&b, id).1;
    let (larger, less) = (k(PUMP_LOOP) - 1, bound_before(&b.present(), usize::from(VALVE)) - 1);
    let early = b.present().base - 1;
    let (pump, valve) = (name(PUMP_LOOP), name(VALVE));
    vec![
        (format!("id {more} besides, with k {least}"), with(more, least, None)),
        (format!("k {larger} for the {pump}"), with(PUMP_LOOP, larger, None)),
        (format!("R {less} in full for the {valve}"), with(VALVE, k(VALVE), Some(less))),
        (format!("at slot {early}"), as_there(&b, early, 0)),
    ]
}

/// "What is there is granted": other requests, which are refused.
fn add_something_else(figures: &mut Figures) {
    let asked = something_else();
    let width = asked.iter().map(|(but, _)| but.len()).max().unwrap_or(0);
    let row = |(but, request): &(String, Vec<u8>)| {
        let Outcome { number, place, .. } = outcome(&run_b(), request);
        format!("{but:width$}  {number:>6}  {place:>5}")
    };
    figures.phrase(THERE, format!("After B, at slot {SLOT_D} with short fields, but"));
    let head = format!("{:width$}  number  place", "but");
    let rows: Vec<String> = [head].into_iter().chain(asked.iter().map(row)).collect();
    figures.block("something else than what is there", rows.join("\n"));
}

/// "Earlier meanings": what CR 3 moved, and case D by both meanings.
fn add_ended(figures: &mut Figures) {
    let (b, short) = (run_b(), short_d());
    let was = before_cr_3(&short);
    let field = field_of(&short, VALVE);
    let row = format!("field {:02x}, length {}, of a request", field[0], field[2]);
    let before = asks_valve(&was);
    figures.phrase(EARLIER, format!("| {row} | R {before}, whatever the timetable |"));
    let told = |request: &[u8]| {
        let Outcome { number, place, .. } = outcome(&b, request);
        let case = format!("D with a short field for id {VALVE}");
        format!("{case}: R {}, {number} at {place}", asks_valve(request))
    };
    let old = format!("a version up to {}", VERSION_AS_BEFORE - 1);
    let new = format!("a version from {VERSION_AS_BEFORE} on");
    figures.phrase(EARLIER, format!("| {old} | R {before} |"));
    figures.cell(EARLIER, old, told(&was));
    figures.phrase(EARLIER, format!("| {new} | R as before |"));
    figures.cell(EARLIER, new, told(&short));
}

/// "Earlier meanings": how the R that a short field asked is found in the archive.
fn add_found(figures: &mut Figures) {
    let later = SLOT_D + 1;
    let archive = [request_a(), bytes_b(), short_d()]
        .map(|request| Archived { request, version: VERSION_AS_BEFORE });
    figures.phrase(EARLIER, format!("a short field with a version from {VERSION_AS_BEFORE} on"));
    let none = bound_by_archive(&[], VALVE);
    figures.phrase(EARLIER, format!("It is {none} if that request does not list the id"));
    let asked = bound_by_archive(&archive, VALVE);
    let both = format!("id {VALVE} at slot {SLOT_D}, and then the same at slot {later}");
    figures.phrase(EARLIER, format!("{both}: the field at slot {later} asked R {asked}"));
}

/// "Earlier meanings": which answers would be others today.
fn add_otherwise(figures: &mut Figures) {
    let b = run_b();
    let least = bound_by_archive(&[], VALVE);
    figures.phrase(EARLIER, format!("was listed with an R above {least}"));
    let (behind, missed, exhausted) = (SHORTFALL_TOO_LARGE, SLOT_MISSED, LENGTHS_EXHAUSTED);
    figures.phrase(EARLIER, format!("the place of an {behind}, the request would"));
    let cause = format!("{behind} for another id, {missed} or {exhausted}");
    figures.phrase(EARLIER, format!("for another cause: {cause}"));
    figures.phrase(EARLIER, format!("An old {missed} or {exhausted} may be"));
    figures.phrase(EARLIER, format!("with T 0 and a short field for id {VALVE}"));
    let row = |slot: u64| {
        let today = request_short(slot, 0);
        let [before, today] = [before_cr_3(&today), today].map(|request| outcome(&b, &request));
        let was = format!("{:>6}  {:>5}", before.number, before.place);
        format!("{slot:>7}  {was}  {:>5}  {:>5}", today.number, today.place)
    };
    let head = String::from("at slot  before  place  today  place");
    let rows: Vec<String> = [head].into_iter().chain(asked_at().into_iter().map(row)).collect();
    figures.block("a short field before CR 3 and today", rows.join("\n"));
    figures.phrase(EARLIER, format!("There an {behind} that has the id"));
    let (old, new) = (VERSION_AS_BEFORE - 1, VERSION_DEBTS);
    figures.phrase(EARLIER, format!("a version up to {old} if that id was listed"));
    figures.phrase(EARLIER, format!("and one from {new} on if it was not"));
}
