//! The figures of docs/DICTIONARY.md that are a debt's: the supplier's script slot by slot, a later
//! return, how a debt is worked off, and what CR 5 ended.

use crate::cases::{request_b, request_d, request_left, request_short};
use crate::change::Outcome;
use crate::dictionary::{shortfall_row, with_ends};
use crate::figures::{aligned, code, hexadecimal, in_turn, list, list_and, thousands, Figures};
use crate::numbers::{ACCEPTED, NOT_LISTED, NOT_SOUND, SHORTFALL_TOO_LARGE};
use crate::probe::image_of;
use crate::queries::standing_query;
use crate::run::Run;
use crate::slots::room;
use crate::timetable::{Share, Timetable, CYCLE, DEBT_LIMIT};
use crate::untouched::{field_of, placed};
use crate::worked::{
    after_before_cr_5, answered, asked_after, asked_b, forgetful, left_at, limit_of, mark, offsets,
    outcome, run_b, share, LAST_SHOWN, SLOT_BACK, SLOT_D, VALVE, VERSION_AS_BEFORE, VERSION_DEBTS,
};
use std::fmt::Display;
use std::ops::Range;

/// The figures of each part.
pub fn add_to(figures: &mut Figures) {
    add_asked(figures);
    add_cleared(figures);
    add_kept(figures);
    add_second(figures);
    add_later(figures);
    add_carried_along(figures);
    add_worked_off(figures);
    add_ended(figures);
    add_told_apart(figures);
    add_told_by_answers(figures);
    add_differs(figures);
    add_again(figures);
}

/// The sections on the script, and on what changes of the rules moved.
const SCRIPT: &str = "The supplier's script, worked through";
const EARLIER: &str = "Earlier meanings";

/// The run of the script before CR 5: the valve is left out, and asked for again at a slot.
fn before_cr_5(request: &[u8]) -> Run {
    let left = after_before_cr_5(&run_b(), &request_left(SLOT_D, 0));
    after_before_cr_5(&left, request)
}

/// What the column says of the valve at a slot, by the timetable in force there; a stroke where the
/// query says that it is not listed.
fn told(run: &Run, slot: u64) -> String {
    match standing_query(&run.in_force(slot), VALVE, slot) {
        (ACCEPTED, owed, _) => owed.to_string(),
        _ => String::from("-"),
    }
}

/// A row of what the column says of the valve.
fn told_row<'a>(name: &'a str, run: &Run, shown: Range<u64>) -> (&'a str, Vec<String>) {
    (name, shown.map(|slot| told(run, slot)).collect())
}

/// The rows of slots and owners with which a block begins.
fn head_rows<'a>(run: &Run, shown: Range<u64>) -> [(&'a str, Vec<String>); 2] {
    let numbers = shown.clone().map(|slot| slot.to_string()).collect();
    [("slot", numbers), ("owner", shown.map(|slot| mark(run, slot)).collect())]
}

/// The share that a request asks for the valve, put after a run.
fn asks(run: &Run, request: &[u8]) -> Share {
    share(&asked_after(run, request).listing, VALVE)
}

/// The figures that the valve has in some slots, each once.
fn in_some(run: &Run, shown: Range<u64>) -> String {
    list_and(in_turn(shown.map(|slot| run.shortfall(VALVE, slot))))
}

/// The script: where the valve stands, and what its supplier asks.
fn add_asked(figures: &mut Figures) {
    let (b, d) = (run_b(), request_d(SLOT_D, 0));
    let (has, owed) = (share(&asked_b().listing, VALVE).bound, b.shortfall(VALVE, SLOT_D));
    let stands = format!("at slot {SLOT_D} it stands at {owed}");
    figures.phrase(SCRIPT, format!("the valve (id {VALVE}) has R {has}, and {stands}"));
    let (less, Outcome { number, place, .. }) = (asks(&b, &d).bound, outcome(&b, &d));
    let refused = format!("is refused {number} with place {place}");
    figures.phrase(SCRIPT, format!("asks R {less} for it, which is case D, and {refused}"));
    figures.phrase(SCRIPT, format!("{owed} is not below {CYCLE} x {less}"));
    figures.phrase(SCRIPT, format!("two requests for slot {SLOT_D}"));
}

/// The script before CR 5: the shortfall is gone.
fn add_cleared(figures: &mut Figures) {
    let d = request_d(SLOT_D, 0);
    let old = before_cr_5(&d);
    let Share { bound, .. } = asks(&old, &d);
    let begins = format!("it began at {}, and R {bound} was accepted", told(&old, SLOT_D));
    figures.phrase(SCRIPT, format!("{begins}, with offsets {}", list(offsets(&old.present()))));
    let shown = SLOT_D..LAST_SHOWN + 1;
    let said = list_and(in_turn(shown.map(|slot| told(&old, slot))));
    let below = limit_of(asks(&old, &d));
    figures.phrase(SCRIPT, format!("the column said {said} in turn, below {below}"));
}

/// The same slots today: the window that the script hides, and both figures slot by slot.
fn add_kept(figures: &mut Figures) {
    let (old, first) = (before_cr_5(&request_d(SLOT_D, 0)), asked_b().slot);
    let window = first..SLOT_D;
    let (count, weight) = (SLOT_D - first, old.weight(VALVE, first));
    let of = format!("Slots {} are a window of {count} slots", list_and(window.clone()));
    let (entitled, had) = (old.entitlement(VALVE, window.clone()), old.supply(VALVE, window));
    let was = format!("the valve was entitled to {count} x {weight} = {entitled}");
    figures.phrase(SCRIPT, format!("{of}: {was}, one whole slot, and had {had}"));
    let (shown, share) = (SLOT_D..LAST_SHOWN + 1, asks(&old, &request_d(SLOT_D, 0)));
    let owed = in_some(&old, shown.clone());
    let broken = shown.clone().all(|slot| !share.keeps_bound(old.shortfall(VALVE, slot)));
    let below = if broken { "not below" } else { "below" };
    let of_bound = format!("{below} {CYCLE} x {}", share.bound);
    figures.phrase(SCRIPT, format!("the shortfall is {owed} in turn, {of_bound}"));
    let shown = first..LAST_SHOWN + 1;
    let [numbers, owners] = head_rows(&old, shown.clone());
    let before = told_row("valve, before CR 5 ", &old, shown.clone());
    let today = shortfall_row("valve, today", &old, VALVE, shown);
    let rows = aligned(&[numbers, owners, before, today], 0);
    let anew = format!("   starts anew at {SLOT_D}");
    let ends = [String::new(), String::new(), anew, format!("   {below} {}", limit_of(share))];
    figures.block("the supplier's script", with_ends(&rows, &ends));
}

/// The script today: what the first request leaves, and what becomes of the second.
fn add_second(figures: &mut Figures) {
    let (left, valve) = (left_at(SLOT_D), usize::from(VALVE));
    let Timetable { entries, starts, .. } = left.present();
    let both = list(in_turn([starts[valve], entries[valve].shortfall].into_iter()));
    figures.phrase(SCRIPT, format!("{both} at the request slot and at the base"));
    let query = standing_query(&left.present(), VALVE, SLOT_D).0;
    figures.phrase(SCRIPT, format!("(A standing query of it is refused {query}.)"));
    let [d, short, b] = [request_d, request_short, request_b].map(|request| request(SLOT_D, 0));
    let Outcome { number, place, .. } = outcome(&left, &d);
    figures.phrase(SCRIPT, format!("The second is refused {number} with place {place}"));
    let less = asks(&left, &short).bound;
    figures.phrase(SCRIPT, format!("which asks R {less}: the R {}", asks(&left, &b).bound));
    let after = left.after(&b);
    let (in_full, share) = (asks(&left, &b).bound, asks(&left, &b));
    let says = format!("the column says {} at slot {SLOT_D}", told(&after, SLOT_D));
    let stays = format!("{says}, and stays below {}", limit_of(share));
    figures.phrase(SCRIPT, format!("With R {in_full} in full it is accepted: {stays}"));
    let old = after_before_cr_5(&run_b(), &request_left(SLOT_D, 0));
    let row = |request: &Vec<u8>| {
        let [was, is] = [&old, &left].map(|run| outcome(run, request));
        let field = hexadecimal(field_of(request, VALVE));
        let then =
            format!("{:>7}  {:>11}  {:>5}", asks(&left, request).bound, was.number, was.place);
        format!("{field:17}  {then}  {:>5}  {:>5}  {}", is.number, is.place, placed(&is))
    };
    let head = "the valve's field  R asked  before CR 5  place  today  place  offsets";
    let rows: Vec<String> =
        [String::from(head)].into_iter().chain([d, short, b].iter().map(row)).collect();
    figures.block("the script by the valve's field", rows.join("\n"));
}

/// A return after some slots of absence, by both meanings.
fn add_later(figures: &mut Figures) {
    let (left, request) = (left_at(SLOT_D), request_b(SLOT_BACK, 0));
    let (back, old) = (left.after(&request), before_cr_5(&request));
    let sent = format!("The first request is sent for slot {SLOT_D}");
    let bound = asks(&left, &request).bound;
    let second = format!("the second, with R {bound}, for slot {SLOT_BACK}");
    figures.phrase(SCRIPT, format!("{sent}, {second}"));
    let away = SLOT_D..SLOT_BACK;
    let absent =
        format!("In the {} slots of absence, {SLOT_D} to {}", away.clone().count(), SLOT_BACK - 1);
    figures.phrase(SCRIPT, absent);
    let stands = format!("at slot {SLOT_BACK} it stands at {}", told(&back, SLOT_BACK));
    figures.phrase(
        SCRIPT,
        format!("it is owed {} at each of them, and {stands}", in_some(&back, away)),
    );
    let d = request_d(SLOT_BACK, 0);
    let Outcome { number, place, .. } = outcome(&left, &d);
    let refused =
        format!("With R {} it is refused {number} with place {place}", asks(&left, &d).bound);
    figures.phrase(SCRIPT, format!("{refused} there, as at slot {SLOT_D}"));
    figures.phrase(SCRIPT, format!("where the query says {NOT_LISTED}"));
    let shown = asked_b().slot..SLOT_BACK + 5;
    let [numbers, owners] = head_rows(&back, shown.clone());
    let before = told_row("told before CR 5 ", &old, shown.clone());
    let today = told_row("told today", &back, shown.clone());
    let owes = shortfall_row("owed today", &back, VALVE, shown);
    figures.block("a later return", aligned(&[numbers, owners, before, today, owes], 0));
}

/// How a debt is worked off: the cycle alone carries it along.
fn add_carried_along(figures: &mut Figures) {
    let request = request_b(SLOT_BACK, 0);
    let back = left_at(SLOT_D).after(&request);
    figures.phrase(SCRIPT, format!("each takes {CYCLE} off"));
    let period = u64::from(asks(&back, &request).period);
    let over = SLOT_BACK..SLOT_BACK + period;
    let own = list(back.own_slots(VALVE, SLOT_BACK..SLOT_BACK + 2 * period));
    let entitled = back.entitlement(VALVE, over.clone());
    let gets = CYCLE as i64 * back.supply(VALVE, over.clone());
    let has = format!("From slot {SLOT_BACK} on it has slots {own} and on");
    let even = format!("over {period} slots it is entitled to {entitled} and gets {gets}");
    let debt = [over.start, over.end].map(|slot| back.shortfall(VALVE, slot));
    let debt = list(in_turn(debt.into_iter()));
    figures.phrase(SCRIPT, format!("{has}: {even}, and the cycle alone carries its {debt} along"));
}

/// How a debt is worked off: by a slot that comes sooner.
fn add_worked_off(figures: &mut Figures) {
    let (out, d) = (SLOT_D + 1, request_d(SLOT_BACK, 0));
    let left = left_at(out);
    let (owed, share) = (left.shortfall(VALVE, SLOT_BACK), asks(&left, &d));
    let had = format!("Had it left at slot {out}, behind its slot {SLOT_D}");
    let limit = limit_of(share);
    figures.phrase(SCRIPT, format!("{had}, it would be owed {owed}, which is below {limit}"));
    let sooner = left.after(&d);
    let accepted = format!("R {} is accepted at slot {SLOT_BACK}", share.bound);
    let offsets = list(offsets(&sooner.present()));
    figures.phrase(SCRIPT, format!("{accepted}, with offsets {offsets}"));
    let (room, weight) = (room(owed, share), share.weight());
    let gone = sooner.shortfall(VALVE, SLOT_BACK + 1);
    let sum = format!("{owed} + {weight} - {CYCLE} = {gone}");
    let at_once = format!("so it has slot {SLOT_BACK} at once: {sum}");
    figures.phrase(SCRIPT, format!("Its room is {room}, {at_once}"));
    let shown = SLOT_BACK..SLOT_BACK + 5;
    let [numbers, owners] = head_rows(&sooner, shown.clone());
    let row = shortfall_row("valve, shortfall", &sooner, VALVE, shown);
    let ends = [String::new(), String::new(), format!("   below {limit}")];
    figures.block("a debt worked off", with_ends(&aligned(&[numbers, owners, row], 0), &ends));
}

/// "Earlier meanings": what CR 5 moved.
fn add_ended(figures: &mut Figures) {
    let left = left_at(SLOT_D).present();
    let old = forgetful(&left);
    let (none, most) = (old.starts[usize::from(VALVE)], thousands(usize::from(DEBT_LIMIT)));
    figures.phrase(EARLIER, format!("Figures up to version {} are read", VERSION_DEBTS - 1));
    figures.phrase(EARLIER, format!("its count began at {none} there"));
    figures.phrase(EARLIER, "all windows back to slot 0");
    figures.phrase(EARLIER, format!("of an id that is not listed | {none} | what it is owed"));
    figures.phrase(
        EARLIER,
        format!("all figures {none}; any other was refused {NOT_SOUND} | below {most}"),
    );
    let short = VERSION_AS_BEFORE;
    let never = format!("it never named an id that was not listed before; from version {short} on");
    figures.phrase(EARLIER, format!("| place with {SHORTFALL_TOO_LARGE} | {never}"));
}

/// What a figure was in the last version before CR 5, and what it is in the first one since then.
fn by_versions(was: impl Display, is: impl Display) -> String {
    format!("version {}: {was}; version {VERSION_DEBTS}: {is}", VERSION_DEBTS - 1)
}

/// "Earlier meanings": how the meaning of a figure or an image is told.
fn add_told_apart(figures: &mut Figures) {
    let (last, first) = (VERSION_DEBTS - 1, VERSION_DEBTS);
    let old = before_cr_5(&request_d(SLOT_D, 0));
    let back = left_at(SLOT_D).after(&request_b(SLOT_D, 0));
    let which = format!("beside it: up to {last} the earlier one, from {first} on today's");
    figures.phrase(EARLIER, format!("logged {which}"));
    let stands = by_versions(told(&old, SLOT_D), told(&back, SLOT_D));
    let stands = format!("the script, id {VALVE}, slot {SLOT_D}: {stands}");
    figures.cell(EARLIER, "a figure of the column, a standing", stands);
    figures.phrase(EARLIER, format!("stored {which}"));
    figures.phrase(EARLIER, "a kept shortfall other than 0 for an id whose period is 0");
    let left = left_at(SLOT_D).present();
    let [was, is] = [forgetful(&left), left].map(|timetable| owed_bytes(&timetable));
    let owed = format!("id {VALVE} left out at slot {SLOT_D}, {}", by_versions(was, is));
    figures.cell(EARLIER, "an image", owed);
}

/// "Earlier meanings": what an answer tells of the meaning, and what the column does by itself.
fn add_told_by_answers(figures: &mut Figures) {
    let (first, behind) = (VERSION_DEBTS, SHORTFALL_TOO_LARGE);
    let (d, leaves) = (request_d(SLOT_D, 0), request_left(SLOT_D, 0));
    let row = format!("an {behind} whose place was not listed before");
    figures.phrase(EARLIER, format!("| {row} | version {first} or later"));
    let at = |run: &Run| {
        let Outcome { number, place, .. } = outcome(run, &d);
        format!("{number} at {place}")
    };
    let second = by_versions(at(&after_before_cr_5(&run_b(), &leaves)), at(&left_at(SLOT_D)));
    figures.cell(EARLIER, row, format!("the script's second request: {second}"));
    let answer = code(&answered(&run_b(), &leaves).1);
    let row = "a request, an answer record, any other line of the program";
    figures.cell(EARLIER, row, format!("the script's first answer: {answer} in all versions"));
    let none = told(&before_cr_5(&d), SLOT_D);
    figures.phrase(EARLIER, format!("its request slot says {none} by the earlier meaning"));
    figures.phrase(EARLIER, format!("Where that is {none} too"));
}

/// The bytes of an image that hold what the valve is owed at the base.
fn owed_bytes(timetable: &Timetable) -> String {
    let mut other = *timetable;
    other.entries[usize::from(VALVE)].shortfall ^= u16::MAX;
    let (image, other) = (image_of(timetable), image_of(&other));
    let differ: Vec<usize> = (0..image.len()).filter(|&at| image[at] != other[at]).collect();
    let (at, last) = (differ[0], differ[differ.len() - 1]);
    format!("bytes {at} to {last}: {}", code(&image[at..=last]))
}

/// "Earlier meanings": where the two differ.
fn add_differs(figures: &mut Figures) {
    figures.phrase(EARLIER, "that left with a shortfall above 0 and returned");
    figures.phrase(EARLIER, "or left with 0 each time");
    figures.phrase(EARLIER, "at the latest where today's is 0");
    let old = before_cr_5(&request_d(SLOT_D, 0));
    let more = (SLOT_D..LAST_SHOWN + 1).map(|slot| {
        old.shortfall(VALVE, slot) - i64::from(standing_query(&old.present(), VALVE, slot).1)
    });
    let (left, more) = (left_at(SLOT_D).shortfall(VALVE, SLOT_D), list(in_turn(more)));
    let differ = format!("the figures differ by {more} in each slot");
    figures.phrase(EARLIER, format!("In the script it left with {left}, and {differ}"));
    let behind = outcome(&left_at(SLOT_D), &request_d(SLOT_D, 0)).number;
    let accepted = format!("version {} accepted", VERSION_DEBTS - 1);
    figures.phrase(EARLIER, format!("{accepted} what is refused {behind} today"));
}

/// "Earlier meanings": what is put again, and images of before CR 5.
fn add_again(figures: &mut Figures) {
    let (last, first, short) = (VERSION_DEBTS - 1, VERSION_DEBTS, VERSION_AS_BEFORE);
    figures.phrase(EARLIER, format!("What versions {short} and {last} gave"));
    figures.phrase(EARLIER, "is set to 0 for each id that is not listed");
    figures.phrase(EARLIER, format!("(Up to version {} a short field asked R 1", short - 1));
    let reads = format!("An image of version {last} is sound for version {first}");
    figures.phrase(EARLIER, format!("{reads}, and says 0 for each id"));
    let holds = format!("One of version {first} that holds a debt");
    figures.phrase(EARLIER, format!("{holds} is refused {NOT_SOUND} by version {last}"));
}
