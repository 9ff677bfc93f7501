//! The figures of docs/DICTIONARY.md that are the service screen's: the two kept shortfalls, what the
//! standing query tells slot by slot through a change, and what CR 4 ended.

use crate::built::led_to;
use crate::cases::request_short;
use crate::figures::{aligned, in_turn, list, list_and, thousands, Figures};
use crate::numbers::{ACCEPTED, NOT_SOUND, TOO_EARLY};
use crate::probe::IMAGE;
use crate::queries::standing_query;
use crate::records::TAG_OWNERS;
use crate::run::Run;
use crate::timetable::{Share, Timetable, CYCLE, DEBT_LIMIT};
use crate::worked::{
    answer_b, asked, bytes_longer, carried_over, forgetful, ids, left_at, mark, name,
    own_in_transition, run_a, run_b, share, DETECTOR, LINK, PUMP_LOOP, SLOT_D, VALVE,
    VERSION_STANDING,
};
use std::mem::size_of_val;
use std::ops::Range;

/// The figures of each part.
pub fn add_to(figures: &mut Figures) {
    add_through_b(figures);
    add_longer(figures);
    add_anew(figures);
    add_ended(figures);
    add_converted(figures);
    add_blank(figures);
    add_old_image(figures);
}

/// The sections on the screen, and on what changes of the rules moved.
const SCREEN: &str = "Standing during a change";
const EARLIER: &str = "Earlier meanings";

/// The ids that a timetable lists.
fn listed(timetable: &Timetable) -> Vec<u8> {
    ids(&timetable.listing())
}

/// The kept shortfalls of the ids that a timetable lists: at the request slot, and at the base.
pub fn kept(timetable: &Timetable) -> [Vec<u16>; 2] {
    let of = |figure: &dyn Fn(usize) -> u16| -> Vec<u16> {
        listed(timetable).into_iter().map(|id| figure(usize::from(id))).collect()
    };
    [of(&|id| timetable.starts[id]), of(&|id| timetable.entries[id].shortfall)]
}

/// "Figures of a timetable": the two kept shortfalls of case B, and of a change of length 0.
pub fn add_kept(figures: &mut Figures, section: &str) {
    let b = run_b().present();
    let [starts, ends] = kept(&b);
    let unit = format!("{CYCLE}ths of a slot");
    figures.phrase(section, format!("or what it is owed while it is not listed | {unit}"));
    figures.cell(section, "kept shortfall at the request slot, the start", list(&starts));
    figures.phrase(section, format!("the same as at the request slot | {unit}"));
    figures.cell(section, "kept shortfall at the base", list(&ends));
    let leads = list(listed(&b).into_iter().map(|id| {
        let start = b.starts[usize::from(id)];
        format!("{start} to {}", led_to(&b, usize::from(id), start))
    }));
    let slots = list(b.request_slot..b.base);
    figures.phrase(section, format!("leads to the second (B, over slot {slots}: {leads})"));
    let slot = b.base + 1;
    let short = run_b().after(&request_short(slot, 0)).present();
    figures.phrase(section, format!("With length {} request slot and base", short.length));
    let both = kept(&short).map(list).join(" and ");
    figures.phrase(section, format!("(D with a short field, at slot {slot}: {both})"));
    let left = left_at(SLOT_D).present();
    let owed = [left.starts[usize::from(VALVE)], left.entries[usize::from(VALVE)].shortfall];
    let (at, below) = (left.request_slot, thousands(usize::from(DEBT_LIMIT)));
    let owes = format!("(B, then id {VALVE} left out at slot {at}: {})", list_and(owed));
    figures.phrase(section, format!("and it is below {below} {owes}"));
}

/// How an id stands at a slot, in words.
pub fn standing(timetable: &Timetable, id: u8, slot: u64) -> String {
    let (_, owed, had) = standing_query(timetable, id, slot);
    format!("slot {slot}: {owed}, {had} {}", if had == 1 { "slice" } else { "slices" })
}

/// What the screen shows in some slots: who has each, and how each listed id stands at its start.
fn screen(run: &Run, slots: Range<u64>) -> String {
    let timetable = run.present();
    let told = |id: u8, figure: fn((u8, u16, u64)) -> u64| -> Vec<String> {
        slots.clone().map(|slot| figure(standing_query(&timetable, id, slot)).to_string()).collect()
    };
    let mut rows = vec![
        (String::from("slot"), slots.clone().map(|slot| slot.to_string()).collect()),
        (String::from("owner"), slots.clone().map(|slot| mark(run, slot)).collect()),
    ];
    for id in listed(&timetable) {
        rows.push((format!("{}, shortfall", name(id)), told(id, |it| u64::from(it.1))));
        rows.push((format!("{}, slices", name(id)), told(id, |it| it.2)));
    }
    let rows: Vec<(&str, Vec<String>)> =
        rows.iter().map(|(label, row)| (&label[..], row.clone())).collect();
    aligned(&rows, 0)
}

/// "Standing during a change": case B.
fn add_through_b(figures: &mut Figures) {
    let (run, b) = (run_b(), run_b().present());
    let Timetable { request_slot, base, .. } = b;
    let own = run.own_slots(DETECTOR, base..base + CYCLE as u64).first().copied().unwrap_or(0);
    let slots = format!("whose request slot is {request_slot} and whose base is {base}");
    figures.phrase(SCREEN, slots);
    figures.block("the screen through B", screen(&run, request_slot..own + 2));
    let told = |id: u8, slot: u64| standing_query(&b, id, slot);
    let starts = list_and(listed(&b).into_iter().map(|id| told(id, request_slot).1));
    let ones = "the shortfalls are the kept ones at the request slot";
    figures.phrase(SCREEN, format!("At slot {request_slot} {ones}, {starts}, and nobody"));
    let (_, owed, had) = told(DETECTOR, base);
    let goes = format!("Slot {} goes to the {}", list(request_slot..base), names(b.transition()));
    let stands = format!("at slot {base} it stands at {owed} with {had} slice");
    figures.phrase(SCREEN, format!("{goes}: {stands}"));
    let others = [PUMP_LOOP, VALVE].map(|id| told(id, base).1);
    figures.phrase(SCREEN, format!("one slot more, and stand at {}", list_and(others)));
    let later = format!("is {} at slot {}", told(DETECTOR, own + 1).2, own + 1);
    figures.phrase(SCREEN, format!("goes on from {had}, and {later}, behind its next slot, {own}"));
}

/// Ids by their names.
fn names(ids: &[u8]) -> String {
    list_and(ids.iter().map(|&id| name(id)))
}

/// "Standing during a change": a change with a longer transition, and what it asks.
fn add_longer(figures: &mut Figures) {
    let (asked, run) = (asked(&bytes_longer()), run_b().after(&bytes_longer()));
    let shares = |ids: &[u8]| {
        in_turn(ids.iter().map(|&id| {
            let Share { period, bound } = share(&asked.listing, id);
            (period, bound)
        }))
    };
    let with = |ids: &[u8], joint: &str| {
        let each = shares(ids).into_iter();
        list(each.map(|(period, bound)| format!("in {period} {joint} R {bound}")))
    };
    let at = format!("After B, at slot {} with T {}", asked.slot, asked.longest);
    let pump = format!("the pump loop asks for one slot {}", with(&[PUMP_LOOP], "with"));
    let both = with(&[DETECTOR, VALVE], "with");
    let both = format!("the detector and the valve for one {both}");
    let link = format!("the link, id {LINK}, joins with one {}", with(&[LINK], "and"));
    figures.phrase(SCREEN, format!("{at}: {pump}, {both}, and {link}"));
    let longer = run.present();
    let Timetable { request_slot, base, length, .. } = longer;
    figures.phrase(SCREEN, format!("Lengths 0 to {} have no schedule", length - 1));
    let (slots, owners) = (list_and(request_slot..base), list_and(longer.transition()));
    let those = format!("the base is slot {base}, and slots {slots} are those of ids {owners}");
    figures.phrase(SCREEN, format!("Length {length} has one: {those}"));
    let block = screen(&run, request_slot..base + 5);
    figures.block("the screen through a longer transition", block);
}

/// "Standing during a change": where the counts begin, and what the link brings to the base.
fn add_anew(figures: &mut Figures) {
    let (before, longer) = (run_b().present(), run_b().after(&bytes_longer()).present());
    let Timetable { request_slot, base, .. } = longer;
    figures.phrase(SCREEN, format!("All counts begin anew at slot {request_slot}, the request"));
    let had = |id: u8| standing_query(&before, id, request_slot).2;
    let (of, ids) = (list_and(listed(&before).into_iter().map(had)), list_and(listed(&before)));
    let told = format!("B's timetable tells {of} for ids {ids}");
    let up_to = format!("which B's slots up to {} gave", request_slot - 1);
    figures.phrase(SCREEN, format!("(At its start {told}, {up_to}.)"));
    figures.phrase(SCREEN, "a count grows by 1 behind each slot");
    let link = |slot: u64| standing_query(&longer, LINK, slot).1;
    let joins = format!("it joins with {}, waits three slots", link(request_slot));
    figures.phrase(SCREEN, format!("{joins}, and comes to the base with {}", link(base)));
    figures.phrase(SCREEN, format!("A {TOO_EARLY} says that the slot lies before"));
}

/// The bytes of an image before CR 4: those of today without the starts.
fn image_before() -> usize {
    IMAGE - size_of_val(&Timetable::empty().starts)
}

/// "Earlier meanings": what CR 4 moved, and case B by both counts.
fn add_ended(figures: &mut Figures) {
    let last = VERSION_STANDING - 1;
    figures.phrase(EARLIER, format!("stored up to version {last} is read by these"));
    figures.phrase(EARLIER, format!("| {TOO_EARLY}, a standing query | the slot is before"));
    let was = image_before();
    let image = format!("{was} bytes, without the kept shortfalls at the request slot");
    let today = format!("{IMAGE} bytes, the first {was} as before");
    figures.phrase(EARLIER, format!("| image in C | {image} | {today} |"));
    let (b, slot) = (run_b().present(), behind_own());
    let (old, new) = (format!("a version up to {last}"), format!("a version from {} on", last + 1));
    let had = |timetable: &Timetable| standing_query(timetable, DETECTOR, slot).2;
    let told = |had: u64| format!("B, id {DETECTOR}, slot {slot}: {had}");
    figures.phrase(EARLIER, format!("| {old} | the base |"));
    figures.cell(EARLIER, old, told(had(&carried_over(&b))));
    figures.phrase(EARLIER, format!("| {new} | the request slot |"));
    figures.cell(EARLIER, new, told(had(&b)));
}

/// The slot behind the detector's first cyclic slot in case B.
fn behind_own() -> u64 {
    let base = run_b().present().base;
    let own = run_b().own_slots(DETECTOR, base..base + CYCLE as u64);
    own.first().map_or(base, |own| own + 1)
}

/// "Earlier meanings": how a number of slices from before CR 4 becomes one of today.
fn add_converted(figures: &mut Figures) {
    let (b, record) = (run_b().present(), answer_b().1);
    figures.phrase(EARLIER, format!("(field {TAG_OWNERS:x}; "));
    let none = own_in_transition(&[], DETECTOR);
    figures.phrase(EARLIER, format!("it is {none} for a transition of length {none}, and never"));
    let (own, others): (Vec<u8>, Vec<u8>) =
        listed(&b).into_iter().partition(|&id| own_in_transition(&record, id) > 0);
    let added = |ids: &[u8]| list(in_turn(ids.iter().map(|&id| own_in_transition(&record, id))));
    let of_own = format!("for id {} it is {}", list_and(&own), added(&own));
    let of_others = format!("for ids {} it is {}", list_and(&others), added(&others));
    let owners = format!("B's owners are {}", list(b.transition()));
    figures.phrase(EARLIER, format!("{owners}: {of_own}, {of_others}"));
    figures.phrase(EARLIER, format!("Id {DETECTOR}, by both counts"));
    let (last, first) = (VERSION_STANDING - 1, VERSION_STANDING);
    let (old, new) = (format!("up to version {last}"), format!("from version {first} on"));
    let (before, after) = (old.len(), new.len());
    let row = |slot: u64| {
        let (number, _, had) = standing_query(&carried_over(&b), DETECTOR, slot);
        let (was, added) = match number {
            ACCEPTED => (had.to_string(), own_in_transition(&record, DETECTOR).to_string()),
            _ => (format!("refused {number}"), String::from("-")),
        };
        let today = standing_query(&b, DETECTOR, slot).2;
        format!("{slot:>4}  {was:>before$}  {added:>5}  {today:>after$}")
    };
    let head = format!("slot  {old}  added  {new}");
    let slots = b.request_slot..behind_own() + 1;
    let rows: Vec<String> = [head].into_iter().chain(slots.map(row)).collect();
    figures.block("slices before CR 4 and today", rows.join("\n"));
}

/// "Earlier meanings": a standing query that was refused in a transition.
fn add_blank(figures: &mut Figures) {
    let (a, b) = (run_a().present(), run_b().present());
    let number = standing_query(&carried_over(&b), DETECTOR, b.request_slot).0;
    figures.phrase(EARLIER, format!("*An old {number}.*"));
    let told = |id: u8| standing_query(&a, id, b.request_slot).1;
    let before = list_and([told(PUMP_LOOP), told(DETECTOR)]);
    let joins = standing_query(&b, VALVE, b.request_slot).1;
    let joins = format!("an id that was not listed before began at {joins}");
    figures.phrase(EARLIER, format!("before the change (B: {before}; {joins})"));
    let (first, last) = (VERSION_STANDING, VERSION_STANDING - 1);
    let none = format!("No version from {first} on gives such a {number}");
    figures.phrase(EARLIER, format!("{none}, and none up to {last} told"));
}

/// "Earlier meanings": an image from before CR 4.
fn add_old_image(figures: &mut Figures) {
    let was = image_before();
    let mean = format!("Its {was} bytes mean what the first {was} of an image mean today");
    figures.phrase(EARLIER, mean);
    let absent = forgetful(&left_at(SLOT_D).present()).starts[usize::from(VALVE)];
    figures.phrase(EARLIER, format!("but that an id that is not listed has {absent} there"));
    figures.phrase(EARLIER, format!("every function refuses them {NOT_SOUND}"));
    let (last, first) = (VERSION_STANDING - 1, VERSION_STANDING);
    figures.phrase(EARLIER, format!("\"From version {last} to version {first}\""));
}
