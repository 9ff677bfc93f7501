//! The figures of docs/WORKED.md: cases A and B, from their bytes to their lines.

use crate::archive::read_answer;
use crate::cases::request_a;
use crate::change::AREA;
use crate::figures::{code, hexadecimal, list, list_and, Figures};
use crate::frames::frame;
use crate::records::{longest_field, slot_field, HEAD};
use crate::screen::{kept, standing};
use crate::slots::room;
use crate::timetable::{Listing, CYCLE};
use crate::worked::{
    answer_b, asked_a, asked_b, asking_b, bytes_b, ids, lines_of, offsets, run_a, run_b, share,
    shortfalls, slots_block, DETECTOR, LAST_SHOWN, PUMP_LOOP, VALVE,
};

/// The figures of both documents.
pub fn add_to(figures: &mut Figures) {
    figures.block("lines of A and B", lines().join("\n"));
    figures.block("slots of A", slots_block(&run_a(), 7));
    figures.block("slots of A and B", slots_block(&run_b(), LAST_SHOWN));
    add_worked_change(figures);
    add_records(figures);
    add_reading(figures);
    add_search(figures);
    add_answer(figures);
    add_told(figures);
}

/// The lines that cases A and B are answered with.
fn lines() -> Vec<String> {
    lines_of(&[request_a(), bytes_b()])
}

/// One slot in each period, with a bound, of an id that is listed.
fn asks(listing: &Listing, id: u8, between: &str) -> String {
    let share = share(listing, id);
    format!("one slot in {}{between} with bound {}", share.period, share.bound)
}

/// "A worked change": what is asked, the shortfalls, and the schedule.
fn add_worked_change(figures: &mut Figures) {
    let section = "A worked change";
    let (a, b) = (run_a().present(), run_b().present());
    let (asked_a, asked_b) = (asked_a(), asked_b());
    let each = asks(&asked_a.listing, PUMP_LOOP, "");
    let (slot, first) = (asked_a.slot, list_and(ids(&asked_a.listing)));
    figures.phrase(section, format!("at slot {slot} for ids {first}, each {each}"));
    let offset = |id: u8| a.entries[usize::from(id)].offset;
    let (of_pump, of_detector) = (offset(PUMP_LOOP), offset(DETECTOR));
    let gets =
        format!("id {PUMP_LOOP} gets offset {of_pump} and id {DETECTOR} offset {of_detector}");
    figures.phrase(section, gets);
    let (slot, third) = (asked_b.slot, asks(&asked_b.listing, VALVE, ","));
    figures.phrase(section, format!("At slot {slot} a third id, {VALVE}, asks for {third}"));
    let there = list_and(shortfalls(&run_b(), &asked_b.listing, slot));
    figures.phrase(section, format!("shortfalls there are {there} {CYCLE}ths of a slot"));
    let (passed, urgent) = (list(0..b.length), list(b.transition()));
    figures.phrase(section, format!("from slot {slot} on, so length {passed} is passed over"));
    let (length, transition) = (b.length, list(b.request_slot..b.base));
    figures.phrase(section, format!("With length {length} the transition is slot {transition}"));
    figures.phrase(section, format!("which goes to id {urgent}, the most urgent"));
    let (base, placed) = (b.base, list_and(offsets(&b)));
    let from = format!("from the base, slot {base}, on offsets {placed} keep every bound");
    figures.phrase(section, from);
}

/// "Follow one request": the request as a script writes it, and the answer as the archive reads it.
fn add_records(figures: &mut Figures) {
    let section = "Follow one request";
    let (b, mut area) = (asking_b(), vec![0; bytes_b().len()]);
    let written = b.write(&mut area).2;
    let listing = format!("slot {}, T {}, {}", b.slot, b.longest, code(&b.listing));
    let row = "a script writes the request from a listing";
    figures.cell(section, row, format!("{listing}: {written} bytes"));
    let read = read_answer(&answer_b().1).unwrap_or_default();
    let (length, owners) = (read.owners.len(), list(&read.owners));
    let offsets = list(read.offsets.iter().flatten());
    let told = format!("length {length}, owners {owners}, offsets {offsets}");
    figures.cell(section, "the archive reads the answer record back", told);
}

/// "Follow one request": the frame, its fields, and the stages before the search.
fn add_reading(figures: &mut Figures) {
    let section = "Follow one request";
    let (bytes, asked) = (bytes_b(), asked_b());
    let head = code(&frame(&bytes)[..HEAD]);
    let holds = format!("{head}: {} bytes", bytes.len());
    figures.cell(section, "a frame holds the request", holds);
    let (slot, longest) = (slot_field(asked.slot), longest_field(asked.longest));
    let shares = slot.len() + longest.len();
    let shares = hexadecimal(&bytes[shares..=shares]);
    let shares = format!("`{shares} ..`: ids {}", list(ids(&asked.listing)));
    let (slot, longest) = (ends(&slot), ends(&longest));
    let fields = format!("{slot}: slot {}; {longest}: T {}; {shares}", asked.slot, asked.longest);
    figures.cell(section, "its fields are read", fields);
    let row = "the timetable is sound, the area long enough, the slot not before the base";
    figures.cell(section, row, format!("base {}, slot {}", run_a().present().base, asked.slot));
}

/// The first byte of a field and its last.
fn ends(field: &[u8]) -> String {
    format!("`{} .. {}`", hexadecimal(&field[..1]), hexadecimal(&field[field.len() - 1..]))
}

/// "Follow one request": the shortfalls, the rooms, the lengths and the placement.
fn add_search(figures: &mut Figures) {
    let section = "Follow one request";
    let (asked, b) = (asked_b(), run_b().present());
    let at_request = shortfalls(&run_b(), &asked.listing, asked.slot);
    let shares = ids(&asked.listing).into_iter().map(|id| share(&asked.listing, id));
    let rooms = list(at_request.iter().zip(shares).map(|(&owed, share)| room(owed, share)));
    figures.cell(section, "the shortfalls at the request slot", list(&at_request));
    let passed = list(0..b.length);
    figures.cell(
        section,
        "a length has no placement, and is passed over",
        format!("length {passed}"),
    );
    let urgent = list(b.transition());
    let goes = format!("rooms {rooms}: slot {} to id {urgent}", asked.slot);
    figures.cell(section, "the next slot goes to the most urgent", goes);
    let placed = format!("length {}: base {}, offsets {}", b.length, b.base, list(offsets(&b)));
    figures.cell(section, "a length has a placement", placed);
    figures.phrase(section, format!("at most {AREA} bytes"));
}

/// "Follow one request": the record, what is returned, and the line.
fn add_answer(figures: &mut Figures) {
    let section = "Follow one request";
    let (outcome, record) = answer_b();
    let written = format!("{} bytes: {}", outcome.written, code(&record));
    figures.cell(section, "the answer record is written", written);
    let returned = format!("{}, {}, {}", outcome.number, outcome.place, outcome.tries);
    figures.cell(section, "number, place, tries and the new timetable are returned", returned);
    let last = lines().pop().unwrap_or_default();
    figures.cell(section, "the line is printed", format!("`{last}`"));
}

/// "Follow one request": the kept shortfalls, and what the screen is told up to the base.
fn add_told(figures: &mut Figures) {
    let section = "Follow one request";
    let b = run_b().present();
    let row = "the new timetable keeps the shortfalls, at the request slot and at the base";
    figures.cell(section, row, kept(&b).map(list).join(" and "));
    let stands = (b.request_slot..=b.base).map(|slot| standing(&b, DETECTOR, slot));
    let stands: Vec<String> = stands.collect();
    let row = "the service screen asks how an id stands, in the transition too";
    figures.cell(section, row, format!("id {DETECTOR}, {}", stands.join("; ")));
}
