//! The figures of the pictures that the command draws: for each change the slots around it, and how
//! each id stands in those in which it is listed.

use crate::queries::{owner_query, standing_query};
use crate::run::Run;
use crate::slots::next_shortfall;
use crate::timetable::{IDS, LAST_SLOT};
use std::ops::Range;

/// The slots that are drawn of a change: so many before its request slot, and so many from its base on.
#[derive(Clone, Copy)]
pub struct Around {
    pub before: u64,
    pub after: u64,
}

/// A line for each id and slot that is drawn of a request: ordinal, slot, id, shortfall, slices, bound,
/// whether it is its own slot, and the shortfall if the count had begun anew at the request slot. A
/// request that is refused, or draws no figure, says so.
pub fn request_lines(run: &mut Run, ordinal: u64, request: &[u8], around: Around) -> String {
    let accepted = run.count();
    *run = run.after(request);
    let present = run.present();
    let first = present.request_slot.saturating_sub(around.before);
    let last = (present.base + around.after).min(LAST_SLOT + 1);
    let ids = (0..IDS as u8).filter(|_| run.count() > accepted);
    let lines: Vec<String> = ids.flat_map(|id| id_lines(run, ordinal, id, first..last)).collect();
    if lines.is_empty() {
        return format!("request {ordinal} draws no figure");
    }
    lines.join("\n")
}

/// The lines of an id in some slots, if it is listed there.
fn id_lines(run: &Run, ordinal: u64, id: u8, slots: Range<u64>) -> Vec<String> {
    let line = |slot| {
        let timetable = run.in_force(slot);
        let own = u8::from(owner_query(&timetable, slot).1 == id);
        let (number, shortfall, slices) = standing_query(&timetable, id, slot);
        let bound = timetable.entries[usize::from(id)].bound;
        let before = slot < run.present().request_slot;
        let anew = if before { i64::from(shortfall) } else { begun_anew(run, id, slot) };
        let told = format!("{ordinal} {slot} {id} {shortfall} {slices} {bound} {own} {anew}");
        (number == 0).then_some(told)
    };
    slots.filter_map(line).collect()
}

/// What an id's shortfall would be if its count had begun at 0 at the last accepted request slot: the
/// slots from there on pass one by one.
pub fn begun_anew(run: &Run, id: u8, slot: u64) -> i64 {
    (run.present().request_slot..slot).fold(0, |shortfall, passed| {
        next_shortfall(shortfall, run.weight(id, passed), run.owner(passed) == id)
    })
}
