//! How often ids leave in debt, return with it, and are refused for it; and which timetables of probes
//! hold the debt of an id that is not listed, up to the largest and beyond.

use crate::change::{Outcome, Request};
use crate::counts::{add, class_table};
use crate::debts::{absent_in_debt, owed_at};
use crate::generate::Left;
use crate::numbers::{ACCEPTED, SHORTFALL_TOO_LARGE};
use crate::records::read_request;
use crate::timetable::{Timetable, CYCLE, DEBT_LIMIT, IDS};

/// The classes of ids that leave or return in an accepted request. Where no history is followed, it is
/// not known for which slot an id left.
const IDS_OF: [&str; 5] = [
    "left in debt",
    "returned in debt",
    "returned in debt of a whole slot or more",
    "returned in debt for the slot that it left for",
    "returned in debt of a whole slot or more for the slot that it left for",
];
/// The classes of refusals 8 by the id that they name.
const BEHIND: [&str; 3] = ["listed", "returning, by its R", "returning, by a short field"];
/// The classes of timetables with a debt of an id that is not listed.
const IMAGES: [&str; 4] = [
    "sound, some debt",
    "sound, a debt of 2,047",
    "not sound, 2,048 at the request slot and at the base",
    "not sound, two debts of one id",
];

/// Ids that leave and return in debt, refusals 8, and timetables with debts.
#[derive(Debug, Default)]
pub struct DebtCounts {
    pub ids: [u64; IDS_OF.len()],
    pub behind: [u64; BEHIND.len()],
    pub images: [u64; IMAGES.len()],
}

impl DebtCounts {
    /// A request's outcome is counted if it is accepted or refused 8.
    pub fn count(&mut self, timetable: &Timetable, left: &Left, record: &[u8], outcome: &Outcome) {
        let Ok(read) = read_request(record) else { return };
        match outcome.number {
            ACCEPTED => {
                self.count_left(timetable, &outcome.timetable);
                let request = Request::in_full(&read, timetable);
                self.count_returned(timetable, left, &request);
            }
            SHORTFALL_TOO_LARGE => {
                let id = outcome.place as usize;
                let short = read.asks[id].is_some_and(|ask| ask.bound.is_none());
                let class = if timetable.entries[id].listed() { 0 } else { 1 + usize::from(short) };
                add(&mut self.behind, class);
            }
            _ => (),
        }
    }

    /// The ids that were listed and are not, and are owed something.
    fn count_left(&mut self, before: &Timetable, after: &Timetable) {
        let left = |&id: &usize| before.entries[id].listed();
        self.ids[0] += absent_in_debt(after).into_iter().filter(left).count() as u64;
    }

    /// The ids that were not listed and are, and are owed something.
    fn count_returned(&mut self, timetable: &Timetable, left: &Left, request: &Request) {
        let returns = |&id: &usize| request.listing[id].is_some();
        for id in absent_in_debt(timetable).into_iter().filter(returns) {
            let whole = owed_at(timetable, request.slot)[id] >= CYCLE as i64;
            let at_once = left.slot(id) == Some(request.slot);
            self.ids[1] += 1;
            self.ids[2] += u64::from(whole);
            self.ids[3] += u64::from(at_once);
            self.ids[4] += u64::from(whole && at_once);
        }
    }

    /// A probe's timetable is counted by the debts of those that are not listed.
    pub fn count_image(&mut self, timetable: &Timetable) {
        let entries = &timetable.entries;
        let absent = || (0..IDS).filter(|&id| !entries[id].listed());
        let debts = |id: usize| (timetable.starts[id], entries[id].shortfall);
        let holds = |debt: u16| absent().any(|id| debts(id) == (debt, debt));
        let sound = timetable.sound();
        let classes = [
            sound && !absent_in_debt(timetable).is_empty(),
            sound && holds(DEBT_LIMIT - 1),
            !sound && holds(DEBT_LIMIT),
            !sound && absent().map(debts).any(|(start, shortfall)| start != shortfall),
        ];
        for (class, _) in classes.iter().enumerate().filter(|(_, counts)| **counts) {
            add(&mut self.images, class);
        }
    }

    /// The tables: ids and refusals 8; with the slots that ids left for where a history is followed, and
    /// else with the timetables.
    pub fn tables(&self, followed: bool) -> String {
        let ids = if followed { IDS_OF.len() } else { IDS_OF.len() - 2 };
        let mut tables = vec![
            class_table("Id of an accepted request", &IDS_OF[..ids], &self.ids[..ids]),
            class_table("8 names an id", &BEHIND, &self.behind),
        ];
        if !followed {
            tables.push(class_table("Debt of an id that is not listed", &IMAGES, &self.images));
        }
        tables.join("\n")
    }
}
