//! Where standing queries are answered, slot by slot of the transition and from the base on; how many
//! of them tell a wrong program; and how many whole transitions are swept.

use crate::counts::{add, row, rule};
use crate::numbers::{ACCEPTED, TOO_EARLY};
use crate::probe::{timetable_of, Probe, Reply};
use crate::probes::Origin;
use crate::timetable::{Timetable, LONGEST_TRANSITION};

/// The classes of standing queries by their slot, with the last transition slot of each.
const SLOTS: [(&str, usize); 6] = [
    ("transition slot 0", 0),
    ("transition slots 1 to 3", 3),
    ("transition slots 4 to 15", 15),
    ("transition slots 16 to 31", 31),
    ("transition slots 32 to 62", 62),
    ("transition slot 63", 63),
];
/// The rows of the table: the classes of transition slots, and those beside them.
const BASE: usize = SLOTS.len();
const LATER: usize = BASE + 1;
const ROWS: usize = LATER + 1;

/// Standing queries that are answered in a class, those among them that would have other slices if
/// these counted from the base, and those that would have another shortfall if it were the base's.
#[derive(Clone, Copy, Debug, Default)]
pub struct Answered {
    pub all: u64,
    pub other_slices: u64,
    pub other_shortfall: u64,
}

/// Standing queries by their slot, and transitions that are swept as a whole.
#[derive(Debug)]
pub struct StandingCounts {
    pub answered: [Answered; ROWS],
    pub by_slot: [u64; LONGEST_TRANSITION],
    pub too_early: u64,
    pub whole: [u64; 2],
    swept: Option<(Vec<u8>, u64)>,
}

impl Default for StandingCounts {
    fn default() -> StandingCounts {
        StandingCounts {
            answered: [Answered::default(); ROWS],
            by_slot: [0; LONGEST_TRANSITION],
            too_early: 0,
            whole: [0; 2],
            swept: None,
        }
    }
}

impl StandingCounts {
    /// A standing query is counted if it is answered, or refused because it is too early.
    pub fn count(&mut self, origin: Origin, probe: &Probe, reply: &Reply) {
        let (Probe::Standing { image, id, slot }, &Reply::Standing { number, shortfall, slices }) =
            (probe, reply)
        else {
            return;
        };
        let Some(timetable) = timetable_of(image) else { return };
        self.too_early += u64::from(number == TOO_EARLY);
        if number == ACCEPTED {
            self.count_answer(&timetable, usize::from(*id), *slot, (shortfall, slices));
            self.count_sweep(origin, &timetable, image, *slot);
        }
    }

    /// An answer is counted by its slot, and by what the wrong programs would tell there.
    fn count_answer(&mut self, timetable: &Timetable, id: usize, slot: u64, told: (u16, u64)) {
        let passed = (slot - timetable.request_slot) as usize;
        let class = class(timetable, slot);
        let (shortfall, slices) = told;
        let own = |owner: &&u8| usize::from(**owner) == id;
        let in_transition = timetable.transition().iter().take(passed).filter(own).count() as u64;
        let other_slices = if class < BASE { slices > 0 } else { in_transition > 0 };
        let other_shortfall = class < BASE && shortfall != timetable.entries[id].shortfall;
        let answered = &mut self.answered[class];
        answered.all += 1;
        answered.other_slices += u64::from(other_slices);
        answered.other_shortfall += u64::from(other_shortfall);
        if class < BASE {
            add(&mut self.by_slot, passed);
        }
    }

    /// Answers at one slot after the other of an image are a sweep, and whole at the base.
    fn count_sweep(&mut self, origin: Origin, timetable: &Timetable, image: &[u8], slot: u64) {
        let goes_on = |(before, last): &(Vec<u8>, u64)| before == image && last + 1 == slot;
        let first = slot == timetable.request_slot;
        if timetable.length > 0 && (first || self.swept.as_ref().is_some_and(goes_on)) {
            self.swept = Some((image.to_vec(), slot));
            let whole = slot == timetable.base;
            self.whole[usize::from(origin != Origin::SweptReached)] += u64::from(whole);
        } else {
            self.swept = None;
        }
    }

    /// The fewest answers at some transition slot.
    pub fn least(&self) -> u64 {
        self.by_slot.iter().copied().min().unwrap_or(0)
    }

    /// The table by slots, then the least at some transition slot and the whole transitions.
    pub fn tables(&self) -> String {
        let names = SLOTS.map(|(name, _)| name).into_iter().chain(["the base", "later"]);
        let head = [
            "Standing at",
            "Answered",
            "Slices from the base differ",
            "The base's shortfall differs",
        ];
        let mut rows = vec![row(&head), rule(head.len())];
        for (name, answered) in names.zip(&self.answered) {
            let figures = [answered.all, answered.other_slices, answered.other_shortfall];
            let cells = [vec![name.to_string()], figures.map(|figure| figure.to_string()).to_vec()];
            rows.push(row(&cells.concat()));
        }
        let [reached, built] = self.whole;
        rows.push(format!(
            "\nAt each transition slot answered at least: {}. Refused 6: {}. Whole transitions: {reached} \
             as histories reached them, {built} of any sound timetable.\n",
            self.least(),
            self.too_early
        ));
        rows.concat()
    }
}

/// The class of a slot from the request slot on.
fn class(timetable: &Timetable, slot: u64) -> usize {
    match slot {
        slot if slot < timetable.base => {
            let passed = (slot - timetable.request_slot) as usize;
            SLOTS.iter().position(|&(_, last)| passed <= last).unwrap_or(0)
        }
        slot if slot == timetable.base => BASE,
        _ => LATER,
    }
}
