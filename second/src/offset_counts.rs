//! In which part of a cycle offsets stand, how far below their last offset they were found, and what
//! two wrong programs would place; and in which part timetables of probes share their first slot. A
//! part has 64 slots, as many as the library marks in one word.

use crate::counts::{add, class_table};
use crate::slots::{last_offset, own_slots};
use crate::timetable::{Timetable, CYCLE, IDS};

/// The slots of a part.
const PART: usize = 64;
/// The parts of a cycle.
const PARTS: [&str; CYCLE / PART] = ["0 to 63", "64 to 127", "128 to 191", "192 to 255"];
/// The classes of offsets by their last offset.
const FOUND: [&str; 3] = ["at the last offset", "lower, in its part", "in a lower part"];
/// The wrong programs, docs/RULES.md 12.29 and 12.30.
const WRONG: [&str; 2] = ["that marks one slot less", "that finds the offset above the last one"];

/// A listed partition as rule 4 meets it: its period, last offset and id.
pub type Demand = (u16, u16, usize);

/// Offsets by their part and by their last offset, timetables that wrong programs would place
/// otherwise, and timetables that share a slot.
#[derive(Debug, Default)]
pub struct OffsetCounts {
    pub parts: [u64; PARTS.len()],
    pub found: [u64; FOUND.len()],
    pub wrong: [u64; WRONG.len()],
    pub shared: [u64; PARTS.len()],
}

impl OffsetCounts {
    /// The timetable of an accepted request is counted.
    pub fn count(&mut self, timetable: &Timetable) {
        let demands = demands(timetable);
        let offset_of = |id: usize| u16::from(timetable.entries[id].offset);
        for &(_, last, id) in &demands {
            let offset = offset_of(id);
            let (part, part_of_last) = (usize::from(offset) / PART, usize::from(last) / PART);
            let lower = usize::from(offset < last) + usize::from(part < part_of_last);
            add(&mut self.parts, part);
            add(&mut self.found, lower);
        }
        let offsets: Vec<u16> = demands.iter().map(|&(_, _, id)| offset_of(id)).collect();
        let wrong = [placed(&demands, 1, 0), placed(&demands, 0, 1)];
        for (class, _) in wrong.iter().enumerate().filter(|(_, wrong)| **wrong != offsets) {
            add(&mut self.wrong, class);
        }
    }

    /// A timetable in which two partitions share a slot is counted by the first such slot.
    pub fn count_shared(&mut self, timetable: &Timetable) {
        let mut served = [0; CYCLE];
        for entry in timetable.entries.iter().filter(|entry| entry.listed()) {
            own_slots(u16::from(entry.offset), entry.period).for_each(|slot| served[slot] += 1);
        }
        if let Some(slot) = served.iter().position(|&times| times > 1) {
            add(&mut self.shared, slot / PART);
        }
    }

    /// The least that some class of accepted requests has.
    pub fn least(&self) -> u64 {
        let all = self.parts.iter().chain(&self.found).chain(&self.wrong);
        all.copied().min().unwrap_or(0)
    }

    /// The tables; that of shared slots where timetables are given, and not reached.
    pub fn tables(&self, reached: bool) -> String {
        let mut tables = vec![
            class_table("Offset", &PARTS, &self.parts),
            class_table("Offset found", &FOUND, &self.found),
            class_table("Placed otherwise by a program", &WRONG, &self.wrong),
        ];
        if !reached {
            tables.push(class_table("First shared slot, alone", &PARTS, &self.shared));
        }
        tables.join("\n")
    }
}

/// The demands of a timetable's listed partitions at its base, in rule 4's order.
pub fn demands(timetable: &Timetable) -> Vec<Demand> {
    let listing = timetable.listing();
    let demand = |id: usize| {
        let share = listing[id]?;
        let shortfall = i64::from(timetable.entries[id].shortfall);
        Some((share.period, last_offset(shortfall, share), id))
    };
    let mut demands: Vec<Demand> = (0..IDS).filter_map(demand).collect();
    demands.sort_unstable();
    demands
}

/// The offsets that a program finds which marks so many slots less of each offset, and looks so far
/// above the last offset; those before the first demand for which it finds none.
pub fn placed(demands: &[Demand], less: usize, above: u16) -> Vec<u16> {
    let mut taken = [false; CYCLE];
    let mut offsets = Vec::new();
    for &(period, last, _) in demands {
        let highest = (last + above).min(period - 1);
        let free = |offset: &u16| !taken[usize::from(*offset)];
        let Some(offset) = (0..=highest).rev().find(free) else { break };
        let marked = own_slots(offset, period).count().saturating_sub(less);
        own_slots(offset, period).take(marked).for_each(|slot| taken[slot] = true);
        offsets.push(offset);
    }
    offsets
}
