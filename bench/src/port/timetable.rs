//! The timetable of one core, its limits and its soundness.

use crate::cycle::Cycle;
use crate::entry::Entry;

/// Partitions have ids below this number.
pub const IDS: usize = 32;
/// A transition has at most this many slots.
pub const LONGEST: usize = 64;
/// A slot is counted in 256ths, and every period divides this many slots.
pub const WHOLE: u16 = 256;
/// No answer record is longer, and no answer area may be shorter.
pub const AREA: usize = 231;
/// The largest bound R.
pub const LARGEST_BOUND: u8 = 8;
/// The largest k of a period 2^k.
pub const LARGEST_K: u8 = 8;
/// The highest slot in a request or query.
pub const LAST_SLOT: u64 = (1 << 48) - 1;
/// The owner query's answer for an idle slot.
pub const IDLE: u8 = 255;

/// The request slot, the transition's length and owners, the base, and for each id an entry and the
/// shortfall at the request slot.
#[derive(Clone, Copy, Debug, PartialEq, Eq)]
pub struct Timetable {
    pub request: u64,
    pub length: u8,
    pub owners: [u8; LONGEST],
    pub base: u64,
    pub entries: [Entry; IDS],
    pub starts: [u16; IDS],
}

impl Timetable {
    /// Request slot 0, length 0, nothing listed and every shortfall 0.
    pub fn empty() -> Timetable {
        Timetable {
            request: 0,
            length: 0,
            owners: [0; LONGEST],
            base: 0,
            entries: [Entry::default(); IDS],
            starts: [0; IDS],
        }
    }

    /// Whether the timetable is sound.
    pub fn is_sound(&self) -> bool {
        let length = usize::from(self.length);
        self.request <= LAST_SLOT
            && length <= LONGEST
            && self.base == self.request + u64::from(self.length)
            && self.owners[..length].iter().all(|&owner| self.lists(owner))
            && self.owners[length..].iter().all(|&owner| owner == 0)
            && self.entries.iter().all(Entry::is_well_formed)
            && self.starts_fit()
            && self.walk_arrives()
            && self.shares_no_slot()
    }

    /// Whether an id is listed.
    pub fn lists(&self, id: u8) -> bool {
        self.entries.get(usize::from(id)).is_some_and(Entry::is_listed)
    }

    /// Whether each start is below 256 R, or where the id is not listed the shortfall at the base.
    fn starts_fit(&self) -> bool {
        let mut starts = self.entries.iter().zip(self.starts);
        starts.all(|(entry, start)| match entry.is_listed() {
            true => start < WHOLE * u16::from(entry.bound),
            false => start == entry.shortfall,
        })
    }

    /// Whether the transition leads from the starts to the shortfalls at the base. For each id stands
    /// the shortfall that it would have at the base without further own slots; an own slot takes 256
    /// off, down to what the slots after it add. Entries, starts and owners are in range.
    fn walk_arrives(&self) -> bool {
        let owners = &self.owners[..usize::from(self.length)];
        let weights = self.entries.map(|entry| if entry.is_listed() { entry.weight() } else { 0 });
        let mut reached = self.starts;
        for (shortfall, weight) in reached.iter_mut().zip(weights) {
            *shortfall += u16::from(self.length) * weight;
        }
        let mut left = u16::from(self.length);
        for &owner in owners {
            left -= 1;
            let id = usize::from(owner);
            reached[id] = reached[id].saturating_sub(WHOLE).max(left * weights[id]);
        }
        reached.iter().zip(&self.entries).all(|(reached, entry)| *reached == entry.shortfall)
    }

    /// A listed id's shortfall at a slot from the request slot on, and its slices since that slot.
    pub fn standing_at(&self, id: u8, slot: u64) -> (u16, u64) {
        let entry = &self.entries[usize::from(id)];
        if slot < self.base {
            return self.in_transition(id, (slot - self.request) as usize);
        }
        let owners = &self.owners[..usize::from(self.length)];
        let before = owners.iter().filter(|&&owner| owner == id).count() as u64;
        let elapsed = slot - self.base;
        (entry.shortfall_after(elapsed), before + entry.slices_after(elapsed))
    }

    /// A listed id's shortfall and slices after so many transition slots.
    fn in_transition(&self, id: u8, passed: usize) -> (u16, u64) {
        let weight = self.entries[usize::from(id)].weight();
        let mut shortfall = self.starts[usize::from(id)];
        let mut slices = 0;
        for &owner in &self.owners[..passed] {
            shortfall += weight;
            if owner == id {
                shortfall = shortfall.saturating_sub(WHOLE);
                slices += 1;
            }
        }
        (shortfall, slices)
    }

    /// Whether no two partitions share a cyclic slot; the entries are in range.
    fn shares_no_slot(&self) -> bool {
        let mut cycle = Cycle::free();
        let mut listed = self.entries.iter().filter(|entry| entry.is_listed());
        listed.all(|entry| cycle.take(usize::from(entry.period), usize::from(entry.offset)))
    }

    /// The owner of a slot from the request slot on, or 255 for idle.
    pub fn owner_at(&self, slot: u64) -> u8 {
        if slot < self.base {
            return self.owners[(slot - self.request) as usize];
        }
        let n = slot - self.base;
        match self.entries.iter().position(|entry| entry.takes(n)) {
            Some(id) => id as u8,
            None => IDLE,
        }
    }
}
