//! The slot layer: how a shortfall changes over one slot, who owns the slots of a cycle,
//! and the walk from the request slot, one slot at a time.

use crate::timetable::{Entry, Listing, Share, Timetable, CYCLE, IDLE, IDS, LARGEST_BOUND};

/// The shortfalls of all ids, listed or not, in 256ths of a slot.
pub type Shortfalls = [i64; IDS];

/// Over one slot the shortfall becomes the larger of 0 and shortfall + weight, less 256 if the
/// slot is its own.
pub fn next_shortfall(shortfall: i64, weight: i64, own: bool) -> i64 {
    let supply = if own { CYCLE as i64 } else { 0 };
    (shortfall + weight - supply).max(0)
}

/// Room is the number of further idle slots that a share can bear; they are let pass one by one.
pub fn room(shortfall: i64, share: Share) -> u16 {
    let most = CYCLE as u16 * u16::from(LARGEST_BOUND);
    let mut idle = 0;
    let mut reached = next_shortfall(shortfall, share.weight(), false);
    while idle < most && share.keeps_bound(reached) {
        idle += 1;
        reached = next_shortfall(reached, share.weight(), false);
    }
    idle
}

/// The last offset is the smaller of room and period - 1.
pub fn last_offset(shortfall: i64, share: Share) -> u16 {
    room(shortfall, share).min(share.period.saturating_sub(1))
}

/// A partition's own slots in one cycle: the offset, then one period further each time.
pub fn own_slots(offset: u16, period: u16) -> impl Iterator<Item = usize> {
    let step = usize::from(period).max(1);
    (usize::from(offset)..CYCLE).step_by(step)
}

/// Two partitions share a slot of the cycle from the base. The slots pass one by one, while each
/// listed partition waits for its next own slot.
pub fn share_a_slot(entries: &[Entry; IDS]) -> bool {
    let listed = entries.iter().filter(|entry| entry.listed());
    let mut waiting: Vec<(usize, usize)> =
        listed.map(|entry| (usize::from(entry.offset), usize::from(entry.period))).collect();
    for slot in 0..CYCLE {
        let mut served = false;
        for (next, period) in waiting.iter_mut().filter(|(next, _)| *next == slot) {
            if served {
                return true;
            }
            served = true;
            *next += *period;
        }
    }
    false
}

/// The owner of each slot of the cycle from the base, where no two partitions share one.
pub fn cycle_owners(entries: &[Entry; IDS]) -> [u8; CYCLE] {
    let mut owners = [IDLE; CYCLE];
    for (id, entry) in (0u8..).zip(entries).filter(|(_, entry)| entry.listed()) {
        for slot in own_slots(u16::from(entry.offset), entry.period) {
            owners[slot] = id;
        }
    }
    owners
}

/// Every listed partition's shortfall over one slot that goes to the owner; the others stay.
pub fn pass_slot(listing: &Listing, shortfalls: &mut Shortfalls, owner: u8) {
    for (id, share) in listing.iter().enumerate() {
        if let Some(share) = share {
            shortfalls[id] =
                next_shortfall(shortfalls[id], share.weight(), id == usize::from(owner));
        }
    }
}

/// A walk through the transition and then the cycle, with the shortfalls and slices at the place
/// reached.
#[derive(Clone)]
pub struct Walk {
    weights: Vec<(usize, i64)>,
    transition: Vec<u8>,
    cycle: [u8; CYCLE],
    passed: usize,
    pub shortfalls: Shortfalls,
    pub slices: [u64; IDS],
}

impl Walk {
    /// The walk starts at the request slot with the shortfalls there, and without a slice.
    pub fn from_request_slot(timetable: &Timetable) -> Walk {
        let listed = timetable.listing();
        let weights = listed.iter().enumerate();
        Walk {
            weights: weights.filter_map(|(id, share)| Some((id, (*share)?.weight()))).collect(),
            transition: timetable.transition().to_vec(),
            cycle: cycle_owners(&timetable.entries),
            passed: 0,
            shortfalls: timetable.starts.map(i64::from),
            slices: [0; IDS],
        }
    }

    /// The owner of the next slot: the transition's while it lasts, and then the cycle's.
    fn next_owner(&self) -> u8 {
        match self.passed.checked_sub(self.transition.len()) {
            None => self.transition[self.passed],
            Some(since_base) => self.cycle[since_base % CYCLE],
        }
    }

    /// One slot passes: its owner has a slice, and every listed partition's shortfall moves.
    pub fn pass_one(&mut self) {
        let owner = usize::from(self.next_owner());
        for &(id, weight) in &self.weights {
            self.shortfalls[id] = next_shortfall(self.shortfalls[id], weight, id == owner);
        }
        if let Some(slices) = self.slices.get_mut(owner) {
            *slices += 1;
        }
        self.passed += 1;
    }

    /// Slots pass one by one, without any skip.
    pub fn pass_each(&mut self, slots: u64) {
        for _ in 0..slots {
            self.pass_one();
        }
    }

    /// Slots pass; once a whole cycle behind the transition was seen to repeat all shortfalls, whole
    /// cycles are skipped.
    pub fn pass(&mut self, slots: u64) {
        let cycle = CYCLE as u64;
        let before_base = slots.min(self.transition.len().saturating_sub(self.passed) as u64);
        self.pass_each(before_base);
        let mut left = slots - before_base;
        while left >= cycle {
            let before = self.clone();
            self.pass_each(cycle);
            left -= cycle;
            if self.shortfalls == before.shortfalls {
                let skipped = left / cycle;
                self.repeat_slices(&before, skipped);
                left -= skipped * cycle;
            }
        }
        self.pass_each(left);
    }

    /// Each skipped cycle brings the slices that the repeated cycle was seen to bring.
    fn repeat_slices(&mut self, before: &Walk, cycles: u64) {
        for (now, then) in self.slices.iter_mut().zip(before.slices) {
            *now += cycles * (*now - then);
        }
    }
}
