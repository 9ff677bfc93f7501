//! The timetable of one core with all its fields, whatever their values, and the test
//! whether it is sound, made by looking at the slots of the transition and of one cycle.

use crate::slots;

/// Partitions have ids 0 to 31.
pub const IDS: usize = 32;
/// The longest transition, in slots.
pub const LONGEST_TRANSITION: usize = 64;
/// The slots of one cycle; a slot is also counted in as many parts.
pub const CYCLE: usize = 256;
/// The largest bound R.
pub const LARGEST_BOUND: u8 = 8;
/// The shortfall of an id that is not listed is below 256 times the largest R.
pub const DEBT_LIMIT: u16 = CYCLE as u16 * LARGEST_BOUND as u16;
/// The largest exponent k of a period.
pub const LARGEST_EXPONENT: u8 = 8;
/// The highest slot in a request or query.
pub const LAST_SLOT: u64 = (1 << 48) - 1;
/// The owner given for an idle slot.
pub const IDLE: u8 = 255;

/// What the timetable holds for one id: period, offset, R and shortfall at the base. Of an id that
/// is not listed it holds the shortfall alone.
#[derive(Clone, Copy, Debug, Default, PartialEq, Eq)]
pub struct Entry {
    pub period: u16,
    pub offset: u8,
    pub bound: u8,
    pub shortfall: u16,
}

impl Entry {
    /// An id is listed if its period is not 0.
    pub fn listed(&self) -> bool {
        self.period != 0
    }

    /// The share of an id that is listed.
    fn share(&self) -> Option<Share> {
        self.listed().then_some(Share { period: self.period, bound: self.bound })
    }
}

/// One core's timetable: request slot, transition length and owners, base, the entries, and the
/// starts, each id's shortfall at the request slot.
#[derive(Clone, Copy, Debug, PartialEq, Eq)]
pub struct Timetable {
    pub request_slot: u64,
    pub length: u8,
    pub owners: [u8; LONGEST_TRANSITION],
    pub base: u64,
    pub entries: [Entry; IDS],
    pub starts: [u16; IDS],
}

impl Timetable {
    /// The empty timetable has request slot 0, length 0, nothing listed, and every shortfall 0.
    pub fn empty() -> Timetable {
        Timetable {
            request_slot: 0,
            length: 0,
            owners: [0; LONGEST_TRANSITION],
            base: 0,
            entries: [Entry::default(); IDS],
            starts: [0; IDS],
        }
    }

    /// An id is listed if it is an id at all and its entry is listed.
    pub fn lists(&self, id: u8) -> bool {
        self.entries.get(usize::from(id)).is_some_and(Entry::listed)
    }

    /// The shares that are listed, id by id.
    pub fn listing(&self) -> Listing {
        self.entries.map(|entry| entry.share())
    }

    /// The owners of the transition slots, as many as the length says.
    pub fn transition(&self) -> &[u8] {
        self.owners.get(..usize::from(self.length)).unwrap_or(&self.owners)
    }

    /// The timetable is sound if each clause of soundness holds.
    pub fn sound(&self) -> bool {
        self.numbers_sound()
            && self.owners_sound()
            && self.entries.iter().all(entry_sound)
            && !slots::share_a_slot(&self.entries)
            && self.starts_sound()
            && self.walk_arrives()
    }

    /// Request slot and length are within their limits and the base is their sum.
    fn numbers_sound(&self) -> bool {
        self.request_slot <= LAST_SLOT
            && usize::from(self.length) <= LONGEST_TRANSITION
            && u128::from(self.base) == u128::from(self.request_slot) + u128::from(self.length)
    }

    /// Owners of transition slots are listed ids and unused owners are zero.
    fn owners_sound(&self) -> bool {
        let used = usize::from(self.length);
        self.owners.iter().take(used).all(|&owner| self.lists(owner))
            && self.owners.iter().skip(used).all(|&owner| owner == 0)
    }

    /// A listed partition starts below 256 R, every other id with its shortfall at the base.
    fn starts_sound(&self) -> bool {
        self.entries.iter().zip(self.starts).all(|(entry, start)| match entry.share() {
            Some(share) => share.keeps_bound(i64::from(start)),
            None => start == entry.shortfall,
        })
    }

    /// The transition's slots pass one by one, and lead from the starts to the shortfalls at the base.
    fn walk_arrives(&self) -> bool {
        let listing = self.listing();
        let mut shortfalls = self.starts.map(i64::from);
        for &owner in self.transition() {
            slots::pass_slot(&listing, &mut shortfalls, owner);
        }
        shortfalls == self.entries.map(|entry| i64::from(entry.shortfall))
    }
}

/// An entry is sound if it is in range with its bound kept, or unlisted with nothing but a shortfall
/// that some R could bear.
fn entry_sound(entry: &Entry) -> bool {
    match entry.share() {
        Some(share) => {
            period_in_range(entry.period)
                && bound_in_range(entry.bound)
                && u16::from(entry.offset) < entry.period
                && first_slice_in_time(entry, share)
        }
        None => entry.offset == 0 && entry.bound == 0 && entry.shortfall < DEBT_LIMIT,
    }
}

/// The shortfall grows by the weight in each slot before the offset and stays below 256 R.
fn first_slice_in_time(entry: &Entry, share: Share) -> bool {
    let mut shortfall = i64::from(entry.shortfall);
    for _ in 0..entry.offset {
        shortfall = slots::next_shortfall(shortfall, share.weight(), false);
    }
    share.keeps_bound(shortfall)
}

/// A period is 2^k with k from 0 to 8.
pub fn period_in_range(period: u16) -> bool {
    (0..=LARGEST_EXPONENT).any(|k| period == 1 << k)
}

/// A bound is from 1 to 8.
pub fn bound_in_range(bound: u8) -> bool {
    (1..=LARGEST_BOUND).contains(&bound)
}

/// A listed partition's share: one slot in each period, with a shortfall below 256 R.
#[derive(Clone, Copy, Debug, PartialEq, Eq)]
pub struct Share {
    pub period: u16,
    pub bound: u8,
}

/// The listed partitions' shares, by id.
pub type Listing = [Option<Share>; IDS];

impl Share {
    /// The weight is 256 / period, in 256ths of a slot; no period gives no weight.
    pub fn weight(&self) -> i64 {
        (CYCLE as i64).checked_div(i64::from(self.period)).unwrap_or(0)
    }

    /// The bound is kept when the shortfall is below 256 R.
    pub fn keeps_bound(&self, shortfall: i64) -> bool {
        shortfall < CYCLE as i64 * i64::from(self.bound)
    }
}
