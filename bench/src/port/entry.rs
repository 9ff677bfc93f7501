//! What a timetable holds for one id, and the figures that follow from it.

use crate::timetable::{LARGEST_BOUND, WHOLE};

/// One id's entry; a period of 0 says that the id is not listed, and then it has a shortfall at most.
#[derive(Clone, Copy, Debug, Default, PartialEq, Eq)]
pub struct Entry {
    pub period: u16,
    pub offset: u8,
    pub bound: u8,
    pub shortfall: u16,
}

/// The weight of a period, 256 / period: it is a power of two.
pub fn weight_of(period: u16) -> u16 {
    WHOLE >> period.trailing_zeros()
}

impl Entry {
    /// Whether the id is listed.
    pub fn is_listed(&self) -> bool {
        self.period != 0
    }

    /// The entry of an id that is not listed, with its shortfall.
    pub fn absent(shortfall: u16) -> Entry {
        Entry { shortfall, ..Entry::default() }
    }

    /// The R that a short field asks: the one it is listed with, or 1.
    pub fn bound_before(&self) -> u8 {
        if self.is_listed() {
            self.bound
        } else {
            1
        }
    }

    /// The weight of a listed entry.
    pub fn weight(&self) -> u16 {
        weight_of(self.period)
    }

    /// In range where listed; where not, all zero but for a shortfall below 256 x the largest R.
    pub fn is_well_formed(&self) -> bool {
        if !self.is_listed() {
            let limit = WHOLE * u16::from(LARGEST_BOUND);
            return self.offset == 0 && self.bound == 0 && self.shortfall < limit;
        }
        self.period.is_power_of_two()
            && self.period <= WHOLE
            && (1..=LARGEST_BOUND).contains(&self.bound)
            && u16::from(self.offset) < self.period
            && self.keeps_bound()
    }

    /// Whether shortfall + offset x weight is below 256 R.
    fn keeps_bound(&self) -> bool {
        let owed = u32::from(self.shortfall) + u32::from(self.offset) * u32::from(self.weight());
        owed < u32::from(WHOLE) * u32::from(self.bound)
    }

    /// Whether the slot n slots after the base is its own; the period is a power of two.
    pub fn takes(&self, n: u64) -> bool {
        self.is_listed() && n & (u64::from(self.period) - 1) == u64::from(self.offset)
    }

    /// The shortfall n slots after the base: it stays where the id is not listed, and else each
    /// period repeats after the first own slot.
    pub fn shortfall_after(&self, n: u64) -> u16 {
        if !self.is_listed() {
            return self.shortfall;
        }
        let weight = self.weight();
        let offset = u64::from(self.offset);
        if n <= offset {
            return self.shortfall + n as u16 * weight;
        }
        let since = (n - offset - 1) & (u64::from(self.period) - 1);
        let owed = self.shortfall + (u16::from(self.offset) + 1) * weight;
        owed.saturating_sub(WHOLE) + since as u16 * weight
    }

    /// The slices had in the n slots from the base.
    pub fn slices_after(&self, n: u64) -> u64 {
        let offset = u64::from(self.offset);
        if n <= offset {
            return 0;
        }
        ((n - offset - 1) >> self.period.trailing_zeros()) + 1
    }
}
