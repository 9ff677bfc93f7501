//! The slots of one cycle, free or taken.

use crate::timetable::WHOLE;

/// The slots of one word.
const WORD: usize = u64::BITS as usize;

/// The slots of offset 0 in one word, for the periods 1, 2, 4 and so on up to 256.
const EVERY: [u64; 9] = [
    0xffff_ffff_ffff_ffff,
    0x5555_5555_5555_5555,
    0x1111_1111_1111_1111,
    0x0101_0101_0101_0101,
    0x0001_0001_0001_0001,
    0x0000_0001_0000_0001,
    1,
    1,
    1,
];

/// Which slots of a cycle are taken: slot n is bit n % 64 of word n / 64.
pub struct Cycle {
    taken: [u64; WHOLE as usize / WORD],
}

impl Cycle {
    /// A cycle with every slot free.
    pub fn free() -> Cycle {
        Cycle { taken: [0; WHOLE as usize / WORD] }
    }

    /// Takes the slots of an offset; tells whether all of them were free.
    pub fn take(&mut self, period: usize, offset: usize) -> bool {
        let slots = EVERY[period.trailing_zeros() as usize] << (offset % WORD);
        let mut free = true;
        for word in self.taken[offset / WORD..].iter_mut().step_by(period.div_ceil(WORD)) {
            free &= *word & slots == 0;
            *word |= slots;
        }
        free
    }

    /// The largest free offset up to the last one. The slots taken so far repeat with the period
    /// looked for, since shorter periods are placed first, so the first slot tells of all.
    pub fn last_free(&self, last: usize) -> Option<usize> {
        let mut top = last;
        loop {
            let free = !self.taken[top / WORD] << (WORD - 1 - top % WORD);
            if free != 0 {
                return Some(top - free.leading_zeros() as usize);
            }
            top = (top / WORD * WORD).checked_sub(1)?;
        }
    }
}
