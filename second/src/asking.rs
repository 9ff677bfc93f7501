//! Writing a request (docs/RULES.md 6.11, 6.12 and 10.7): a slot, T and a listing of three bytes an
//! entry become the record that the controller reads, or are refused.

use crate::numbers;
use crate::records::{longest_field, share_field, slot_field};
use crate::timetable::{bound_in_range, IDS, LARGEST_EXPONENT, LAST_SLOT, LONGEST_TRANSITION};

/// The bytes of a listing's entry: id, k and R.
pub const ENTRY: usize = 3;
/// The place of a slot and of a T that are refused; other places are the indexes of entries.
pub const SLOT_PLACE: u64 = 64;
pub const LONGEST_PLACE: u64 = 65;

/// What a request is written from.
#[derive(Clone, Debug, PartialEq, Eq)]
pub struct Asking {
    pub slot: u64,
    pub longest: u8,
    pub listing: Vec<u8>,
}

impl Asking {
    /// The request is written at the area's start: number 0, place 0 and the bytes written; or the
    /// first refusal with 0 bytes, and the area stays as it was.
    pub fn write(&self, area: &mut [u8]) -> (u8, u64, usize) {
        if let Some((number, place)) = self.refusals().next() {
            return (number, place, 0);
        }
        let record = self.record();
        match area.get_mut(..record.len()) {
            None => (numbers::AREA_TOO_SMALL, 0, 0),
            Some(start) => {
                start.copy_from_slice(&record);
                (numbers::ACCEPTED, 0, record.len())
            }
        }
    }

    /// All that is wrong with the slot, T and the entries, in the order in which it is refused.
    fn refusals(&self) -> impl Iterator<Item = (u8, u64)> + '_ {
        let late = (self.slot > LAST_SLOT).then_some((numbers::OUT_OF_RANGE, SLOT_PLACE));
        let long = usize::from(self.longest) > LONGEST_TRANSITION;
        let long = long.then_some((numbers::OUT_OF_RANGE, LONGEST_PLACE));
        let entries = (0..self.listing.len().div_ceil(ENTRY))
            .filter_map(|index| Some((self.entry_refusal(index)?, index as u64)));
        late.into_iter().chain(long).chain(entries)
    }

    /// What is wrong with an entry: 4 if it is cut short or out of range, or else 5 if its id is not
    /// above the one before.
    fn entry_refusal(&self, index: usize) -> Option<u8> {
        let at = index * ENTRY;
        let &[id, k, bound] = self.listing.get(at..at + ENTRY).unwrap_or_default() else {
            return Some(numbers::OUT_OF_RANGE);
        };
        let in_range = usize::from(id) < IDS && k <= LARGEST_EXPONENT && bound_in_range(bound);
        let before = at.checked_sub(ENTRY).map(|before| self.listing[before]);
        match before {
            _ if !in_range => Some(numbers::OUT_OF_RANGE),
            Some(before) if id <= before => Some(numbers::ID_NOT_RISING),
            _ => None,
        }
    }

    /// The record: the slot, T, and a full field for each entry.
    fn record(&self) -> Vec<u8> {
        let mut record = [slot_field(self.slot), longest_field(self.longest)].concat();
        for entry in self.listing.chunks_exact(ENTRY) {
            record.extend(share_field(entry[0], entry[1], Some(entry[2])));
        }
        record
    }
}
