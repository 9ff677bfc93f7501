//! What stands in an image, by the table in `include/tarnflaw.h`. It is read here, and never changed but in one way.

use std::ops::Range;
use tarnflaw::{IDS, IMAGE};

/// An image of a timetable.
#[derive(Clone, PartialEq, Eq)]
pub struct Image(pub [u8; IMAGE]);

impl Image {
    /// The image of the empty timetable.
    pub fn empty() -> Image {
        let mut image = Image([0; IMAGE]);
        tarnflaw::empty(&mut image.0);
        image
    }

    /// The number in some bytes, high byte first.
    fn number(&self, bytes: Range<usize>) -> u64 {
        self.0[bytes].iter().fold(0, |sum, &byte| sum << 8 | u64::from(byte))
    }

    /// The slot from which the timetable is in force.
    pub fn request_slot(&self) -> u64 {
        self.number(0..8)
    }

    /// The owners of the transition slots.
    pub fn owners(&self) -> &[u8] {
        &self.0[9..9 + usize::from(self.0[8])]
    }

    /// The cycle's slot 0.
    pub fn base(&self) -> u64 {
        self.number(73..81)
    }

    /// The byte at which the figures of an id begin.
    fn entry(id: u8) -> usize {
        81 + 6 * usize::from(id)
    }

    /// The byte at which the shortfall of an id at the request slot begins.
    fn start(id: u8) -> usize {
        273 + 2 * usize::from(id)
    }

    /// The period of an id; 0 where it is not listed.
    pub fn period(&self, id: u8) -> u64 {
        self.number(Image::entry(id)..Image::entry(id) + 2)
    }

    /// The offset of a listed id.
    pub fn offset(&self, id: u8) -> u8 {
        self.0[Image::entry(id) + 2]
    }

    /// The bound R of a listed id.
    pub fn bound(&self, id: u8) -> u8 {
        self.0[Image::entry(id) + 3]
    }

    /// The shortfall of an id at the request slot, be it listed or not.
    pub fn kept(&self, id: u8) -> u16 {
        self.number(Image::start(id)..Image::start(id) + 2) as u16
    }

    /// The ids that are listed.
    pub fn listed(&self) -> impl Iterator<Item = u8> + '_ {
        (0..IDS).filter(|&id| self.period(id) != 0)
    }

    /// The same slots with each listed id's count begun anew, at 0, at the request slot. The shortfalls at the base are those to which the
    /// transition leads from there; with any others the library would refuse the image, so what its queries tell of this one is theirs.
    pub fn counted_anew(&self) -> Image {
        let mut anew = self.clone();
        for id in self.listed() {
            let mut shortfall = 0;
            for &owner in self.owners() {
                let entitled = shortfall + 256 / self.period(id);
                shortfall = entitled.saturating_sub(if owner == id { 256 } else { 0 });
            }
            let base = Image::entry(id) + 4;
            anew.0[base..base + 2].copy_from_slice(&(shortfall as u16).to_be_bytes());
            anew.0[Image::start(id)..Image::start(id) + 2].fill(0);
        }
        anew
    }
}
