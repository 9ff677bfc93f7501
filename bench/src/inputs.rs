//! The inputs of one call of each kind.

use port::{Outcome, AREA, IMAGE};

/// A timetable and a request that meets it.
#[derive(Clone)]
pub struct Input {
    pub image: [u8; IMAGE],
    pub record: Vec<u8>,
}

impl Input {
    /// What the port answers.
    pub fn outcome(&self) -> Outcome {
        port::change(&mut self.image.clone(), &self.record, &mut [0; AREA])
    }

    /// The timetable after it, as the port gives it.
    pub fn image_after(&self) -> [u8; IMAGE] {
        let mut image = self.image;
        port::change(&mut image, &self.record, &mut [0; AREA]);
        image
    }
}

/// A timetable, an id and a slot that is asked about.
#[derive(Clone)]
pub struct Query {
    pub image: [u8; IMAGE],
    pub id: u8,
    pub slot: u64,
}

/// The image of the empty timetable.
pub fn empty_image() -> [u8; IMAGE] {
    let mut image = [0; IMAGE];
    port::empty(&mut image);
    image
}

/// The eight-byte number at a place of an image.
fn number(image: &[u8; IMAGE], at: usize) -> u64 {
    image[at..at + 8].iter().fold(0, |number, &byte| number << 8 | u64::from(byte))
}

/// The request slot of an image.
pub fn request_slot(image: &[u8; IMAGE]) -> u64 {
    number(image, 0)
}

/// The base of an image.
pub fn base(image: &[u8; IMAGE]) -> u64 {
    number(image, 73)
}

/// The transition length of an image.
pub fn length(image: &[u8; IMAGE]) -> u8 {
    image[8]
}

/// The place of a transition slot's owner in an image.
pub fn owner_at(slot: usize) -> usize {
    9 + slot
}

/// The place of an id's shortfall at the base.
pub fn shortfall_at(id: u8) -> usize {
    85 + 6 * usize::from(id)
}

/// The place of an id's shortfall at the request slot.
pub fn start_at(id: u8) -> usize {
    273 + 2 * usize::from(id)
}

/// Adds to the two-byte number at a place of an image, around 2^16.
pub fn add(image: &mut [u8; IMAGE], at: usize, more: u16) {
    let number = u16::from_be_bytes([image[at], image[at + 1]]).wrapping_add(more);
    image[at..at + 2].copy_from_slice(&number.to_be_bytes());
}

/// The listed ids of an image.
pub fn listed_ids(image: &[u8; IMAGE]) -> Vec<u8> {
    let listed = |id: &u8| image[81 + 6 * usize::from(*id)..][..2] != [0, 0];
    (0..32).filter(listed).collect()
}
