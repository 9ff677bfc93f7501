//! A plain port of the rules (docs/RULES.md): safe Rust, no proofs. The library is measured
//! against it, so it offers the library's interface: a timetable passes as an image of 337 bytes.
#![forbid(unsafe_code)]

mod archive;
mod change;
mod cycle;
mod entry;
mod image;
mod queries;
mod records;
mod search;
mod timetable;

pub use archive::{Writing, SCHEDULE};
pub use change::{change_timetable, Outcome};
pub use image::IMAGE;
pub use queries::{OwnerAnswer, StandingAnswer};
pub use timetable::{Timetable, AREA, IDLE, IDS, LAST_SLOT, LONGEST};

/// What each number says.
pub mod number {
    pub const ACCEPTED: u8 = 0;
    pub const NOT_SOUND: u8 = 1;
    pub const SMALL_AREA: u8 = 2;
    pub const BAD_FIELD: u8 = 3;
    pub const OUT_OF_RANGE: u8 = 4;
    pub const NOT_RISING: u8 = 5;
    pub const TOO_EARLY: u8 = 6;
    pub const OVERFULL: u8 = 7;
    pub const BEHIND: u8 = 8;
    pub const SLOT_MISSED: u8 = 9;
    pub const NOT_LISTED: u8 = 10;
    pub const LENGTHS_EXHAUSTED: u8 = 11;
}

/// The number and the place of a refusal, or of an acceptance that tells no more.
#[derive(Clone, Copy, Debug, PartialEq, Eq)]
pub struct Refusal {
    pub number: u8,
    pub place: usize,
}

impl Refusal {
    /// The refusal with this number and place.
    fn at(number: u8, place: usize) -> Refusal {
        Refusal { number, place }
    }
}

/// Writes the image of the empty timetable.
#[inline(never)]
pub fn empty(image: &mut [u8]) -> u8 {
    match <&mut [u8; IMAGE]>::try_from(image) {
        Ok(image) => {
            image::write(image, &Timetable::empty());
            number::ACCEPTED
        }
        Err(_) => number::NOT_SOUND,
    }
}

/// Changes the timetable of an image by a request; the answer record goes to the area.
#[inline(never)]
pub fn change(image: &mut [u8], request: &[u8], area: &mut [u8]) -> Outcome {
    let Ok(image) = <&mut [u8; IMAGE]>::try_from(image) else {
        return Outcome::refused(Refusal::at(number::NOT_SOUND, 0), 0);
    };
    let mut timetable = image::read(image);
    let outcome = change_timetable(&mut timetable, request, area);
    if outcome.number == number::ACCEPTED {
        image::write(image, &timetable);
    }
    outcome
}

/// The owner of a slot in the timetable of an image.
#[inline(never)]
pub fn owner(image: &[u8], slot: u64) -> OwnerAnswer {
    match <&[u8; IMAGE]>::try_from(image) {
        Ok(image) => queries::owner(&image::read(image), slot),
        Err(_) => OwnerAnswer::refused(number::NOT_SOUND),
    }
}

/// The shortfall and the slices of an id at a slot in the timetable of an image.
#[inline(never)]
pub fn standing(image: &[u8], id: u8, slot: u64) -> StandingAnswer {
    match <&[u8; IMAGE]>::try_from(image) {
        Ok(image) => queries::standing(&image::read(image), id, slot),
        Err(_) => StandingAnswer::refused(number::NOT_SOUND),
    }
}

/// Reads an archived answer; the schedule goes to the area.
#[inline(never)]
pub fn read_answer(answer: &[u8], area: &mut [u8]) -> Refusal {
    match (archive::read(answer), area.get_mut(..SCHEDULE)) {
        (Err(refusal), _) => refusal,
        (Ok(_), None) => Refusal::at(number::SMALL_AREA, 0),
        (Ok(schedule), Some(area)) => {
            area.copy_from_slice(&schedule);
            Refusal::at(number::ACCEPTED, 0)
        }
    }
}

/// Writes a request to the area. The listing has three bytes an entry: id, k, R.
#[inline(never)]
pub fn write_request(slot: u64, longest: u8, listing: &[u8], area: &mut [u8]) -> Writing {
    match archive::check(slot, longest, listing) {
        Ok(()) => archive::write(slot, longest, listing, area),
        Err(Refusal { number, place }) => Writing { number, place, written: 0 },
    }
}
