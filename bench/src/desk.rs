//! The calls that are timed: the image and the area are put back before each, for both sides alike.

use std::hint::black_box;

use port::{AREA, IMAGE, SCHEDULE};

use crate::archive::{Figures, REQUEST};
use crate::inputs::{Input, Query};
use crate::library;

/// An image and an area that a change may write.
pub struct Desk {
    image: [u8; IMAGE],
    area: [u8; AREA],
}

impl Desk {
    /// A desk with nothing on it.
    pub fn new() -> Desk {
        Desk { image: [0; IMAGE], area: [0; AREA] }
    }

    /// Puts the image of an input and a blank area on the desk.
    fn lay(&mut self, input: &Input) {
        self.image = input.image;
        self.area = [0; AREA];
    }

    /// A change by the library.
    pub fn library(&mut self, input: &Input) {
        self.lay(input);
        black_box(library::change(&mut self.image, black_box(&input.record), &mut self.area));
    }

    /// A change by the port.
    pub fn port(&mut self, input: &Input) {
        self.lay(input);
        black_box(port::change(&mut self.image, black_box(&input.record), &mut self.area));
    }
}

/// An owner query by the library.
pub fn library_owner(query: &Query) {
    black_box(library::owner(&query.image, black_box(query.slot)));
}

/// An owner query by the port.
pub fn port_owner(query: &Query) {
    black_box(port::owner(&query.image, black_box(query.slot)));
}

/// A standing query by the library.
pub fn library_standing(query: &Query) {
    black_box(library::standing(&query.image, query.id, black_box(query.slot)));
}

/// A standing query by the port.
pub fn port_standing(query: &Query) {
    black_box(port::standing(&query.image, query.id, black_box(query.slot)));
}

/// An answer read by the library.
pub fn library_reading(answer: &Vec<u8>) {
    let mut area = [0; SCHEDULE];
    black_box(library::read_answer(black_box(answer), &mut area));
    black_box(area);
}

/// An answer read by the port.
pub fn port_reading(answer: &Vec<u8>) {
    let mut area = [0; SCHEDULE];
    black_box(port::read_answer(black_box(answer), &mut area));
    black_box(area);
}

/// A request written by the library.
pub fn library_writing(figures: &Figures) {
    let Figures { slot, longest, listing } = black_box(figures);
    let mut area = [0; REQUEST];
    black_box(library::write_request(*slot, *longest, listing, &mut area));
    black_box(area);
}

/// A request written by the port.
pub fn port_writing(figures: &Figures) {
    let Figures { slot, longest, listing } = black_box(figures);
    let mut area = [0; REQUEST];
    black_box(port::write_request(*slot, *longest, listing, &mut area));
    black_box(area);
}
