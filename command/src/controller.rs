//! A controller: the timetable that was accepted last, to which one request is put after the other.

use crate::image::Image;
use tarnflaw::{Change, ACCEPTED, AREA};

/// A controller, from the empty one on.
pub struct Controller {
    pub image: Image,
    area: [u8; AREA],
    /// The ordinal of the last request, refused ones counted too.
    pub ordinal: u64,
}

impl Controller {
    /// The controller that was asked nothing yet.
    pub fn empty() -> Controller {
        Controller { image: Image::empty(), area: [0; AREA], ordinal: 0 }
    }

    /// Puts a request to it.
    pub fn put(&mut self, request: &[u8]) -> Change {
        self.ordinal += 1;
        tarnflaw::change(&mut self.image.0, request, &mut self.area)
    }

    /// The answer record of the request that was put last, which was accepted.
    pub fn answer(&self, told: Change) -> &[u8] {
        &self.area[..told.written]
    }

    /// The length of the transition that the request put last brought; 0 where it was refused.
    pub fn length(&self, told: Change) -> usize {
        if told.number == ACCEPTED {
            self.image.owners().len()
        } else {
            0
        }
    }
}
