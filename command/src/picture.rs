//! What is drawn of a change: the slots around it, each as the queries tell it.

use crate::image::Image;
use std::collections::BTreeMap;
use tarnflaw::{ACCEPTED, IDLE, IDS, LAST_SLOT};

/// What partitions are called, by id.
pub type Names = BTreeMap<u8, String>;

/// How many slots are drawn before the request slot, and from the base on.
#[derive(Clone, Copy)]
pub struct Around {
    pub before: u64,
    pub after: u64,
}

/// The slots around a change.
pub struct Picture {
    pub ordinal: u64,
    pub request_slot: u64,
    pub base: u64,
    /// The partitions that come into the change with a shortfall: id and figure.
    pub brought: Vec<(u8, u16)>,
    pub slots: Vec<Slot>,
    pub lanes: Vec<Lane>,
}

/// A slot, and who has it, if anybody does.
#[derive(Clone, Copy, Debug, PartialEq, Eq)]
pub struct Slot {
    pub number: u64,
    pub owner: Option<u8>,
}

/// A partition, and how it stands in each slot in which it is listed.
pub struct Lane {
    pub id: u8,
    pub cells: Vec<Option<Cell>>,
}

/// How a partition stands at the start of a slot.
#[derive(Clone, Copy, Debug, PartialEq, Eq)]
pub struct Cell {
    pub own: bool,
    pub shortfall: u16,
    pub slices: u64,
    pub bound: u8,
    /// Its shortfall if the count had begun anew at the request slot: from there on, and where it is another figure.
    pub anew: Option<u16>,
}

impl Cell {
    /// What the shortfall has to stay below.
    pub fn limit(&self) -> u16 {
        256 * u16::from(self.bound)
    }
}

impl Lane {
    /// The id, and what the partition is called.
    pub fn label(&self, names: &Names) -> String {
        let name = names.get(&self.id).map_or(String::new(), |name| format!(" {name}"));
        format!("id {}{name}", self.id)
    }

    /// The bounds R in their order, each once where it goes on; of more than two the first and the last.
    pub fn bounds(&self) -> Vec<u8> {
        let mut bounds: Vec<u8> = self.cells.iter().flatten().map(|cell| cell.bound).collect();
        bounds.dedup();
        if bounds.len() > 2 {
            bounds.drain(1..bounds.len() - 1);
        }
        bounds
    }

    /// What the bounds say.
    pub fn below(&self) -> String {
        let bounds = self.bounds();
        let told = |figures: Vec<String>| figures.join(", ");
        let below = bounds.iter().map(|&bound| (256 * u16::from(bound)).to_string()).collect();
        format!("R {}: below {}", told(bounds.iter().map(u8::to_string).collect()), told(below))
    }

    /// The largest figure that a shortfall of the lane has to stay below.
    pub fn limit(&self) -> u16 {
        self.cells.iter().flatten().map(Cell::limit).max().unwrap_or(256)
    }
}

impl Picture {
    /// The transition length.
    pub fn length(&self) -> u64 {
        self.base - self.request_slot
    }

    /// The head of the picture.
    pub fn title(&self) -> String {
        let (ordinal, slot, length) = (self.ordinal, self.request_slot, self.length());
        format!("request {ordinal} accepted: slot {slot}, length {length}, base {}", self.base)
    }

    /// A slot's number; where the last one has more digits than there is room for, how far it is from the request slot.
    pub fn slot_label(&self, slot: u64, digits: usize) -> String {
        let last = self.slots.last().map_or(0, |slot| slot.number);
        if last.to_string().len() <= digits {
            return slot.to_string();
        }
        match slot.checked_sub(self.request_slot) {
            Some(behind) => format!("+{behind}"),
            None => format!("-{}", self.request_slot - slot),
        }
    }

    /// What is said of the shortfalls that partitions bring into the change.
    pub fn brought_along(&self, names: &Names) -> String {
        const MOST: usize = 4;
        let brought = &self.brought;
        if brought.is_empty() {
            return format!("No partition brings a shortfall into slot {}.", self.request_slot);
        }
        let told = brought.iter().take(MOST).map(|(id, shortfall)| {
            let name = names.get(id).map_or(format!("id {id}"), String::clone);
            format!("{name} at {shortfall}")
        });
        let told = told.collect::<Vec<_>>().join(", ");
        let more = match brought.len().saturating_sub(MOST) {
            0 => String::new(),
            more => format!(", and {more} more"),
        };
        let slot = self.request_slot;
        format!(
            "The count goes on at slot {slot}: {told}{more}. Begun anew there, each would be at 0."
        )
    }
}

/// The timetables that were accepted, the last one last, as far back as pictures look.
pub struct History {
    images: Vec<Image>,
    around: Around,
}

impl History {
    /// A controller's history that begins with the empty timetable.
    pub fn empty(around: Around) -> History {
        History { images: vec![Image::empty()], around }
    }

    /// One more timetable is accepted. Those that are in force before all that a picture of it draws are forgotten.
    pub fn accept(&mut self, image: &Image) {
        let first = self.first(image);
        let needed = self.images.iter().rposition(|old| old.request_slot() <= first).unwrap_or(0);
        self.images.drain(..needed);
        self.images.push(image.clone());
    }

    /// The first slot that a picture draws.
    fn first(&self, image: &Image) -> u64 {
        image.request_slot().saturating_sub(self.around.before)
    }

    /// The timetable in force in a slot: the last accepted of those whose request slot it is, or lies behind.
    fn in_force(&self, slot: u64) -> &Image {
        let up_to = self.images.iter().rfind(|image| image.request_slot() <= slot);
        up_to.unwrap_or(&self.images[0])
    }

    /// The picture of the last change, which the request with this ordinal brought.
    pub fn picture(&self, ordinal: u64) -> Picture {
        let image = &self.images[self.images.len() - 1];
        let last = image.base().saturating_add(self.around.after).min(LAST_SLOT + 1);
        let owner = |slot| match tarnflaw::owner(&self.in_force(slot).0, slot) {
            told if told.number != ACCEPTED || told.owner == IDLE => None,
            told => Some(told.owner),
        };
        let slots = (self.first(image)..last).map(|number| Slot { number, owner: owner(number) });
        let slots: Vec<Slot> = slots.collect();
        let anew = image.counted_anew();
        let lanes = (0..IDS).map(|id| Lane {
            id,
            cells: slots.iter().map(|&slot| self.cell(id, slot, image, &anew)).collect(),
        });
        let lanes = lanes.filter(|lane| lane.cells.iter().any(Option::is_some)).collect();
        let request_slot = image.request_slot();
        let brought = (0..IDS).filter_map(|id| {
            let told = tarnflaw::standing(&image.0, id, request_slot);
            (told.number == ACCEPTED && told.shortfall > 0).then_some((id, told.shortfall))
        });
        let brought = brought.collect();
        Picture { ordinal, request_slot, base: image.base(), brought, slots, lanes }
    }

    /// How a partition stands in a slot, if it is listed there.
    fn cell(&self, id: u8, slot: Slot, image: &Image, anew: &Image) -> Option<Cell> {
        let in_force = self.in_force(slot.number);
        let told = tarnflaw::standing(&in_force.0, id, slot.number);
        if told.number != ACCEPTED {
            return None;
        }
        let counted = tarnflaw::standing(&anew.0, id, slot.number);
        let differs = counted.number == ACCEPTED && counted.shortfall != told.shortfall;
        Some(Cell {
            own: slot.owner == Some(id),
            shortfall: told.shortfall,
            slices: told.slices,
            bound: in_force.bound(id),
            anew: (slot.number >= image.request_slot() && differs).then_some(counted.shortfall),
        })
    }
}
