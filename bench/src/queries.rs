//! The inputs of the queries: timetables of 32 and of about 12 partitions, with and without a
//! transition, and random slots in the transition, near the base and far from it.

use port::{IDS, IMAGE, LAST_SLOT};

use crate::inputs::{
    add, base, length, listed_ids, owner_at, request_slot, shortfall_at, start_at, Input, Query,
};
use crate::random::Random;

/// The other walks that are made of a timetable.
const WALKS: usize = 24;

/// Where the slots of a row lie.
#[derive(Clone, Copy)]
pub enum Where {
    Transition,
    Near,
    Far,
}

impl Where {
    /// Its name in the tables.
    pub fn name(self) -> &'static str {
        match self {
            Where::Transition => "in the transition",
            Where::Near => "near",
            Where::Far => "far",
        }
    }

    /// A random slot there.
    fn slot(self, random: &mut Random, image: &[u8; IMAGE]) -> u64 {
        match self {
            Where::Transition => request_slot(image) + random.below(u64::from(length(image))),
            Where::Near => base(image) + random.below(512),
            Where::Far => random.between(LAST_SLOT / 2, LAST_SLOT),
        }
    }
}

/// The timetables with a transition that accepted requests make, of so many partitions.
pub fn timetables(inputs: &[Input], fewest: usize, most: usize) -> Vec<[u8; IMAGE]> {
    let accepted = inputs.iter().filter(|input| input.outcome().number == port::number::ACCEPTED);
    accepted
        .map(Input::image_after)
        .filter(|image| length(image) > 0)
        .filter(|image| (fewest..=most).contains(&listed_ids(image).len()))
        .collect()
}

/// The timetables without a transition that requests meet, of so many partitions.
pub fn met_without_transition(inputs: &[Input], partitions: usize) -> Vec<[u8; IMAGE]> {
    let images = inputs.iter().map(|input| input.image).filter(|image| length(image) == 0);
    images.filter(|image| listed_ids(image).len() == partitions).collect()
}

/// Each id that is listed at every slot from the one before the request slot to the one behind the
/// base; these are compared only.
pub fn sweeps(images: &[[u8; IMAGE]]) -> Vec<Query> {
    let mut queries = Vec::new();
    for image in images {
        for slot in request_slot(image).saturating_sub(1)..=base(image) + 1 {
            let ids = listed_ids(image).into_iter();
            queries.extend(ids.map(|id| Query { image: *image, id, slot }));
        }
    }
    queries
}

/// Queries about timetables with a start, a shortfall at the base or an owner that is another, most
/// of which are not sound; these are compared only.
pub fn other_walks(seed: u64, images: &[[u8; IMAGE]]) -> Vec<Query> {
    let mut random = Random::new(seed);
    let mut queries = Vec::new();
    for image in images {
        for _ in 0..WALKS {
            let mut image = *image;
            let ids = listed_ids(&image);
            let id = random.pick(&ids);
            match random.below(4) {
                0 => add(&mut image, start_at(id), 1),
                1 => add(&mut image, start_at(id), random.below(u64::from(u16::MAX)) as u16),
                2 => add(&mut image, shortfall_at(id), random.pick(&[1, u16::MAX])),
                _ => {
                    let owner = owner_at(random.below(u64::from(length(&image))) as usize);
                    image[owner] = random.pick(&ids);
                }
            }
            let slot = Where::Transition.slot(&mut random, &image);
            queries.push(Query { image, id, slot });
        }
    }
    queries
}

/// So many queries about some timetables.
pub fn queries(seed: u64, images: &[[u8; IMAGE]], place: Where, wanted: usize) -> Vec<Query> {
    let mut random = Random::new(seed);
    let mut queries = Vec::new();
    for _ in 0..wanted {
        let image = random.pick(images);
        let id = random.pick(&listed_ids(&image));
        let slot = place.slot(&mut random, &image);
        queries.push(Query { image, id, slot });
    }
    queries
}

/// Queries that are refused, or that ask about odd ids and slots; these are compared only.
pub fn odd_queries(seed: u64, images: &[[u8; IMAGE]], wanted: usize) -> Vec<Query> {
    let mut random = Random::new(seed);
    let mut queries = Vec::new();
    for _ in 0..wanted {
        let image = random.pick(images);
        let id = random.pick(&[0, 5, 31, IDS as u8, 255]);
        let before = request_slot(&image).saturating_sub(1);
        let around = [before, request_slot(&image), base(&image)];
        let far = [0, LAST_SLOT, LAST_SLOT + 1, u64::MAX];
        let slot = random.pick(&[&around[..], &far[..]].concat());
        queries.push(Query { image, id, slot });
    }
    queries
}
