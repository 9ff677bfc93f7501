//! The workload of the 2021 paper (docs/RULES.md 14): 10 to 15 partitions, factors 1/2 to 1/128,
//! bounds 1 to 5 with four in five at 1, T 0 to 20. Each history starts from the empty controller.

use crate::inputs::{empty_image, Input};
use crate::random::Random;
use crate::request::{count, weights, Listing, Request, Share, NOTHING};

/// The ids in use; fewer than 32, so that a fresh listing keeps most partitions.
const POOL: u64 = 16;
/// The requests of one history.
const HISTORY: usize = 20;

/// The requests of some histories, each with the timetable that it meets.
pub fn source_inputs(seed: u64, histories: usize) -> Vec<Input> {
    let mut random = Random::new(seed);
    let mut inputs = Vec::new();
    for _ in 0..histories {
        add_history(&mut random, &mut inputs);
    }
    inputs
}

/// One history, followed by the port: each request asks for a fresh listing or a near one.
fn add_history(random: &mut Random, inputs: &mut Vec<Input>) {
    let mut image = empty_image();
    let mut present = NOTHING;
    let mut slot = 0;
    for _ in 0..HISTORY {
        let listing = if random.percent(50) { fresh(random) } else { near(random, &present) };
        let longest = random.between(0, 20) as u8;
        let input = Input { image, record: Request { slot, longest, listing }.record() };
        if input.outcome().number == port::number::ACCEPTED {
            image = input.image_after();
            present = listing;
        }
        inputs.push(input);
        slot += later(random);
    }
}

/// How much later the next request comes: within a few cycles, now and then far off.
fn later(random: &mut Random) -> u64 {
    let soon = random.between(20, 320);
    let far = if random.percent(5) { random.below(1 << 40) } else { 0 };
    soon + far
}

/// A share of the source's ranges.
fn share(random: &mut Random) -> Share {
    let bound = if random.percent(80) { 1 } else { random.between(2, 5) as u8 };
    Share { k: random.between(1, 7) as u8, bound }
}

/// Whether a listing fits the core and the source's number of partitions.
fn fits(listing: &Listing) -> bool {
    weights(listing) <= 256 && (10..=15).contains(&count(listing))
}

/// A fresh listing that fits.
fn fresh(random: &mut Random) -> Listing {
    loop {
        let mut listing = NOTHING;
        let wanted = random.between(10, 15) as usize;
        while count(&listing) < wanted {
            listing[random.below(POOL) as usize] = Some(share(random));
        }
        if fits(&listing) {
            return listing;
        }
    }
}

/// A listing one to three ids away from the present one that fits, or a fresh one if none is met.
fn near(random: &mut Random, present: &Listing) -> Listing {
    for _ in 0..20 {
        let mut listing = *present;
        for _ in 0..random.between(1, 3) {
            let id = random.below(POOL) as usize;
            listing[id] = if random.percent(25) { None } else { Some(share(random)) };
        }
        if fits(&listing) {
            return listing;
        }
    }
    fresh(random)
}
