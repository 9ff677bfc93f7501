//! The worst case: 32 partitions before and after, T 64, and all 65 lengths searched. Found by
//! climbing: from a block of ids with one long period and bound 1 beside a few ids that ask for a
//! short period, first to more tries, then to more work.

use port::{IDS, LONGEST};

use crate::inputs::{empty_image, listed_ids, Input};
use crate::random::Random;
use crate::request::{weights, Listing, Request, Share, NOTHING};
use crate::work::work;

/// The tries when every length is searched.
pub const ALL_TRIES: u8 = LONGEST as u8 + 1;
/// The steps of a climb to more tries, or of a walk to the number wanted.
const STEPS: usize = 4000;
/// The steps of a climb to more work.
const WORK_STEPS: usize = 2000;

/// Two requests from the empty controller: the second is the one that is measured.
#[derive(Clone, Copy)]
struct Pair {
    before: Request,
    after: Request,
}

impl Pair {
    /// The second request with the timetable that it meets.
    fn input(&self) -> Input {
        let first = Input { image: empty_image(), record: self.before.record() };
        Input { image: first.image_after(), record: self.after.record() }
    }

    /// The lengths searched and the number; no lengths where fewer than 32 ids are listed.
    fn ending(&self) -> (u8, u8) {
        if weights(&self.before.listing) > 256 || weights(&self.after.listing) > 256 {
            return (0, 0);
        }
        let input = self.input();
        let outcome = input.outcome();
        let all = listed_ids(&input.image).len() == IDS;
        (if all { outcome.tries } else { 0 }, outcome.number)
    }

    /// How much the search has to do.
    fn work(&self) -> usize {
        work(&self.input().image, &self.after)
    }
}

/// So many inputs that search all lengths and end with this number.
pub fn worst_inputs(seed: u64, number: u8, wanted: usize) -> Vec<Input> {
    let mut random = Random::new(seed);
    let mut inputs = Vec::new();
    while inputs.len() < wanted {
        let pair = climb(&mut random).and_then(|pair| walk(&mut random, pair, number));
        inputs.extend(pair.map(|pair| harder(&mut random, pair, number).input()));
    }
    inputs
}

/// A climb to more tries, if it reaches all.
fn climb(random: &mut Random) -> Option<Pair> {
    let mut best = start(random);
    let mut tries = best.ending().0;
    for _ in 0..STEPS {
        if tries == ALL_TRIES {
            return Some(best);
        }
        let next = altered(random, &best);
        let reached = next.ending().0;
        if reached >= tries {
            best = next;
            tries = reached;
        }
    }
    None
}

/// A walk among pairs that search all lengths, until one ends with this number.
fn walk(random: &mut Random, mut pair: Pair, number: u8) -> Option<Pair> {
    for _ in 0..STEPS {
        if pair.ending().1 == number {
            return Some(pair);
        }
        let next = altered(random, &pair);
        if next.ending().0 == ALL_TRIES {
            pair = next;
        }
    }
    None
}

/// A climb to more work among pairs that search all lengths and end with this number.
fn harder(random: &mut Random, mut best: Pair, number: u8) -> Pair {
    let mut most = best.work();
    for _ in 0..WORK_STEPS {
        let next = altered(random, &best);
        if next.ending() != (ALL_TRIES, number) {
            continue;
        }
        let reached = next.work();
        if reached >= most {
            best = next;
            most = reached;
        }
    }
    best
}

/// A block with light ids, and the same with some of the light ids made heavy and patient.
fn start(random: &mut Random) -> Pair {
    let mut listing = NOTHING;
    let k = random.between(4, 7) as u8;
    let most = (1u64 << k).min(28) * 3 / 4;
    let block = random.between(most / 2, most) as usize;
    for (id, share) in listing.iter_mut().enumerate() {
        let light = Share { k: 8, bound: random.between(1, 8) as u8 };
        *share = Some(if id < block { Share { k, bound: 1 } } else { light });
    }
    let mut after = listing;
    for _ in 0..random.between(1, 2) {
        let id = random.between(block as u64, IDS as u64 - 1) as usize;
        after[id] = Some(Share { k: random.between(1, 4) as u8, bound: 8 });
    }
    let longest = LONGEST as u8;
    let before = Request { slot: 0, longest, listing };
    Pair { before, after: Request { slot: random.below(256), longest, listing: after } }
}

/// A pair with one to three figures altered.
fn altered(random: &mut Random, pair: &Pair) -> Pair {
    let mut next = *pair;
    for _ in 0..random.between(1, 3) {
        match random.below(8) {
            0 => next.after.slot = random.below(512),
            1..=2 => alter(random, &mut next.before.listing),
            _ => alter(random, &mut next.after.listing),
        }
    }
    next
}

/// One id gets another period or another bound.
fn alter(random: &mut Random, listing: &mut Listing) {
    let id = random.below(IDS as u64) as usize;
    let Some(share) = listing[id].as_mut() else { return };
    if random.percent(50) {
        share.k = random.between(1, 8) as u8;
    } else {
        share.bound = random.between(1, 8) as u8;
    }
}
