//! How much a search has to do, over all lengths: partitions placed, slots looked at, slots taken
//! and places passed in the order. It only steers the climb to slow inputs; no answer depends on it.

use port::{number, IDS, IMAGE, LONGEST};

use crate::request::Request;

/// The steps that one more partition costs, beside the slots: two loops that end unforeseen.
const PLACED: usize = 40;

/// A listed partition: period, weight, 256 R and shortfall.
#[derive(Clone, Copy)]
struct Partition {
    period: usize,
    weight: usize,
    limit: usize,
    shortfall: usize,
}

impl Partition {
    /// Its room.
    fn room(&self) -> usize {
        (self.limit - 1).saturating_sub(self.shortfall) / self.weight
    }

    /// Its last offset.
    fn last(&self) -> usize {
        self.room().min(self.period - 1)
    }
}

/// The work of a request that meets an image.
pub fn work(image: &[u8; IMAGE], request: &Request) -> usize {
    let mut partitions = entering(image, request);
    let mut total = 0;
    for _ in 0..=LONGEST {
        total += placing(&partitions);
        serve(&mut partitions);
    }
    total
}

/// The listed partitions at the request slot.
fn entering(image: &[u8; IMAGE], request: &Request) -> Vec<Partition> {
    let mut partitions = Vec::with_capacity(IDS);
    for (id, share) in request.listing.iter().enumerate() {
        let Some(share) = share else { continue };
        let standing = port::standing(image, id as u8, request.slot);
        let kept = standing.number == number::ACCEPTED;
        partitions.push(Partition {
            period: 1 << share.k,
            weight: 256 >> share.k,
            limit: 256 * usize::from(share.bound),
            shortfall: if kept { usize::from(standing.shortfall) } else { 0 },
        });
    }
    partitions
}

/// The work of one placement, up to the first partition that has no place.
fn placing(partitions: &[Partition]) -> usize {
    let mut order: Vec<&Partition> = partitions.iter().collect();
    order.sort_by_key(|partition| (partition.period, partition.last()));
    let mut taken = [false; 256];
    let mut total = passed(partitions);
    for partition in order {
        let last = partition.last();
        let Some(offset) = (0..=last).rev().find(|&offset| !taken[offset]) else {
            return total + last;
        };
        taken.iter_mut().skip(offset).step_by(partition.period).for_each(|slot| *slot = true);
        total += PLACED + last - offset + 256 / partition.period;
    }
    total
}

/// The places passed when each partition is put into the order, ids rising.
fn passed(partitions: &[Partition]) -> usize {
    let key = |partition: &Partition| (partition.period, partition.last());
    let later = |index: usize| {
        let (before, from) = partitions.split_at(index);
        before.iter().filter(|other| key(other) > key(&from[0])).count()
    };
    (0..partitions.len()).map(later).sum()
}

/// One more slot for the partition with the least room.
fn serve(partitions: &mut [Partition]) {
    let urgent = (0..partitions.len()).min_by_key(|&index| partitions[index].room());
    for partition in partitions.iter_mut() {
        partition.shortfall += partition.weight;
    }
    if let Some(index) = urgent {
        partitions[index].shortfall = partitions[index].shortfall.saturating_sub(256);
    }
}
