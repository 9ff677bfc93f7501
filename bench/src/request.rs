//! Requests as the generators think of them, and as bytes (docs/RULES.md 6).

use port::IDS;

/// What is asked for one id: the period 2^k and the bound R.
#[derive(Clone, Copy, PartialEq, Eq)]
pub struct Share {
    pub k: u8,
    pub bound: u8,
}

/// What is asked for each id.
pub type Listing = [Option<Share>; IDS];

/// The request slot, T and the listing.
#[derive(Clone, Copy)]
pub struct Request {
    pub slot: u64,
    pub longest: u8,
    pub listing: Listing,
}

/// A listing that asks for nothing.
pub const NOTHING: Listing = [None; IDS];

impl Request {
    /// The record of the request.
    pub fn record(&self) -> Vec<u8> {
        let mut record = vec![1, 0, 8];
        record.extend(self.slot.to_be_bytes());
        record.extend([2, 0, 1, self.longest]);
        for (id, share) in self.listing.iter().enumerate() {
            if let Some(share) = share {
                record.extend([3, 0, 3, id as u8, share.k, share.bound]);
            }
        }
        record
    }
}

/// The sum of the weights of a listing.
pub fn weights(listing: &Listing) -> u32 {
    listing.iter().flatten().map(|share| 256 >> share.k).sum()
}

/// How many ids a listing has.
pub fn count(listing: &Listing) -> usize {
    listing.iter().flatten().count()
}
