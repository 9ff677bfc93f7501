//! Writing requests, sentence by sentence of docs/RULES.md 6.11, 6.12 and 10.7, and against what the
//! controller reads.

use crate::archives::Archives;
use crate::asking::Asking;
use crate::cases::{record, request_a, request_b};
use crate::probe::{read_probe, Probe};
use crate::records::{read_request, Ask};
use crate::timetable::LAST_SLOT;

/// The byte that fills areas before a call.
const BEFORE: u8 = 0xa5;

/// What the writer does, said by what the controller reads: it refuses what is refused in the record
/// of all entries, of which one that is cut short stands for one out of range; and last the area.
fn written(asking: &Asking, area: usize) -> (u8, u64, usize) {
    let shares: Vec<(u8, u8, u8)> = asking
        .listing
        .chunks(3)
        .map(|entry| if let [id, k, bound] = *entry { (id, k, bound) } else { (255, 0, 1) })
        .collect();
    let record = record(asking.slot, asking.longest, &shares);
    match read_request(&record) {
        Err(refusal) => match refusal.place {
            0 => (refusal.number, 64, 0),
            11 => (refusal.number, 65, 0),
            place => (refusal.number, (place - 15) / 6, 0),
        },
        Ok(_) if area < record.len() => (2, 0, 0),
        Ok(_) => (0, 0, record.len()),
    }
}

/// A request is written or refused as the controller's reading says; what is written is read as the
/// same slot, T and listing, and all other bytes stay.
fn check_writing(asking: &Asking, size: usize) -> u8 {
    let mut area = vec![BEFORE; size];
    let (number, place, bytes) = asking.write(&mut area);
    assert_eq!((number, place, bytes), written(asking, size), "{asking:?} {size}");
    assert!(area[bytes..].iter().all(|&byte| byte == BEFORE));
    if number != 0 {
        assert_eq!(bytes, 0);
        return number;
    }
    assert_eq!(bytes, 15 + 6 * (asking.listing.len() / 3));
    let request = read_request(&area[..bytes]).expect("the controller reads it");
    assert_eq!((request.slot, request.longest), (asking.slot, asking.longest));
    let entry = |(id, ask): (u8, Ask)| [id, ask.period.ilog2() as u8, ask.bound.unwrap_or(0)];
    let asks = (0..).zip(request.asks).filter_map(|(id, ask)| Some((id, ask?)));
    assert_eq!(asks.flat_map(entry).collect::<Vec<u8>>(), asking.listing);
    number
}

/// A request from its parts.
pub fn asking(slot: u64, longest: u8, listing: &[u8]) -> Asking {
    Asking { slot, longest, listing: listing.to_vec() }
}

/// The bytes of A's and B's requests, as they are written; R stands in each field, also where it is 1.
#[test]
fn requests_as_they_are_written() {
    let mut area = [BEFORE; 40];
    assert_eq!(asking(0, 0, &[0, 2, 1, 1, 2, 1]).write(&mut area), (0, 0, 27));
    assert_eq!(area[..27], request_a());
    assert_eq!(area[27..], [BEFORE; 13]);
    let b = [0, 2, 1, 1, 2, 1, 2, 1, 2];
    assert_eq!(asking(6, 1, &b).write(&mut area[..33]), (0, 0, 33));
    assert_eq!(area[..33], request_b(6, 1));
    assert_eq!(asking(LAST_SLOT, 64, &[]).write(&mut area[..15]), (0, 0, 15));
    assert_eq!(area[..15], [1, 0, 8, 0, 0, 255, 255, 255, 255, 255, 255, 2, 0, 1, 64]);
}

/// Listings of 0 to 40 entries, cut at every byte, into every area around what they need.
#[test]
fn listings_of_all_sizes() {
    for same in [true, false] {
        let id = |index: u8| if same { index.min(31) } else { index };
        let all: Vec<u8> =
            (0..40).flat_map(|index| [id(index), index % 9, index % 8 + 1]).collect();
        for bytes in 0..=all.len() {
            let asking = asking(5, 3, &all[..bytes]);
            let enough = 15 + 6 * bytes.div_ceil(3);
            let sizes = [0, 1, 14, 15, enough - 1, enough, enough + 1, 300];
            let numbers = sizes.map(|size| check_writing(&asking, size));
            let due = match bytes {
                _ if bytes <= 96 && bytes % 3 == 0 => [0, 2],
                97 | 98 => [4; 2],
                _ if bytes > 96 => [if same { 5 } else { 4 }; 2],
                _ => [4; 2],
            };
            assert_eq!([numbers[5], numbers[4]], due, "{bytes}");
        }
    }
}

/// Each value at its limit is written, one step further is refused with its own place.
#[test]
fn the_limits_of_a_request() {
    let write = |slot, longest, listing: &[u8]| {
        check_writing(&asking(slot, longest, listing), 300);
        let (number, place, _) = asking(slot, longest, listing).write(&mut [0; 300]);
        (number, place)
    };
    assert_eq!(write(LAST_SLOT, 64, &[31, 8, 8]), (0, 0));
    assert_eq!([write(LAST_SLOT + 1, 64, &[]), write(u64::MAX, 64, &[])], [(4, 64); 2]);
    assert_eq!([write(0, 65, &[]), write(0, 255, &[])], [(4, 65); 2]);
    for wrong in
        [[32, 0, 1], [255, 0, 1], [9, 9, 1], [9, 255, 1], [9, 0, 0], [9, 0, 9], [9, 0, 255]]
    {
        assert_eq!(write(0, 0, &wrong), (4, 0));
        assert_eq!(write(0, 0, &[&[3, 0, 1], &wrong[..]].concat()), (4, 1));
    }
    assert_eq!([write(0, 0, &[3, 0, 1, 4, 0]), write(0, 0, &[3, 0, 1, 4])], [(4, 1); 2]);
    assert_eq!([write(0, 0, &[3, 0, 1, 3, 0, 1]), write(0, 0, &[3, 0, 1, 2, 0, 1])], [(5, 1); 2]);
    assert_eq!(write(0, 0, &[3, 0, 1, 2, 9, 1]), (4, 1), "4 comes before 5 in an entry");
    assert_eq!(write(0, 0, &[3, 0, 1, 3, 0, 1, 32, 0, 1]), (5, 1), "entry by entry");
    assert_eq!(write(0, 0, &[3, 0, 1, 3, 0]), (4, 1), "an entry that is cut short");
}

/// The slot comes before T, T before the entries, and the area last.
#[test]
fn the_order_of_refusals() {
    let wrong = [5, 0, 1, 5, 0, 1];
    assert_eq!(asking(LAST_SLOT + 1, 65, &wrong).write(&mut []), (4, 64, 0));
    assert_eq!(asking(0, 65, &wrong).write(&mut []), (4, 65, 0));
    assert_eq!(asking(0, 64, &wrong).write(&mut []), (5, 1, 0));
    assert_eq!(asking(0, 64, &wrong[..3]).write(&mut []), (2, 0, 0));
    assert_eq!(asking(0, 64, &wrong[..3]).write(&mut [0; 20]), (2, 0, 0));
    assert_eq!(asking(0, 64, &wrong[..3]).write(&mut [0; 21]), (0, 0, 21));
}

/// An index is at most 32: a 33rd entry is refused, whatever it is.
#[test]
fn a_33rd_entry() {
    let all: Vec<u8> = (0..32).flat_map(|id| [id, 8, 1]).collect();
    for id in 0..=255 {
        let listing = [&all[..], &[id, 8, 1]].concat();
        let due = (if id < 32 { 5 } else { 4 }, 32, 0);
        assert_eq!(asking(0, 0, &listing).write(&mut [0; 400]), due);
    }
    assert_eq!(asking(0, 0, &[&all[..], &[31]].concat()).write(&mut [0; 400]), (4, 32, 0));
}

/// Every byte of a listing set to other values, and the listings of the random stream.
#[test]
fn random_listings() {
    let listing = [0, 2, 1, 1, 0, 8, 17, 8, 3, 31, 1, 1];
    for at in 0..listing.len() {
        for byte in 0..=255 {
            let mut other = listing;
            other[at] = byte;
            check_writing(&asking(7, 7, &other), 39);
        }
    }
    let mut numbers = [0; 6];
    for made in Archives::new(4, 10_000) {
        if let Probe::Request { asking, area } = read_probe(&made.content) {
            numbers[usize::from(check_writing(&asking, area.len()))] += 1;
        }
    }
    assert!([0, 2, 4, 5].iter().all(|&number| numbers[number] > 200), "{numbers:?}");
}
