//! Tarnflaw for a Rust program: the functions of `include/tarnflaw.h` over slices. What each does, refuses and
//! tells stands there; `examples/board` holds the declarations and constants here against it. It is a crate of its own,
//! linked with the archive (`command/build` shows how), and needs no standard library.
//!
//! What a call is to tell is set to its largest value first, so that one which stayed unwritten would show.

#![no_std]

/// The version of the library.
pub const VERSION: u8 = 6;
/// The first version whose images mean what they mean today.
pub const IMAGE_VERSION: u8 = 6;
/// Bytes of an image.
pub const IMAGE: usize = 337;
/// Bytes that a request has at most.
pub const REQUEST: usize = 207;
/// Bytes that an answer has at most, and an answer area at least.
pub const AREA: usize = 231;
/// Bytes of a schedule.
pub const SCHEDULE: usize = 129;
/// Ids are below it.
pub const IDS: u8 = 32;
/// Slots that a transition has at most, and the largest T.
pub const LONGEST: u8 = 64;
/// The last slot that a request or a query may name.
pub const LAST_SLOT: u64 = 0xffffffffffff;
/// The owner of an idle slot.
pub const IDLE: u8 = 255;
/// The tag told of an answer where nothing is left, or the field is refused.
pub const NO_FIELD: u8 = 0;
/// The tag of the transition length.
pub const LENGTH_FIELD: u8 = 0x10;
/// The tag of the owners.
pub const OWNERS_FIELD: u8 = 0x11;
/// The tag of an id and its offset.
pub const OFFSET_FIELD: u8 = 0x12;
/// The place told by the writer for the slot.
pub const SLOT_PLACE: usize = 64;
/// The place told by the writer for T.
pub const LIMIT_PLACE: usize = 65;
/// Number 0: accepted.
pub const ACCEPTED: u8 = 0;
/// Number 1: timetable not sound.
pub const NOT_SOUND: u8 = 1;
/// Number 2: answer area under 231 bytes (or an area too short for a schedule or a request).
pub const SMALL_AREA: u8 = 2;
/// Number 3: field cut off, missing, unknown, out of order or of wrong length (in an archived answer every fault).
pub const BAD_FIELD: u8 = 3;
/// Number 4: value out of range (or a listing that ends within an entry).
pub const OUT_OF_RANGE: u8 = 4;
/// Number 5: id not above the one before.
pub const NOT_RISING: u8 = 5;
/// Number 6: slot too early.
pub const TOO_EARLY: u8 = 6;
/// Number 7: weights sum above 256.
pub const OVERFULL: u8 = 7;
/// Number 8: shortfall at the request slot not below 256 x new R.
pub const BEHIND: u8 = 8;
/// Number 9: a transition slot below T is missed, no length up to it gives a schedule.
pub const SLOT_MISSED: u8 = 9;
/// Number 10: id not listed.
pub const NOT_LISTED: u8 = 10;
/// Number 11: no length up to T gives a schedule, all were searched.
pub const LENGTHS_EXHAUSTED: u8 = 11;

extern "C" {
    fn tarnflaw_empty(image: *mut u8, image_size: usize) -> u8;
    fn tarnflaw_change(
        image: *mut u8,
        image_size: usize,
        request: *const u8,
        request_size: usize,
        area: *mut u8,
        area_size: usize,
        place: *mut usize,
        tries: *mut u8,
        written: *mut usize,
    ) -> u8;
    fn tarnflaw_owner(
        image: *const u8,
        image_size: usize,
        slot: u64,
        place: *mut usize,
        owner: *mut u8,
    ) -> u8;
    fn tarnflaw_standing(
        image: *const u8,
        image_size: usize,
        id: u8,
        slot: u64,
        place: *mut usize,
        shortfall: *mut u16,
        slices: *mut u64,
    ) -> u8;
    fn tarnflaw_read_answer(
        answer: *const u8,
        answer_size: usize,
        area: *mut u8,
        area_size: usize,
        place: *mut usize,
    ) -> u8;
    fn tarnflaw_write_request(
        slot: u64,
        limit: u8,
        listing: *const u8,
        listing_size: usize,
        area: *mut u8,
        area_size: usize,
        place: *mut usize,
        written: *mut usize,
    ) -> u8;
    fn tarnflaw_answer_field(
        answer: *const u8,
        answer_size: usize,
        at: *mut usize,
        place: *mut usize,
        tag: *mut u8,
        first: *mut u8,
        second: *mut u8,
    ) -> u8;
}

/// What is told of a change.
#[derive(Clone, Copy, Debug, PartialEq, Eq)]
pub struct Change {
    pub number: u8,
    pub place: usize,
    pub tries: u8,
    pub written: usize,
}

/// What an owner query tells.
#[derive(Clone, Copy, Debug, PartialEq, Eq)]
pub struct Owner {
    pub number: u8,
    pub place: usize,
    pub owner: u8,
}

/// What a standing query tells.
#[derive(Clone, Copy, Debug, PartialEq, Eq)]
pub struct Standing {
    pub number: u8,
    pub place: usize,
    pub shortfall: u16,
    pub slices: u64,
}

/// What is told of an answer that is read.
#[derive(Clone, Copy, Debug, PartialEq, Eq)]
pub struct Reading {
    pub number: u8,
    pub place: usize,
}

/// What is told of a request that is written.
#[derive(Clone, Copy, Debug, PartialEq, Eq)]
pub struct Writing {
    pub number: u8,
    pub place: usize,
    pub written: usize,
}

/// What is told of a field of an answer.
#[derive(Clone, Copy, Debug, PartialEq, Eq)]
pub struct Field {
    pub number: u8,
    pub place: usize,
    pub tag: u8,
    pub first: u8,
    pub second: u8,
}

/// Makes the image of the empty timetable.
#[inline]
pub fn empty(image: &mut [u8]) -> u8 {
    // SAFETY: the pointer and the size are those of a slice that is lent for the call.
    unsafe { tarnflaw_empty(image.as_mut_ptr(), image.len()) }
}

/// Changes the timetable of an image by a request.
#[inline]
pub fn change(image: &mut [u8], request: &[u8], area: &mut [u8]) -> Change {
    let mut told = Change { number: 0, place: usize::MAX, tries: u8::MAX, written: usize::MAX };
    // SAFETY: the pointers and sizes are those of slices and values lent for the call.
    told.number = unsafe {
        tarnflaw_change(
            image.as_mut_ptr(),
            image.len(),
            request.as_ptr(),
            request.len(),
            area.as_mut_ptr(),
            area.len(),
            &mut told.place,
            &mut told.tries,
            &mut told.written,
        )
    };
    told
}

/// Who has a slot.
#[inline]
pub fn owner(image: &[u8], slot: u64) -> Owner {
    let mut told = Owner { number: 0, place: usize::MAX, owner: u8::MAX };
    // SAFETY: the pointers and sizes are those of slices and values lent for the call.
    told.number = unsafe {
        tarnflaw_owner(image.as_ptr(), image.len(), slot, &mut told.place, &mut told.owner)
    };
    told
}

/// How a partition stands at the start of a slot.
#[inline]
pub fn standing(image: &[u8], id: u8, slot: u64) -> Standing {
    let mut told = Standing { number: 0, place: usize::MAX, shortfall: u16::MAX, slices: u64::MAX };
    // SAFETY: the pointers and sizes are those of slices and values lent for the call.
    told.number = unsafe {
        tarnflaw_standing(
            image.as_ptr(),
            image.len(),
            id,
            slot,
            &mut told.place,
            &mut told.shortfall,
            &mut told.slices,
        )
    };
    told
}

/// Reads an archived answer into an area.
#[inline]
pub fn read_answer(answer: &[u8], area: &mut [u8]) -> Reading {
    let mut told = Reading { number: 0, place: usize::MAX };
    // SAFETY: the pointers and sizes are those of slices and values lent for the call.
    told.number = unsafe {
        tarnflaw_read_answer(
            answer.as_ptr(),
            answer.len(),
            area.as_mut_ptr(),
            area.len(),
            &mut told.place,
        )
    };
    told
}

/// Writes a request to an area.
#[inline]
pub fn write_request(slot: u64, limit: u8, listing: &[u8], area: &mut [u8]) -> Writing {
    let mut told = Writing { number: 0, place: usize::MAX, written: usize::MAX };
    // SAFETY: the pointers and sizes are those of slices and values lent for the call.
    told.number = unsafe {
        tarnflaw_write_request(
            slot,
            limit,
            listing.as_ptr(),
            listing.len(),
            area.as_mut_ptr(),
            area.len(),
            &mut told.place,
            &mut told.written,
        )
    };
    told
}

/// Reads one field of an archived answer, and moves the place behind it.
#[inline]
pub fn answer_field(answer: &[u8], at: &mut usize) -> Field {
    let mut told =
        Field { number: 0, place: usize::MAX, tag: u8::MAX, first: u8::MAX, second: u8::MAX };
    // SAFETY: the pointers and sizes are those of slices and values lent for the call.
    told.number = unsafe {
        tarnflaw_answer_field(
            answer.as_ptr(),
            answer.len(),
            at,
            &mut told.place,
            &mut told.tag,
            &mut told.first,
            &mut told.second,
        )
    };
    told
}
