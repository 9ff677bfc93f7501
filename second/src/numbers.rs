//! What each number says. The stages come in the numbers' order, with 11 beside 9.

/// The request was accepted or the query answered.
pub const ACCEPTED: u8 = 0;
/// The timetable is not sound.
pub const NOT_SOUND: u8 = 1;
/// The answer area has under 231 bytes.
pub const AREA_TOO_SMALL: u8 = 2;
/// A field is cut off, missing, unknown, out of order or of wrong length.
pub const WRONG_FIELD: u8 = 3;
/// A value is out of range.
pub const OUT_OF_RANGE: u8 = 4;
/// An id is not above the one before.
pub const ID_NOT_RISING: u8 = 5;
/// The slot is too early.
pub const TOO_EARLY: u8 = 6;
/// The weights sum above 256.
pub const OVERFULL: u8 = 7;
/// A shortfall at the request slot is not below 256 times the new R.
pub const SHORTFALL_TOO_LARGE: u8 = 8;
/// A transition slot below T is missed, and no length up to it gives a schedule.
pub const SLOT_MISSED: u8 = 9;
/// A query's id is not listed.
pub const NOT_LISTED: u8 = 10;
/// No length up to T gives a schedule, and all were searched.
pub const LENGTHS_EXHAUSTED: u8 = 11;
