//! Reading an archived answer (docs/RULES.md 6.8 to 6.10, 10.6 and 10.8). Read whole, it is held
//! against the one record that it could be. Read a field at a time, what stands at a place is said by
//! the record and the place alone.

use crate::numbers;
use crate::records::{answer_record, TAG_LENGTH, TAG_OFFSET, TAG_OWNERS};
use crate::timetable::{IDS, LONGEST_TRANSITION};

/// The bytes in which a schedule is told: length, owners, whether ids are listed, and offsets.
pub const SCHEDULE: usize = 1 + LONGEST_TRANSITION + IDS + IDS;
/// The byte of an answer that holds its length.
const LENGTH_AT: usize = 3;
/// Where the field of the owners begins, and the owners themselves.
const OWNERS_FIELD: usize = 4;
const OWNERS_FROM: usize = 7;
/// The bytes of the field of an offset.
const OFFSET_FIELD: usize = 5;

/// What an answer says: the owner of each transition slot, and the offset of each listed id.
#[derive(Clone, Debug, Default, PartialEq, Eq)]
pub struct Schedule {
    pub owners: Vec<u8>,
    pub offsets: [Option<u8>; IDS],
}

/// The schedule of an answer. A record that is none is refused at a place: it differs from the one
/// record that it could be, and the field in which it first does so begins there.
pub fn read_answer(record: &[u8]) -> Result<Schedule, u64> {
    let schedule = Schedule::possible(record);
    let only = answer_record(&schedule.owners, &schedule.offsets);
    if record == only {
        return Ok(schedule);
    }
    let alike = record.iter().zip(&only).take_while(|(found, due)| found == due).count();
    Err(schedule.field_of(alike) as u64)
}

impl Schedule {
    /// The one schedule that a record may hold, by the bytes that stand where its values would. A
    /// length or an owner that can't be is taken as 0, and ids end with the first that can't be.
    fn possible(record: &[u8]) -> Schedule {
        let byte = |at: usize, limit: usize| {
            record.get(at).copied().filter(|&byte| usize::from(byte) < limit).unwrap_or(0)
        };
        let length = usize::from(byte(LENGTH_AT, LONGEST_TRANSITION + 1));
        let owners = (0..length).map(|slot| byte(OWNERS_FROM + slot, IDS)).collect();
        let mut offsets = [None; IDS];
        let mut allowed = 0..IDS;
        let fields = record.get(OWNERS_FROM + length..).unwrap_or_default();
        for field in fields.chunks_exact(OFFSET_FIELD) {
            let id = usize::from(field[3]);
            if !allowed.contains(&id) {
                break;
            }
            offsets[id] = Some(field[4]);
            allowed.start = id + 1;
        }
        Schedule { owners, offsets }
    }

    /// Where the field begins that has a byte of this schedule's record, or that would follow it.
    fn field_of(&self, byte: usize) -> usize {
        let behind = OWNERS_FROM + self.owners.len();
        match byte {
            _ if byte < OWNERS_FIELD => 0,
            _ if byte < behind => OWNERS_FIELD,
            _ => byte - (byte - behind) % OFFSET_FIELD,
        }
    }

    /// The bytes in which it is told: the length, 64 owners, 1 for each id that is listed and 0 for
    /// each that is not, and 32 offsets; 0 stands for owners and offsets that there are not.
    pub fn told(&self) -> Vec<u8> {
        let mut told = vec![self.owners.len() as u8];
        told.extend(&self.owners);
        told.resize(1 + LONGEST_TRANSITION, 0);
        told.extend(self.offsets.iter().map(|offset| u8::from(offset.is_some())));
        told.extend(self.offsets.iter().map(|offset| offset.unwrap_or(0)));
        told
    }
}

/// Reading an answer into an area: the number and the place. A record that is no answer is refused
/// 3, then an area under 129 bytes 2; the area then stays as it was.
pub fn tell_answer(record: &[u8], area: &mut [u8]) -> (u8, u64) {
    match (read_answer(record), area.get_mut(..SCHEDULE)) {
        (Err(place), _) => (numbers::WRONG_FIELD, place),
        (Ok(_), None) => (numbers::AREA_TOO_SMALL, 0),
        (Ok(schedule), Some(start)) => {
            start.copy_from_slice(&schedule.told());
            (numbers::ACCEPTED, 0)
        }
    }
}

/// What stands at a place of an answer.
#[derive(Clone, Copy, Debug, PartialEq, Eq)]
pub enum Field {
    Length(u8),
    Owners(u8),
    Offset { id: u8, offset: u8 },
    Nothing,
}

impl Field {
    /// The bytes of the field.
    fn size(self) -> u64 {
        match self {
            Field::Length(_) => OWNERS_FIELD as u64,
            Field::Owners(count) => (OWNERS_FROM - OWNERS_FIELD) as u64 + u64::from(count),
            Field::Offset { .. } => OFFSET_FIELD as u64,
            Field::Nothing => 0,
        }
    }
}

/// An answer that is read a field at a time, and the place that was reached.
#[derive(Clone, Copy)]
pub struct AnswerReader<'a> {
    pub record: &'a [u8],
    pub place: u64,
}

impl AnswerReader<'_> {
    /// What stands at the place, which then moves behind it; a field that is refused, and the
    /// record's end, leave the place as it is.
    pub fn field(&mut self) -> Result<Field, u64> {
        let field = self.stands().ok_or(self.place)?;
        self.place += field.size();
        Ok(field)
    }

    /// The field that stands at the place, unless it is refused: the length at 0, the owners at 4,
    /// and an id with its offset everywhere else, but nothing at the record's end and behind it.
    fn stands(&self) -> Option<Field> {
        let place = usize::try_from(self.place).unwrap_or(usize::MAX);
        match (place, self.record.get(place..).unwrap_or_default()) {
            (0, &[TAG_LENGTH, 0, 1, length, ..]) => {
                Some(Field::Length(length)).filter(|_| self.fits())
            }
            (OWNERS_FIELD, &[TAG_OWNERS, 0, count, ref rest @ ..]) => {
                let owners = rest.get(..usize::from(count))?;
                let right =
                    self.length() == count && owners.iter().all(|&id| usize::from(id) < IDS);
                Some(Field::Owners(count)).filter(|_| right && self.fits())
            }
            (0 | OWNERS_FIELD, _) => None,
            (_, &[]) => Some(Field::Nothing),
            (_, &[TAG_OFFSET, 0, 2, id, offset, ..]) => {
                let allowed = self.lowest_id(place)..IDS;
                Some(Field::Offset { id, offset }).filter(|_| allowed.contains(&usize::from(id)))
            }
            _ => None,
        }
    }

    /// The length that byte 3 says, 0 if the record ends before.
    fn length(&self) -> u8 {
        self.record.get(LENGTH_AT).copied().unwrap_or(0)
    }

    /// Whether a transition may be as long as that.
    fn fits(&self) -> bool {
        usize::from(self.length()) <= LONGEST_TRANSITION
    }

    /// The lowest id allowed in a field: 0 up to the place behind the owners, and further on one
    /// above the byte two places before the field, where the id of the field before stands.
    fn lowest_id(&self, place: usize) -> usize {
        let first = OWNERS_FROM + usize::from(self.length());
        if place <= first {
            0
        } else {
            usize::from(self.record[place - 2]) + 1
        }
    }

    /// The owner of a transition slot, and nothing for a slot that the transition does not have.
    pub fn owner(&self, slot: usize) -> Option<u8> {
        let owners = self.record.get(OWNERS_FROM..)?.iter().take(usize::from(self.length()));
        owners.copied().nth(slot)
    }

    /// All that is left: field by field until nothing is left, or one is refused.
    pub fn rest(&mut self) -> Result<Schedule, u64> {
        let mut schedule = Schedule::default();
        loop {
            match self.field()? {
                Field::Nothing => return Ok(schedule),
                Field::Length(_) => (),
                Field::Owners(count) => {
                    schedule.owners =
                        (0..usize::from(count)).filter_map(|slot| self.owner(slot)).collect();
                }
                Field::Offset { id, offset } => schedule.offsets[usize::from(id)] = Some(offset),
            }
        }
    }
}

/// What reading one field tells: number, place, tag, two bytes, and the reader's next place.
#[derive(Clone, Copy, Debug, Default, PartialEq, Eq)]
pub struct FieldTold {
    pub number: u8,
    pub place: u64,
    pub tag: u8,
    pub first: u8,
    pub second: u8,
    pub next: u64,
}

/// Reading the field at a place: 3 with its place if it is refused; tag 0 where nothing is left.
pub fn tell_field(record: &[u8], place: u64) -> FieldTold {
    let mut reader = AnswerReader { record, place };
    let (number, refused_at, (tag, first, second)) = match reader.field() {
        Err(refused_at) => (numbers::WRONG_FIELD, refused_at, (0, 0, 0)),
        Ok(Field::Length(length)) => (numbers::ACCEPTED, 0, (TAG_LENGTH, length, 0)),
        Ok(Field::Owners(count)) => (numbers::ACCEPTED, 0, (TAG_OWNERS, count, 0)),
        Ok(Field::Offset { id, offset }) => (numbers::ACCEPTED, 0, (TAG_OFFSET, id, offset)),
        Ok(Field::Nothing) => (numbers::ACCEPTED, 0, (0, 0, 0)),
    };
    FieldTold { number, place: refused_at, tag, first, second, next: reader.place }
}
