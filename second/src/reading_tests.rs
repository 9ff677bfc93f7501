//! Reading answers, sentence by sentence of docs/RULES.md 6.8 to 6.10, 10.6 and 10.8, and against
//! second statements by brute force.

use crate::archive::{
    read_answer, tell_answer, tell_field, AnswerReader, Field, FieldTold, Schedule, SCHEDULE,
};
use crate::archives::Archives;
use crate::cases::all_listed;
use crate::change::{change, AREA};
use crate::generate::Generator;
use crate::probe::{read_probe, Probe};
use crate::random::Random;
use crate::records::{answer_record, write_answer};
use crate::timetable::Timetable;

/// The byte that fills areas before a call.
const BEFORE: u8 = 0xa5;

/// Case B's answer (docs/RULES.md 11.B): one transition slot, of id 1, and the offsets 0, 2, 1.
pub const B: [u8; 23] =
    [0x10, 0, 1, 1, 0x11, 0, 1, 1, 0x12, 0, 2, 0, 0, 0x12, 0, 2, 1, 2, 0x12, 0, 2, 2, 1];

/// The bytes are fields of an answer from its beginning on, all of them whole and right.
fn right_so_far(bytes: &[u8]) -> bool {
    let (first, second, rest) = match *bytes {
        [] => return true,
        [0x10, 0, 1, length] => return length <= 64,
        [0x10, 0, 1, length, 0x11, 0, count, ref rest @ ..] => (length, usize::from(count), rest),
        _ => return false,
    };
    if first > 64 || usize::from(first) != second || rest.len() < second {
        return false;
    }
    let (owners, offsets) = rest.split_at(second);
    let fields = offsets.chunks(5).all(|field| matches!(field, [0x12, 0, 2, 0..=31, _]));
    let ids: Vec<u8> = offsets.iter().skip(3).step_by(5).copied().collect();
    owners.iter().all(|&owner| owner <= 31) && fields && ids.windows(2).all(|two| two[0] < two[1])
}

/// Where a record is refused, if it is: behind the longest beginning that is right. It is right
/// itself if both required fields stand in it.
fn refused_at(record: &[u8]) -> Option<u64> {
    let longest = (0..=record.len()).rev().find(|&end| right_so_far(&record[..end])).unwrap_or(0);
    let whole = longest == record.len() && longest >= 7;
    (!whole).then_some(longest as u64)
}

/// What stands at a place, by trying every field that might; nothing where it is refused.
fn standing(record: &[u8], place: usize) -> Option<Field> {
    let rest = record.get(place..).unwrap_or(&[]);
    let length = record.get(3).copied().unwrap_or(0);
    let behind_another = place > 7 + usize::from(length) && !rest.is_empty();
    let lowest = if behind_another { record[place - 2].saturating_add(1) } else { 0 };
    match place {
        0 => (0..=64).find(|&l| rest.starts_with(&[0x10, 0, 1, l])).map(Field::Length),
        4 => {
            let owners = rest.iter().skip(3).take(usize::from(length));
            let right = owners.clone().count() == usize::from(length) && owners.max() <= Some(&31);
            let head = rest.starts_with(&[0x11, 0, length]);
            (head && right && length <= 64).then_some(Field::Owners(length))
        }
        _ if rest.is_empty() => Some(Field::Nothing),
        _ => {
            let all = (lowest..=31).flat_map(|id| (0..=255).map(move |offset| (id, offset)));
            let found = |&(id, offset): &(u8, u8)| rest.starts_with(&[0x12, 0, 2, id, offset]);
            all.clone().find(found).map(|(id, offset)| Field::Offset { id, offset })
        }
    }
}

/// A record is read or refused at its one place, and a field at a time gives the same as the whole.
fn check(record: &[u8]) {
    let whole = read_answer(record);
    assert_eq!(whole.clone().err(), refused_at(record), "{record:02x?}");
    let mut reader = AnswerReader { record, place: 0 };
    assert_eq!(reader.rest(), whole, "{record:02x?}");
    assert_eq!(reader.place, whole.clone().err().unwrap_or(record.len() as u64));
    if let Ok(schedule) = whole {
        assert_eq!(answer_record(&schedule.owners, &schedule.offsets), record);
    }
    let mut area = [BEFORE; SCHEDULE];
    match read_answer(record) {
        Ok(_) => assert_eq!(tell_answer(record, &mut area), (0, 0)),
        Err(place) => {
            assert_eq!(tell_answer(record, &mut area), (3, place));
            assert_eq!(area, [BEFORE; SCHEDULE]);
        }
    }
}

/// Answers of different forms: nothing, A's and B's, many owners, many ids, as many as there can be.
fn some_answers() -> Vec<Vec<u8>> {
    let mut few = [None; 32];
    (few[0], few[17], few[30], few[31]) = (Some(255), Some(0x12), Some(0x11), Some(0));
    vec![
        write_answer(&Timetable::empty()),
        B.to_vec(),
        answer_record(&[31, 0, 17, 0x12, 2], &few),
        answer_record(&[30; 64], &[None; 32]),
        write_answer(&all_listed()),
    ]
}

/// What is told of B's answer: length, owners, which ids are listed, and their offsets.
#[test]
fn the_schedule_that_is_read() {
    let mut offsets = [None; 32];
    offsets[..3].copy_from_slice(&[Some(0), Some(2), Some(1)]);
    assert_eq!(read_answer(&B), Ok(Schedule { owners: vec![1], offsets }));
    let mut area = [BEFORE; 131];
    assert_eq!(tell_answer(&B, &mut area), (0, 0));
    assert_eq!((area[0], area[1]), (1, 1));
    assert!(area[2..65].iter().all(|&owner| owner == 0));
    assert_eq!(area[65..97], [&[1, 1, 1][..], &[0; 29]].concat());
    assert_eq!(area[97..129], [&[0, 2, 1][..], &[0; 29]].concat());
    assert_eq!(area[129..], [BEFORE; 2]);
}

/// Each value at its limit is read, and one step further is refused in its own field.
#[test]
fn the_limits_of_an_answer() {
    let owners = |length: u8, count: u8, owner: u8| {
        let fields = [&[0x10, 0, 1, length, 0x11, 0, count][..], &vec![owner; count.into()]];
        read_answer(&fields.concat()).err()
    };
    assert_eq!([owners(0, 0, 0), owners(64, 64, 31), owners(1, 1, 0)], [None; 3]);
    assert_eq!([owners(65, 65, 0), owners(255, 255, 0), owners(65, 64, 0)], [Some(0); 3]);
    assert_eq!([owners(2, 1, 0), owners(1, 2, 0), owners(64, 63, 0)], [Some(4); 3]);
    assert_eq!([owners(0, 1, 0), owners(1, 1, 32), owners(3, 3, 255)], [Some(4); 3]);
    let ids = |ids: &[u8]| {
        let fields = ids.iter().flat_map(|&id| [0x12, 0, 2, id, 9]);
        let head = [0x10, 0, 1, 0, 0x11, 0, 0].into_iter();
        read_answer(&head.chain(fields).collect::<Vec<u8>>()).err()
    };
    assert_eq!([ids(&[0]), ids(&[31]), ids(&[0, 1, 31])], [None; 3]);
    assert_eq!([ids(&[32]), ids(&[255]), ids(&[32, 0])], [Some(7); 3]);
    assert_eq!([ids(&[3, 3]), ids(&[3, 2]), ids(&[31, 32])], [Some(12); 3]);
    assert_eq!([ids(&[3, 5, 4]), ids(&[3, 5, 5])], [Some(17); 2]);
    let all: Vec<u8> = (0..32).collect();
    assert_eq!(ids(&all), None);
    assert_eq!(ids(&[&all[..], &[31]].concat()), Some(7 + 5 * 32));
    assert_eq!(ids(&[&all[..], &[32]].concat()), Some(7 + 5 * 32));
}

/// Any byte is an offset, and owners need not be listed.
#[test]
fn any_byte_is_an_offset() {
    for offset in 0..=255 {
        let record = [0x10, 0, 1, 1, 0x11, 0, 1, 30, 0x12, 0, 2, 4, offset];
        let schedule = read_answer(&record).unwrap_or_default();
        assert_eq!((schedule.owners, schedule.offsets[4]), (vec![30], Some(offset)));
    }
}

/// A record that ends with a required field due is refused at its length, else at the field cut off.
#[test]
fn answers_that_end_early() {
    let places: Vec<Option<u64>> = (0..=B.len()).map(|end| read_answer(&B[..end]).err()).collect();
    let cut = |place, times| vec![Some(place); times];
    let whole = vec![None];
    let due = [cut(0, 4), cut(4, 4), whole.clone(), cut(8, 4), whole.clone(), cut(13, 4)];
    let rest = [whole.clone(), cut(18, 4), whole];
    assert_eq!(places, [due.concat(), rest.concat()].concat());
    let behind = [&B[..], &[0x12, 0, 2, 3]].concat();
    assert_eq!(read_answer(&behind), Err(23));
}

/// The first fault from left to right decides, whatever follows it.
#[test]
fn the_first_fault_decides() {
    let mut record = B;
    for (at, place) in [(21, 18), (16, 13), (11, 8), (7, 4), (3, 0)] {
        record[at] = 200;
        assert_eq!(read_answer(&record), Err(place));
    }
}

/// Every byte set to other values: the one place that the rule says.
#[test]
fn every_byte_changed() {
    for record in some_answers() {
        for at in 0..record.len() {
            let mut other = record.clone();
            let near = [record[at].wrapping_add(1), record[at].wrapping_sub(1), record[at] ^ 0x80];
            for byte in [0, 1, 2, 16, 17, 18, 31, 32, 64, 65, 255].into_iter().chain(near) {
                other[at] = byte;
                check(&other);
            }
        }
    }
}

/// Cut at every length, a byte inserted at every place, dropped at every place, or added behind.
#[test]
fn every_byte_dropped_or_inserted() {
    for record in some_answers() {
        for at in 0..=record.len() {
            check(&record[..at]);
            for byte in [0, 1, 2, 16, 17, 18, 31, 32, 255] {
                check(&[&record[..at], &[byte], &record[at..]].concat());
            }
            if at < record.len() {
                check(&[&record[..at], &record[at + 1..]].concat());
            }
        }
    }
}

/// The answers of the random stream, and any bytes of the values that answers have.
#[test]
fn random_answers() {
    for made in Archives::new(2, 8000) {
        if let Probe::Answer { record, .. } | Probe::Field { record, .. } =
            read_probe(&made.content)
        {
            check(&record);
        }
    }
    let mut random = Random::new(5);
    let mut record = Vec::new();
    for _ in 0..50_000 {
        record.clear();
        while random.chance(9, 10) {
            record.extend(random.pick(&[0x10, 0x11, 0x12, 0, 1, 2, 3]));
        }
        check(&record);
    }
}

/// What an accepted request wrote is read as the new timetable's length, owners and offsets.
#[test]
fn what_the_change_wrote_is_read() {
    let (mut timetable, mut read, mut long) = (Timetable::empty(), 0, 0);
    for request in Generator::new(7, 4000) {
        let mut area = [BEFORE; AREA];
        let outcome = change(&timetable, &request, &mut area);
        timetable = outcome.timetable;
        if outcome.number != 0 {
            continue;
        }
        let schedule = read_answer(&area[..outcome.written]).unwrap_or_default();
        assert_eq!(schedule.owners, timetable.transition());
        for (entry, offset) in timetable.entries.iter().zip(schedule.offsets) {
            assert_eq!(offset, entry.listed().then_some(entry.offset));
        }
        let told = schedule.told();
        assert_eq!((told[0], &told[1..65]), (timetable.length, &timetable.owners[..]));
        (read, long) = (read + 1, long + u32::from(timetable.length > 8));
    }
    assert!(read > 1500 && long > 50, "{read} {long}");
}

/// Every schedule has its record, which is read as that schedule.
#[test]
fn a_schedule_has_one_record() {
    let mut random = Random::new(9);
    for length in 0..=64u64 {
        for share in 0..=16 {
            let owners: Vec<u8> = (0..length).map(|_| random.below(32) as u8).collect();
            let offsets = [(); 32].map(|_| random.chance(share, 16).then(|| random.byte()));
            let record = answer_record(&owners, &offsets);
            assert!(record.len() <= AREA);
            assert_eq!(read_answer(&record), Ok(Schedule { owners, offsets }));
        }
    }
}

/// The area is refused only after the record, below 129 bytes, and stays as it was.
#[test]
fn areas_of_answers() {
    let told = read_answer(&B).unwrap_or_default().told();
    assert_eq!(told.len(), SCHEDULE);
    for size in (0..135).chain([231, 5000]) {
        let mut area = vec![BEFORE; size];
        assert_eq!(tell_answer(&B[1..], &mut area), (3, 0));
        assert_eq!(tell_answer(&B[..6], &mut area), (3, 4));
        assert_eq!(area, vec![BEFORE; size]);
        if size < 129 {
            assert_eq!(tell_answer(&B, &mut area), (2, 0));
            assert_eq!(area, vec![BEFORE; size]);
        } else {
            assert_eq!(tell_answer(&B, &mut area), (0, 0));
            assert_eq!((&area[..129], &area[129..]), (&told[..], &vec![BEFORE; size - 129][..]));
        }
    }
}

/// B's answer a field at a time: the length, how many owners, an id and its offset at a time, the end.
#[test]
fn a_field_at_a_time() {
    let mut reader = AnswerReader { record: &B, place: 0 };
    assert_eq!((reader.field(), reader.place), (Ok(Field::Length(1)), 4));
    assert_eq!((reader.field(), reader.place), (Ok(Field::Owners(1)), 8));
    for (id, offset, next) in [(0, 0, 13), (1, 2, 18), (2, 1, 23)] {
        assert_eq!((reader.field(), reader.place), (Ok(Field::Offset { id, offset }), next));
    }
    for _ in 0..3 {
        assert_eq!((reader.field(), reader.place), (Ok(Field::Nothing), 23));
    }
    let mut refused = AnswerReader { record: &B[..17], place: 13 };
    for _ in 0..3 {
        assert_eq!((refused.field(), refused.place), (Err(13), 13));
    }
}

/// The owner of a transition slot is told by the slot, at whatever place the reader is.
#[test]
fn owners_by_slot() {
    let owners: Vec<u8> = (0..64).map(|slot| slot * 3 % 32).collect();
    let record = answer_record(&owners, &[Some(3); 32]);
    for place in [0, 4, 71, record.len() as u64] {
        let reader = AnswerReader { record: &record, place };
        assert!((0..64).all(|slot| reader.owner(slot) == Some(owners[slot])));
        assert_eq!([64, 65, usize::MAX].map(|slot| reader.owner(slot)), [None; 3]);
    }
}

/// What stands at a place is the record's and the place's alone, whatever field stands before.
#[test]
fn the_record_and_the_place_alone() {
    let at = |record: &[u8], place| AnswerReader { record, place }.field();
    let mut record = B;
    record[..3].copy_from_slice(&[9, 9, 9]);
    assert_eq!(at(&record, 4), Ok(Field::Owners(1)));
    record[4..8].copy_from_slice(&[9, 9, 9, 99]);
    assert_eq!(at(&record, 8), Ok(Field::Offset { id: 0, offset: 0 }));
    record[8..11].copy_from_slice(&[9, 9, 9]);
    assert_eq!(at(&record, 13), Ok(Field::Offset { id: 1, offset: 2 }));
    record[11] = 1;
    assert_eq!(at(&record, 13), Err(13), "the id five bytes before is no longer below");
    record[3] = 6;
    assert_eq!(at(&record, 13), Ok(Field::Offset { id: 1, offset: 2 }), "behind the owners");
    assert_eq!([at(&B, 7), at(&B, 12), at(&B, 24)], [Err(7), Err(12), Ok(Field::Nothing)]);
    assert_eq!([at(&[], 0), at(&B[..4], 4), at(&[], 4)], [Err(0), Err(4), Err(4)]);
    let early = [9, 0x12, 0, 2, 0, 5, 0x12, 0, 2, 0, 5];
    assert_eq!([1, 6].map(|place| at(&early, place)), [Ok(Field::Offset { id: 0, offset: 5 }); 2]);
}

/// At every place of any record stands what every field that might stand there says.
#[test]
fn fields_at_any_place() {
    let mut fields = [0; 5];
    for made in Archives::new(3, 4000) {
        let (Probe::Answer { record, .. } | Probe::Field { record, .. }) =
            read_probe(&made.content)
        else {
            continue;
        };
        for place in (0..record.len() + 3).filter(|place| record.len() < 40 || place % 3 == 0) {
            let mut reader = AnswerReader { record: &record, place: place as u64 };
            let (due, found) = (standing(&record, place), reader.field());
            assert_eq!(found, due.ok_or(place as u64), "{place} of {record:02x?}");
            let class = due.map_or(4, |field| match field {
                Field::Length(_) => 0,
                Field::Owners(_) => 1,
                Field::Offset { .. } => 2,
                Field::Nothing => 3,
            });
            fields[class] += 1;
        }
    }
    assert!(fields.iter().all(|&times| times > 300), "{fields:?}");
}

/// Reading all that is left, from a place that was reached on, gives the rest of the whole.
#[test]
fn the_rest_from_any_field_on() {
    let record = write_answer(&all_listed());
    let whole = read_answer(&record).unwrap_or_default();
    for first in 0..=32usize {
        let place = 71 + 5 * first as u64;
        let rest = AnswerReader { record: &record, place }.rest().unwrap_or_default();
        assert_eq!(rest.owners, []);
        assert_eq!(rest.offsets[first..], whole.offsets[first..]);
        assert!(rest.offsets[..first].iter().all(Option::is_none));
    }
    assert_eq!(AnswerReader { record: &record, place: 4 }.rest(), Ok(whole));
}

/// What a C program is told of a field: tag, two bytes and the next place; 0 where there is nothing.
#[test]
fn fields_as_they_are_told() {
    let told = |record: &[u8], place| tell_field(record, place);
    let due =
        |tag, first, second, next| FieldTold { tag, first, second, next, ..Default::default() };
    assert_eq!(told(&B, 0), due(0x10, 1, 0, 4));
    assert_eq!(told(&B, 4), due(0x11, 1, 0, 8));
    assert_eq!(told(&B, 13), due(0x12, 1, 2, 18));
    assert_eq!(told(&B, 23), due(0, 0, 0, 23));
    for place in [1, 7, 22] {
        let refused = FieldTold { number: 3, place, next: place, ..Default::default() };
        assert_eq!(told(&B, place), refused);
    }
    for place in [24, 1 << 40, u64::MAX] {
        assert_eq!(told(&B, place), due(0, 0, 0, place), "behind the end nothing is left");
    }
}
