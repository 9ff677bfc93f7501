//! Random streams of probes that read answers, write requests and read fields of answers: answers
//! of histories and any others, listings of histories and any others, most of them spoiled in one
//! place.

use crate::archive::read_answer;
use crate::asking::Asking;
use crate::cases;
use crate::change::{listed, Request};
use crate::generate::Generator;
use crate::probe::{answer_content, field_content, request_content};
use crate::probes::{fresh_history, pattern, trim};
use crate::random::Random;
use crate::records::{answer_record, read_request, write_answer, TAG_OFFSET};
use crate::spoil::{starts, Order, Way, ANSWERS, ORDERS};
use crate::timetable::{Share, IDS, LAST_SLOT, LONGEST_TRANSITION};

/// What was done to an answer or a listing.
#[derive(Clone, Copy, Debug, PartialEq, Eq)]
pub enum Spoilt {
    Case,
    Whole,
    Once(&'static str),
    Often,
    RandomBytes,
}

/// A probe's content, with what was done to its answer or its listing.
pub struct Made {
    pub content: Vec<u8>,
    pub spoilt: Spoilt,
}

/// A stream of such probes: the cases, then random ones.
pub struct Archives {
    random: Random,
    cases: std::vec::IntoIter<Vec<u8>>,
    history: Generator,
    asked: Asking,
    left: u64,
}

impl Archives {
    /// The stream of a seed: the cases, and so many random probes after them.
    pub fn new(seed: u64, count: u64) -> Archives {
        let mut random = Random::new(seed);
        let history = fresh_history(&mut random);
        let asked = Asking { slot: 0, longest: 0, listing: Vec::new() };
        Archives { random, cases: cases::archives().into_iter(), history, asked, left: count }
    }

    /// One random probe; now and then its content is cut off or goes on.
    fn make(&mut self) -> Made {
        let (mut content, spoilt) = match self.random.below(20) {
            0..=8 => self.answer_probe(),
            9..=16 => self.request_probe(),
            _ => self.field_probe(),
        };
        trim(&mut self.random, &mut content);
        Made { content, spoilt }
    }

    /// An answer is read into some area.
    fn answer_probe(&mut self) -> (Vec<u8>, Spoilt) {
        let (record, spoilt) = self.record();
        let area = self.area();
        (answer_content(&record, area, &pattern(&mut self.random)), spoilt)
    }

    /// A request is written into some area.
    fn request_probe(&mut self) -> (Vec<u8>, Spoilt) {
        let whole = self.order();
        let (order, spoilt) = self.spoil(whole, &ORDERS);
        (request_content(&order.asking, order.area, &pattern(&mut self.random)), spoilt)
    }

    /// A field of an answer is read at some place.
    fn field_probe(&mut self) -> (Vec<u8>, Spoilt) {
        if self.random.chance(1, 10) {
            return self.planted();
        }
        let (record, spoilt) = self.record();
        (field_content(&record, self.place(&record)), spoilt)
    }

    /// An answer, mostly spoiled in one place; or any bytes.
    fn record(&mut self) -> (Vec<u8>, Spoilt) {
        if self.random.chance(1, 50) {
            return (self.random_bytes(), Spoilt::RandomBytes);
        }
        let whole = if self.random.chance(1, 2) { self.real() } else { self.made_up() };
        self.spoil(whole, &ANSWERS)
    }

    /// Mostly something is done once, now and then two to four times, and else nothing.
    fn spoil<T: Clone + PartialEq>(&mut self, whole: T, ways: &[Way<T>]) -> (T, Spoilt) {
        let times = match self.random.below(100) {
            0..=13 => 0,
            14..=91 => 1,
            _ => self.random.between(2, 4),
        };
        let (mut what, mut spoilt) = (whole.clone(), Spoilt::Whole);
        for time in 0..times {
            let Some((name, way)) = self.random.pick(ways) else { break };
            way(&mut self.random, &mut what);
            spoilt = if time == 0 { Spoilt::Once(name) } else { Spoilt::Often };
        }
        let same = what == whole;
        (what, if same { Spoilt::Whole } else { spoilt })
    }

    /// The answer of the last request that a history has accepted; half the time the history goes on.
    fn real(&mut self) -> Vec<u8> {
        if self.random.chance(1, 2) {
            self.go_on();
        }
        write_answer(&self.history.timetable())
    }

    /// The history's next request; if it is read, it is the one asked last, with each R as it is found.
    fn go_on(&mut self) {
        let mut before = self.history.timetable();
        let request = self.history.next().unwrap_or_else(|| {
            self.history = fresh_history(&mut self.random);
            before = self.history.timetable();
            self.history.next().unwrap_or_default()
        });
        if let Ok(read) = read_request(&request) {
            let request = Request::in_full(&read, &before);
            let entry = |(id, share): (usize, Share)| {
                [id as u8, share.period.trailing_zeros() as u8, share.bound]
            };
            let listing = listed(&request.listing).flat_map(entry).collect();
            self.asked = Asking { slot: request.slot, longest: request.longest, listing };
        }
    }

    /// A well-formed answer with 0 to 64 owners and 0 to 32 ids, whoever they are.
    fn made_up(&mut self) -> Vec<u8> {
        let owners: Vec<u8> = (0..self.size(LONGEST_TRANSITION))
            .map(|_| self.random.below(IDS as u64) as u8)
            .collect();
        let mut offsets = [None; IDS];
        for id in self.ids() {
            offsets[usize::from(id)] = Some(self.random.byte());
        }
        answer_record(&owners, &offsets)
    }

    /// A size: mostly small, none or the most, or any.
    fn size(&mut self, most: usize) -> u64 {
        match self.random.below(10) {
            0..=1 => 0,
            2 => most as u64,
            3..=7 => self.random.between(1, 6),
            _ => self.random.between(0, most as u64),
        }
    }

    /// Some ids, rising: the lowest, the highest, or any.
    fn ids(&mut self) -> Vec<u8> {
        let count = self.size(IDS) as usize;
        let mut ids: Vec<u8> = (0..IDS as u8).collect();
        while ids.len() > count {
            let at = match self.random.below(8) {
                0 => 0,
                1 => ids.len() - 1,
                _ => self.random.below(ids.len() as u64) as usize,
            };
            ids.remove(at);
        }
        ids
    }

    /// What a request is written from, as a history asked it or any other, and an area for it.
    fn order(&mut self) -> Order {
        let asking = if self.random.chance(1, 2) { self.asked() } else { self.any_asking() };
        let mut order = Order { asking, area: 0 };
        let enough = order.record_length() as u64;
        order.area = match self.random.below(20) {
            0..=8 => enough as u16,
            9..=11 => enough as u16 + 1,
            12..=18 => self.random.between(enough, 400) as u16,
            _ => self.random.between(enough, 65535) as u16,
        };
        order
    }

    /// What a history asked last; half the time the history goes on before.
    fn asked(&mut self) -> Asking {
        if self.random.chance(1, 2) {
            self.go_on();
        }
        self.asked.clone()
    }

    /// Any slot, T and listing in their ranges, often at the limits.
    fn any_asking(&mut self) -> Asking {
        let (any, limit) = (self.random.below(LAST_SLOT), self.random.below(65) as u8);
        let slot = self.random.pick(&[0, 1, 6, any, any >> 20, LAST_SLOT - 1, LAST_SLOT]);
        let longest = self.random.pick(&[0, 1, limit, limit, 63, 64]);
        let ids = self.ids();
        let entry = |id| [id, self.random.below(9) as u8, self.random.between(1, 8) as u8];
        let listing = ids.into_iter().flat_map(entry).collect();
        Asking { slot: slot.unwrap_or(any), longest: longest.unwrap_or(limit), listing }
    }

    /// An area's length: around 129, none, or more.
    fn area(&mut self) -> u16 {
        match self.random.below(100) {
            0..=1 => 0,
            2..=3 => self.random.between(1, 127) as u16,
            4..=11 => 128,
            12..=59 => 129,
            60..=74 => 130,
            75..=98 => self.random.between(131, 400) as u16,
            _ => self.random.between(401, 65535) as u16,
        }
    }

    /// A reader's place: where fields begin, where one is refused, the record's end, beyond it, within
    /// fields, or far off.
    fn place(&mut self, record: &[u8]) -> u64 {
        let end = record.len() as u64;
        let start = self.random.pick(&starts(record)).unwrap_or(0) as u64;
        match self.random.below(40) {
            0..=11 => start,
            12..=16 => read_answer(record).err().unwrap_or(end),
            17..=19 => 0,
            20..=22 => 4,
            23..=24 => 7,
            25..=26 => 7 + u64::from(record.get(3).copied().unwrap_or(0)),
            27..=30 => end,
            31..=32 => end + self.random.between(1, 8),
            33..=35 => self.random.below(end),
            36 => self.random.below(8),
            37 => u64::MAX - self.random.below(9),
            38 => 1 << self.random.below(64),
            _ => self.random.bits() >> self.random.below(64),
        }
    }

    /// Any bytes with a field of an offset among them, read there; its id is near the one that
    /// would stand before it.
    fn planted(&mut self) -> (Vec<u8>, Spoilt) {
        let place = self.random.between(1, 20) as usize;
        let length = place + 5 + self.random.below(4) as usize;
        let mut record: Vec<u8> = (0..length).map(|_| self.random.below(40) as u8).collect();
        if self.random.chance(1, 3) && place >= 7 {
            record[3] = place as u8 - 7;
        }
        let before = place.checked_sub(2).map_or(0, |at| record[at]);
        let id = before.saturating_add(self.random.below(3) as u8);
        record[place..place + 5].copy_from_slice(&[TAG_OFFSET, 0, 2, id, self.random.byte()]);
        (field_content(&record, place as u64), Spoilt::RandomBytes)
    }

    /// A few bytes, or many, that answers have too.
    fn random_bytes(&mut self) -> Vec<u8> {
        let most = self.random.pick(&[4, 12, 40]).unwrap_or(4);
        let count = self.random.below(most);
        let byte = |_| {
            let any = self.random.byte();
            self.random.pick(&[0x10, 0x11, 0x12, 0, 0, 1, 2, any]).unwrap_or(any)
        };
        (0..count).map(byte).collect()
    }
}

impl Iterator for Archives {
    type Item = Made;

    /// The next probe of the stream.
    fn next(&mut self) -> Option<Made> {
        if let Some(content) = self.cases.next() {
            return Some(Made { content, spoilt: Spoilt::Case });
        }
        self.left = self.left.checked_sub(1)?;
        Some(self.make())
    }
}
