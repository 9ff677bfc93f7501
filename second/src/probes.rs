//! Random streams of probes: timetables that histories reach, with one clause of soundness broken
//! or otherwise altered, under requests that aim, damaged ones, any areas and any queries; and sweeps
//! of standing queries over whole transitions.

use crate::breaks::{broken, Clause, CLAUSES};
use crate::built::{built, built_with_transition, listed_ids};
use crate::cases;
use crate::frames::LONGEST_FRAME;
use crate::generate::Generator;
use crate::probe::{
    change_content, empty_content, image_field, image_of, owner_content, packed_field,
    standing_content, timetable_of, IMAGE,
};
use crate::random::Random;
use crate::timetable::{Timetable, IDS, LAST_SLOT};

/// How a probe's timetable was made.
#[derive(Clone, Copy, Debug, PartialEq, Eq)]
pub enum Origin {
    Case,
    Reached,
    Built,
    SweptReached,
    SweptBuilt,
    Broken(Clause),
    BytesChanged,
    RandomImage,
    OtherLength,
}

/// A probe's content, with how its timetable was made.
pub struct Made {
    pub content: Vec<u8>,
    pub origin: Origin,
}

/// An image with how it was made, and a request that was made for it.
struct Subject {
    image: Vec<u8>,
    origin: Origin,
    request: Vec<u8>,
}

/// A stream of probes: the cases of docs/RULES.md 11, then random ones along histories, with sweeps
/// over whole transitions between them.
pub struct Probes {
    random: Random,
    cases: std::vec::IntoIter<Vec<u8>>,
    history: Generator,
    sweep: std::vec::IntoIter<Made>,
    left: u64,
}

impl Probes {
    /// The stream of a seed: the cases, so many random probes after them, and the sweeps besides.
    pub fn new(seed: u64, count: u64) -> Probes {
        let mut random = Random::new(seed);
        let history = fresh_history(&mut random);
        let (cases, sweep) = (cases::probes().into_iter(), Vec::new().into_iter());
        Probes { random, cases, history, sweep, left: count }
    }

    /// Now and then the transition of the history's timetable is swept, or that of any sound one.
    fn next_sweep(&mut self) -> Vec<Made> {
        let reached = self.history.timetable();
        if reached.length > 0 && self.random.chance(1, 9) {
            return self.swept(Origin::SweptReached, &reached);
        }
        if self.random.chance(1, 70) {
            let built = built_with_transition(&mut self.random);
            return self.swept(Origin::SweptBuilt, &built);
        }
        Vec::new()
    }

    /// A standing query at each slot from the one before the request slot to the second behind the
    /// base, all of one listed partition or each of any.
    fn swept(&mut self, origin: Origin, timetable: &Timetable) -> Vec<Made> {
        let field = image_field(&image_of(timetable));
        let ids = listed_ids(timetable);
        let one = self.random.pick(&ids).filter(|_| self.random.chance(1, 2));
        let first = timetable.request_slot.saturating_sub(1);
        let probe = |slot| {
            let id = one.or(self.random.pick(&ids)).unwrap_or(0);
            Made { content: standing_content(&field, id as u8, slot), origin }
        };
        (first..=timetable.base.saturating_add(2)).map(probe).collect()
    }

    /// One random probe; now and then its content is cut off or goes on.
    fn make(&mut self) -> Made {
        let subject = self.subject();
        let field = self.field(&subject.image);
        let mut content = match self.random.below(200) {
            0..=149 => self.change_probe(&field, &subject),
            150..=170 => owner_content(&field, self.slot(&subject.image)),
            171..=192 => {
                let id = self.id(&subject.image);
                standing_content(&field, id, self.slot(&subject.image))
            }
            193..=196 => empty_content(&field),
            _ => self.unknown_kind(&field),
        };
        trim(&mut self.random, &mut content);
        Made { content, origin: subject.origin }
    }

    /// The next timetable and request of a history, mostly as they are.
    fn subject(&mut self) -> Subject {
        let (timetable, request) = self.reached();
        match self.random.below(100) {
            0..=57 => Subject { image: image_of(&timetable), origin: Origin::Reached, request },
            58..=66 => {
                let built = built(&mut self.random);
                self.altered(Origin::Built, image_of(&built), request)
            }
            67..=93 => {
                let clause = self.clause();
                let broken = broken(&mut self.random, clause, &timetable);
                self.altered(Origin::Broken(clause), image_of(&broken), request)
            }
            94..=96 => {
                let image = self.bytes_changed(&timetable);
                self.altered(Origin::BytesChanged, image, request)
            }
            97 => {
                let image = self.random_image();
                self.altered(Origin::RandomImage, image, request)
            }
            _ => {
                let image = self.other_length(&timetable);
                self.altered(Origin::OtherLength, image, request)
            }
        }
    }

    /// A clause of soundness; one in three is of the starts and of the walk in any case.
    fn clause(&mut self) -> Clause {
        let of_starts =
            CLAUSES.iter().position(|&(clause, _)| clause == Clause::Start).unwrap_or(0);
        let first = if self.random.chance(1, 3) { of_starts } else { 0 };
        self.random.pick(&CLAUSES[first..]).unwrap_or(CLAUSES[0]).0
    }

    /// A timetable of the history and the request that follows there; a new history after the last.
    fn reached(&mut self) -> (Timetable, Vec<u8>) {
        let timetable = self.history.timetable();
        match self.history.next() {
            Some(request) => (timetable, request),
            None => {
                self.history = fresh_history(&mut self.random);
                (Timetable::empty(), self.history.next().unwrap_or_default())
            }
        }
    }

    /// An altered image; if it is still sound, the request is mostly one that is made for it.
    fn altered(&mut self, origin: Origin, image: Vec<u8>, before: Vec<u8>) -> Subject {
        let sound = timetable_of(&image).filter(Timetable::sound);
        let fresh = match sound.filter(|_| self.random.chance(7, 8)) {
            Some(timetable) => Generator::after(timetable, self.random.bits(), 1).next(),
            None => None,
        };
        let request = fresh.unwrap_or(before);
        Subject { image, origin, request }
    }

    /// One to four bytes of the image are others.
    fn bytes_changed(&mut self, timetable: &Timetable) -> Vec<u8> {
        let mut image = image_of(timetable);
        for _ in 0..self.random.between(1, 4) {
            let at = self.random.below(IMAGE as u64) as usize;
            let any = self.random.chance(1, 2);
            image[at] = if any { self.random.byte() } else { small_number(&mut self.random) };
        }
        image
    }

    /// An image of random bytes, all of them or few, mostly small.
    fn random_image(&mut self) -> Vec<u8> {
        let full = self.random.between(1, 8);
        let bytes = (0..IMAGE).map(|_| match self.random.chance(full, 8) {
            true if full == 8 => self.random.byte(),
            true => self.random.below(5) as u8,
            false => 0,
        });
        bytes.collect()
    }

    /// An image that is too short or too long; one without its starts is among them.
    fn other_length(&mut self, timetable: &Timetable) -> Vec<u8> {
        let mut image = image_of(timetable);
        let any = self.random.below(600);
        let length = match self.random.below(14) {
            0..=1 => 0,
            2..=3 => 1,
            4..=6 => IMAGE as u64 - 1,
            7..=9 => IMAGE as u64 + 1,
            10..=11 => (IMAGE - 2 * IDS) as u64,
            12 => any,
            _ => self.random.pick(&[65535, 65534, 512, 17]).unwrap_or(any),
        };
        image.resize(length as usize, 0);
        if let Some(last) = image.last_mut().filter(|_| self.random.chance(1, 3)) {
            *last = self.random.byte();
        }
        image
    }

    /// An image's field, now and then with runs in other parts, or a run beyond the image.
    fn field(&mut self, image: &[u8]) -> Vec<u8> {
        if self.random.chance(7, 8) {
            return image_field(image);
        }
        let mut packed = Vec::new();
        let mut at = 0;
        while let Some(&byte) = image.get(at) {
            packed.push(byte);
            at += if byte == 0 { self.run(&mut packed, &image[at..]) } else { 1 };
        }
        packed_field(image.len() as u16, &packed)
    }

    /// A part of the zeros that come first, up to 256 of them, or a run beyond the end.
    fn run(&mut self, packed: &mut Vec<u8>, rest: &[u8]) -> usize {
        let zeros = rest.iter().take(256).take_while(|&&byte| byte == 0).count() as u64;
        let part = if self.random.chance(1, 4) { self.random.between(1, zeros) } else { zeros };
        let beyond = part == rest.len() as u64 && self.random.chance(1, 2);
        let count = if beyond { self.random.between(part, 256) } else { part };
        packed.push(count as u8);
        part as usize
    }

    /// A change probe with the subject's request, or another one.
    fn change_probe(&mut self, field: &[u8], subject: &Subject) -> Vec<u8> {
        let mut request = match self.random.below(40) {
            0 => Vec::new(),
            1 => self.random_bytes(),
            _ => subject.request.clone(),
        };
        let pattern = pattern(&mut self.random);
        let area = self.area();
        if self.random.chance(7, 8) {
            request.truncate(LONGEST_FRAME.saturating_sub(field.len() + pattern.len() + 5));
        }
        change_content(field, &request, area, &pattern)
    }

    /// Random bytes, a few or many, mostly small.
    fn random_bytes(&mut self) -> Vec<u8> {
        let most = self.random.pick(&[4, 40, 40, 400]).unwrap_or(4);
        let small = self.random.chance(2, 3);
        let count = self.random.below(most);
        (0..count)
            .map(|_| if small { small_number(&mut self.random) } else { self.random.byte() })
            .collect()
    }

    /// An area's length: around 231, none, one, or up to the most that there is.
    fn area(&mut self) -> u16 {
        match self.random.below(100) {
            0..=2 => 0,
            3..=4 => 1,
            5..=6 => self.random.between(2, 229) as u16,
            7..=12 => 230,
            13..=49 => 231,
            50..=64 => 232,
            65..=84 => 300,
            85..=97 => self.random.between(233, 5000) as u16,
            98 => u16::MAX,
            _ => self.random.between(5001, 65535) as u16,
        }
    }

    /// A slot around the request slot, the transition and the base, or far off.
    fn slot(&mut self, image: &[u8]) -> u64 {
        let timetable = timetable_of(image).unwrap_or(Timetable::empty());
        let (first, base) = (timetable.request_slot, timetable.base);
        match self.random.below(40) {
            0..=2 => first.saturating_sub(1),
            3 => self.random.below(first),
            4..=6 => first,
            7..=13 => first.saturating_add(self.random.below(u64::from(timetable.length))),
            14 => base.saturating_sub(1),
            15..=18 => base,
            19..=25 => base.saturating_add(self.random.below(16)),
            26..=30 => base.saturating_add(self.random.below(1100)),
            31..=32 => self.random.between(base.min(LAST_SLOT), LAST_SLOT),
            33..=35 => LAST_SLOT,
            36..=37 => LAST_SLOT + 1,
            38 => u64::MAX,
            _ => self.random.bits() >> self.random.below(64),
        }
    }

    /// An id, mostly a listed one.
    fn id(&mut self, image: &[u8]) -> u8 {
        let listed = timetable_of(image).map_or(Vec::new(), |timetable| listed_ids(&timetable));
        let any = self.random.below(IDS as u64) as u8;
        match self.random.below(20) {
            0..=13 => self.random.pick(&listed).map_or(any, |id| id as u8),
            14..=16 => any,
            17 => IDS as u8,
            18 => u8::MAX,
            _ => self.random.byte(),
        }
    }

    /// A content of a kind that there is not.
    fn unknown_kind(&mut self, field: &[u8]) -> Vec<u8> {
        let kind = self.random.pick(&[0, 8, 0x40, u8::MAX]).unwrap_or(0);
        if self.random.chance(1, 4) {
            Vec::new()
        } else {
            [&[kind][..], field].concat()
        }
    }
}

/// A pattern: none, one byte, a few, bytes that answers have too, or more than an area.
pub fn pattern(random: &mut Random) -> Vec<u8> {
    let few = random.between(2, 9);
    let count = match random.below(64) {
        0..=9 => 0,
        10..=29 => 1,
        30..=59 => few,
        60..=62 => random.between(10, 70),
        _ => random.between(200, 330),
    };
    let alike = random.chance(1, 3);
    (0..count).map(|_| if alike { answer_byte(random) } else { random.byte() }).collect()
}

/// A byte that answers have in many places.
fn answer_byte(random: &mut Random) -> u8 {
    let small = small_number(random);
    random.pick(&[0x10, 0x11, 0x12, 0, 0, 1, 2, small]).unwrap_or(small)
}

/// A small number.
fn small_number(random: &mut Random) -> u8 {
    random.below(10) as u8
}

/// A content is now and then cut off or goes on; it never has more bytes than a frame can hold.
pub fn trim(random: &mut Random, content: &mut Vec<u8>) {
    match random.below(100) {
        0..=1 => content.truncate(random.below(content.len() as u64 + 1) as usize),
        2 => content.extend((0..random.below(12)).map(|_| random.byte())),
        _ => (),
    }
    content.truncate(LONGEST_FRAME);
}

/// A history of some requests from the empty timetable.
pub fn fresh_history(random: &mut Random) -> Generator {
    let requests = random.between(40, 400);
    Generator::after(Timetable::empty(), random.bits(), requests)
}

impl Iterator for Probes {
    type Item = Made;

    /// The next probe of the stream.
    fn next(&mut self) -> Option<Made> {
        if let Some(content) = self.cases.next() {
            return Some(Made { content, origin: Origin::Case });
        }
        if let Some(query) = self.sweep.next() {
            return Some(query);
        }
        self.left = self.left.checked_sub(1)?;
        self.sweep = self.next_sweep().into_iter();
        Some(self.make())
    }
}
