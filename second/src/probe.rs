//! The probe: any timetable, sound or not, any request, any archived answer, any listing and any area
//! are put to the model, and everything that comes back stands in a line. Its protocol is
//! docs/PROBE.md.

use crate::archive::{tell_answer, tell_field, FieldTold};
use crate::asking::Asking;
use crate::change::change;
use crate::numbers;
use crate::queries::{owner_query, standing_query};
use crate::timetable::{Entry, Timetable};

/// The bytes of a timetable's image.
pub const IMAGE: usize = 337;
/// The kinds of probes: change, owner query, standing query, the empty timetable, reading an answer,
/// writing a request, and a field of an answer.
pub const CHANGE: u8 = 1;
pub const OWNER: u8 = 2;
pub const STANDING: u8 = 3;
pub const EMPTY: u8 = 4;
pub const ANSWER: u8 = 5;
pub const REQUEST: u8 = 6;
pub const FIELD: u8 = 7;

/// The most zeros that one run of a printed image stands for.
const LONGEST_RUN: usize = 255;

/// What a probe puts to the model.
#[derive(Clone, Debug, PartialEq, Eq)]
pub enum Probe {
    Change { image: Vec<u8>, request: Vec<u8>, area: Vec<u8> },
    Owner { image: Vec<u8>, slot: u64 },
    Standing { image: Vec<u8>, id: u8, slot: u64 },
    Empty { image: Vec<u8> },
    Answer { record: Vec<u8>, area: Vec<u8> },
    Request { asking: Asking, area: Vec<u8> },
    Field { record: Vec<u8>, place: u64 },
    Bad,
}

/// What comes back from the model, with the image and the area that the call left.
#[derive(Clone, Debug, PartialEq, Eq)]
pub enum Reply {
    Change { number: u8, place: u64, tries: u16, written: usize, image: Vec<u8>, area: Vec<u8> },
    Owner { number: u8, owner: u8 },
    Standing { number: u8, shortfall: u16, slices: u64 },
    Empty { number: u8, image: Vec<u8> },
    Answer { number: u8, place: u64, area: Vec<u8> },
    Request { number: u8, place: u64, written: usize, area: Vec<u8> },
    Field(FieldTold),
    Bad,
}

/// The line that a probe is answered with.
pub fn probe_line(content: &[u8]) -> String {
    let probe = read_probe(content);
    let reply = put(&probe);
    line(&probe, &reply)
}

/// A content's probe; a kind that there is not is a bad probe.
pub fn read_probe(content: &[u8]) -> Probe {
    let mut reader = Reader { content, at: 0 };
    match reader.byte() {
        CHANGE => {
            let (image, request) = (reader.image(), reader.bytes());
            Probe::Change { image, request, area: reader.area() }
        }
        OWNER => Probe::Owner { image: reader.image(), slot: reader.number(8) },
        STANDING => {
            let (image, id) = (reader.image(), reader.byte());
            Probe::Standing { image, id, slot: reader.number(8) }
        }
        EMPTY => Probe::Empty { image: reader.image() },
        ANSWER => Probe::Answer { record: reader.bytes(), area: reader.area() },
        REQUEST => Probe::Request { asking: reader.asking(), area: reader.area() },
        FIELD => Probe::Field { record: reader.bytes(), place: reader.number(8) },
        _ => Probe::Bad,
    }
}

/// A content as it is read from left to right; zeros follow where it ends.
struct Reader<'a> {
    content: &'a [u8],
    at: usize,
}

impl Reader<'_> {
    /// The next byte if the content goes so far.
    fn present(&mut self) -> Option<u8> {
        let byte = self.content.get(self.at).copied();
        self.at += 1;
        byte
    }

    /// The next byte, 0 where the content has ended.
    fn byte(&mut self) -> u8 {
        self.present().unwrap_or(0)
    }

    /// A number of so many bytes, high byte first.
    fn number(&mut self, width: usize) -> u64 {
        (0..width).fold(0, |number, _| number << 8 | u64::from(self.byte()))
    }

    /// An image: its length, then packed bytes until it is full; a run beyond it ends with it.
    fn image(&mut self) -> Vec<u8> {
        let length = self.number(2) as usize;
        let mut image = Vec::with_capacity(length);
        while image.len() < length {
            match self.byte() {
                0 => {
                    let zeros = self.zeros();
                    image.resize((image.len() + zeros).min(length), 0);
                }
                byte => image.push(byte),
            }
        }
        image
    }

    /// The zeros of a run: its count, and 256 if the count is 0.
    fn zeros(&mut self) -> usize {
        match self.byte() {
            0 => 256,
            count => usize::from(count),
        }
    }

    /// A request, a record or a listing: its length, then its bytes as far as the content goes.
    fn bytes(&mut self) -> Vec<u8> {
        let length = self.number(2);
        (0..length).map_while(|_| self.present()).collect()
    }

    /// What a request is written from: slot, T and listing.
    fn asking(&mut self) -> Asking {
        let (slot, longest) = (self.number(8), self.byte());
        Asking { slot, longest, listing: self.bytes() }
    }

    /// An area: its length, then the rest as the pattern that fills it over and over.
    fn area(&mut self) -> Vec<u8> {
        let length = self.number(2) as usize;
        match self.content.get(self.at..) {
            None | Some([]) => vec![0; length],
            Some(pattern) => pattern.iter().copied().cycle().take(length).collect(),
        }
    }
}

/// The model's reply; an image that is no timetable is refused 1 and left as it is.
pub fn put(probe: &Probe) -> Reply {
    match probe {
        Probe::Change { image, request, area } => put_change(image, request, area),
        Probe::Owner { image, slot } => {
            let reply = timetable_of(image).map(|timetable| owner_query(&timetable, *slot));
            let (number, owner) = reply.unwrap_or((numbers::NOT_SOUND, 0));
            Reply::Owner { number, owner }
        }
        Probe::Standing { image, id, slot } => {
            let reply = timetable_of(image).map(|timetable| standing_query(&timetable, *id, *slot));
            let (number, shortfall, slices) = reply.unwrap_or((numbers::NOT_SOUND, 0, 0));
            Reply::Standing { number, shortfall, slices }
        }
        Probe::Empty { image } => put_empty(image),
        Probe::Answer { record, area } => put_answer(record, area),
        Probe::Request { asking, area } => put_request(asking, area),
        Probe::Field { record, place } => Reply::Field(tell_field(record, *place)),
        Probe::Bad => Reply::Bad,
    }
}

/// A request is put to the image's timetable with a copy of the area that was handed in.
fn put_change(image: &[u8], request: &[u8], handed: &[u8]) -> Reply {
    let mut area = handed.to_vec();
    let Some(timetable) = timetable_of(image) else {
        let (number, image) = (numbers::NOT_SOUND, image.to_vec());
        return Reply::Change { number, place: 0, tries: 0, written: 0, image, area };
    };
    let outcome = change(&timetable, request, &mut area);
    Reply::Change {
        number: outcome.number,
        place: outcome.place,
        tries: outcome.tries,
        written: outcome.written,
        image: image_of(&outcome.timetable),
        area,
    }
}

/// The empty timetable takes an image's place, if it has an image's length.
fn put_empty(image: &[u8]) -> Reply {
    if image.len() == IMAGE {
        Reply::Empty { number: numbers::ACCEPTED, image: image_of(&Timetable::empty()) }
    } else {
        Reply::Empty { number: numbers::NOT_SOUND, image: image.to_vec() }
    }
}

/// An answer is read with a copy of the area that was handed in.
fn put_answer(record: &[u8], handed: &[u8]) -> Reply {
    let mut area = handed.to_vec();
    let (number, place) = tell_answer(record, &mut area);
    Reply::Answer { number, place, area }
}

/// A request is written into a copy of the area that was handed in.
fn put_request(asking: &Asking, handed: &[u8]) -> Reply {
    let mut area = handed.to_vec();
    let (number, place, written) = asking.write(&mut area);
    Reply::Request { number, place, written, area }
}

/// A reply's line; a query's place is always 0.
pub fn line(probe: &Probe, reply: &Reply) -> String {
    match reply {
        Reply::Change { number, place, tries, written, image, area } => {
            let image = image_text(image);
            let area = area_text(handed(probe), area);
            format!("change {number} {place} {tries} {written} {image} {area}")
        }
        Reply::Owner { number, owner } => format!("owner {number} 0 {owner}"),
        Reply::Standing { number, shortfall, slices } => {
            format!("standing {number} 0 {shortfall} {slices}")
        }
        Reply::Empty { number, image } => format!("empty {number} {}", image_text(image)),
        Reply::Answer { number, place, area } => {
            format!("answer {number} {place} {}", area_text(handed(probe), area))
        }
        Reply::Request { number, place, written, area } => {
            format!("request {number} {place} {written} {}", area_text(handed(probe), area))
        }
        Reply::Field(FieldTold { number, place, tag, first, second, next }) => {
            format!("field {number} {place} {tag} {first} {second} {next}")
        }
        Reply::Bad => String::from("bad probe"),
    }
}

/// The area that a probe hands in.
fn handed(probe: &Probe) -> &[u8] {
    match probe {
        Probe::Change { area, .. } => area,
        Probe::Answer { area, .. } | Probe::Request { area, .. } => area,
        _ => &[],
    }
}

/// An image packed and in hexadecimal, `-` if it has no bytes.
fn image_text(image: &[u8]) -> String {
    if image.is_empty() {
        String::from("-")
    } else {
        hexadecimal(&pack(image))
    }
}

/// An area up to the last byte that differs from the one handed in, then how many stand after it.
fn area_text(handed: &[u8], area: &[u8]) -> String {
    let differs = |at: &usize| handed.get(*at) != area.get(*at);
    let changed = (0..area.len()).rev().find(differs).map_or(0, |last| last + 1);
    let (written, rest) = area.split_at(changed);
    format!("{}+{}", hexadecimal(written), rest.len())
}

/// Bytes in hexadecimal, two digits each.
fn hexadecimal(bytes: &[u8]) -> String {
    bytes.iter().map(|byte| format!("{byte:02x}")).collect()
}

/// Packed bytes: a run of up to 255 zeros is a 0 and its count, any other byte is itself.
pub fn pack(bytes: &[u8]) -> Vec<u8> {
    let mut packed = Vec::new();
    let mut at = 0;
    while let Some(&byte) = bytes.get(at) {
        let zeros = bytes[at..].iter().take(LONGEST_RUN).take_while(|&&byte| byte == 0).count();
        packed.push(byte);
        if zeros > 0 {
            packed.push(zeros as u8);
        }
        at += zeros.max(1);
    }
    packed
}

/// The timetable that an image holds; nothing if it is not of an image's length.
pub fn timetable_of(image: &[u8]) -> Option<Timetable> {
    if image.len() != IMAGE {
        return None;
    }
    let mut fields = Reader { content: image, at: 0 };
    let mut timetable = Timetable::empty();
    timetable.request_slot = fields.number(8);
    timetable.length = fields.byte();
    for owner in &mut timetable.owners {
        *owner = fields.byte();
    }
    timetable.base = fields.number(8);
    for entry in &mut timetable.entries {
        let (period, offset) = (fields.number(2) as u16, fields.byte());
        let (bound, shortfall) = (fields.byte(), fields.number(2) as u16);
        *entry = Entry { period, offset, bound, shortfall };
    }
    for start in &mut timetable.starts {
        *start = fields.number(2) as u16;
    }
    Some(timetable)
}

/// The image of a timetable: its fields in their order, numbers high byte first.
pub fn image_of(timetable: &Timetable) -> Vec<u8> {
    let mut image = Vec::with_capacity(IMAGE);
    image.extend(timetable.request_slot.to_be_bytes());
    image.push(timetable.length);
    image.extend(timetable.owners);
    image.extend(timetable.base.to_be_bytes());
    for entry in &timetable.entries {
        image.extend(entry.period.to_be_bytes());
        image.extend([entry.offset, entry.bound]);
        image.extend(entry.shortfall.to_be_bytes());
    }
    for start in timetable.starts {
        image.extend(start.to_be_bytes());
    }
    image
}

/// An image as it stands in a content: its length, then its bytes packed.
pub fn image_field(image: &[u8]) -> Vec<u8> {
    packed_field(image.len() as u16, &pack(image))
}

/// The field of an image of some length whose bytes are packed already.
pub fn packed_field(length: u16, packed: &[u8]) -> Vec<u8> {
    [&length.to_be_bytes()[..], packed].concat()
}

/// The content of a change probe.
pub fn change_content(image: &[u8], request: &[u8], area: u16, pattern: &[u8]) -> Vec<u8> {
    [&[CHANGE][..], image, &sized(request), &area.to_be_bytes()[..], pattern].concat()
}

/// The content of an owner probe.
pub fn owner_content(image: &[u8], slot: u64) -> Vec<u8> {
    [&[OWNER][..], image, &slot.to_be_bytes()[..]].concat()
}

/// The content of a standing probe.
pub fn standing_content(image: &[u8], id: u8, slot: u64) -> Vec<u8> {
    [&[STANDING][..], image, &[id][..], &slot.to_be_bytes()[..]].concat()
}

/// The content of a probe for the empty timetable.
pub fn empty_content(image: &[u8]) -> Vec<u8> {
    [&[EMPTY][..], image].concat()
}

/// The content of a probe that reads an answer.
pub fn answer_content(record: &[u8], area: u16, pattern: &[u8]) -> Vec<u8> {
    [&[ANSWER][..], &sized(record), &area.to_be_bytes()[..], pattern].concat()
}

/// The content of a probe that writes a request.
pub fn request_content(asking: &Asking, area: u16, pattern: &[u8]) -> Vec<u8> {
    let slot = asking.slot.to_be_bytes();
    let listing = sized(&asking.listing);
    [&[REQUEST][..], &slot, &[asking.longest], &listing, &area.to_be_bytes()[..], pattern].concat()
}

/// The content of a probe that reads the field of an answer at a place.
pub fn field_content(record: &[u8], place: u64) -> Vec<u8> {
    [&[FIELD][..], &sized(record), &place.to_be_bytes()[..]].concat()
}

/// Bytes with their number in two bytes before them.
fn sized(bytes: &[u8]) -> Vec<u8> {
    [&(bytes.len() as u16).to_be_bytes()[..], bytes].concat()
}
