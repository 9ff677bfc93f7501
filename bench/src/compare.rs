//! All answers of the library and the port held against each other, before anything is timed.

use port::{AREA, IDS, IMAGE, LAST_SLOT, LONGEST, SCHEDULE};

use crate::archive::{Archive, Figures, REQUEST};
use crate::inputs::{empty_image, Input, Query};
use crate::library;
use crate::random::Random;

/// What stands in an area before a call.
const FILL: u8 = 0x5a;

/// How many calls agreed, or what differs.
pub type Agreed = Result<usize, String>;

/// One change by both: outcome, image and area.
fn same_change(image: &[u8], record: &[u8], area: usize) -> Result<(), String> {
    let (mut image_a, mut image_b) = (image.to_vec(), image.to_vec());
    let (mut area_a, mut area_b) = (vec![FILL; area], vec![FILL; area]);
    let a = library::change(&mut image_a, record, &mut area_a);
    let b = port::change(&mut image_b, record, &mut area_b);
    if a != b || image_a != image_b || area_a != area_b {
        return Err(format!("change differs: library {a:?}, port {b:?}, record {record:?}"));
    }
    Ok(())
}

/// Changes with an area just large enough, and with one too small and one larger.
pub fn changes(inputs: &[Input]) -> Agreed {
    for input in inputs {
        for area in [AREA, AREA - 1, AREA + 69] {
            same_change(&input.image, &input.record, area)?;
        }
    }
    Ok(3 * inputs.len())
}

/// Changes with short fields in place of some full ones and of all, which ask the R as before.
pub fn short_fields(seed: u64, inputs: &[Input]) -> Agreed {
    let mut random = Random::new(seed);
    for input in inputs {
        for percent in [50, 100] {
            let record = shortened(&mut random, &input.record, percent);
            same_change(&input.image, &record, AREA)?;
        }
    }
    Ok(2 * inputs.len())
}

/// A request whose fields are in full, with so many of a hundred short.
fn shortened(random: &mut Random, record: &[u8], percent: u64) -> Vec<u8> {
    let (head, fields) = record.split_at(15);
    let mut short = head.to_vec();
    for field in fields.chunks_exact(6) {
        if random.percent(percent) {
            short.extend([3, 0, 2, field[3], field[4]]);
        } else {
            short.extend(field);
        }
    }
    short
}

/// Changes and queries on images with bytes changed, most of them not sound, and of other lengths.
pub fn damaged(seed: u64, inputs: &[Input]) -> Agreed {
    let mut random = Random::new(seed);
    for input in inputs {
        let mut image = input.image.to_vec();
        for _ in 0..random.between(1, 2) {
            let at = random.below(IMAGE as u64) as usize;
            image[at] ^= 1 << random.below(8);
        }
        let others = [0, IMAGE - 1, IMAGE + 1, IMAGE - 2 * IDS];
        let other = random.pick(&others);
        image.resize(random.pick(&[IMAGE, IMAGE, IMAGE, other]), 0);
        same_change(&image, &input.record, AREA)?;
        same_queries(&image, random.below(34) as u8, random.below(1 << 12))?;
    }
    Ok(3 * inputs.len())
}

/// Both queries by both.
fn same_queries(image: &[u8], id: u8, slot: u64) -> Result<(), String> {
    let (a, b) = (library::owner(image, slot), port::owner(image, slot));
    if a != b {
        return Err(format!("owner query differs: library {a:?}, port {b:?}, slot {slot}"));
    }
    let (a, b) = (library::standing(image, id, slot), port::standing(image, id, slot));
    if a != b {
        return Err(format!("standing query differs: library {a:?}, port {b:?}, slot {slot}"));
    }
    Ok(())
}

/// Both queries on all inputs.
pub fn queries(queries: &[Query]) -> Agreed {
    for query in queries {
        same_queries(&query.image, query.id, query.slot)?;
    }
    Ok(2 * queries.len())
}

/// The empty image by both, also where the length is wrong.
pub fn empty() -> Agreed {
    for size in [0, IMAGE - 2 * IDS, IMAGE - 1, IMAGE, IMAGE + 1] {
        let (mut a, mut b) = (vec![FILL; size], vec![FILL; size]);
        if library::empty(&mut a) != port::empty(&mut b) || a != b {
            return Err(format!("empty differs at {size} bytes"));
        }
    }
    Ok(5)
}

/// The requests of a stream of frames, one after the other from the empty controller.
pub fn stream(frames: &[u8]) -> Agreed {
    let mut image = empty_image();
    let mut count = 0;
    let mut rest = frames;
    while let [_, high, low, content @ ..] = rest {
        let size = usize::from(u16::from_be_bytes([*high, *low]));
        let (record, after) = content.split_at(size);
        same_change(&image, record, AREA)?;
        library::change(&mut image, record, &mut [0; AREA]);
        count += 1;
        rest = after;
    }
    Ok(count)
}

/// One answer read by both: number, place and area.
fn same_reading(answer: &[u8], area: usize) -> Result<(), String> {
    let (mut area_a, mut area_b) = (vec![FILL; area], vec![FILL; area]);
    let a = library::read_answer(answer, &mut area_a);
    let b = port::read_answer(answer, &mut area_b);
    if a != b || area_a != area_b {
        return Err(format!("reading differs: library {a:?}, port {b:?}, answer {answer:?}"));
    }
    Ok(())
}

/// One request written by both: number, place, bytes written and area.
fn same_writing(figures: &Figures, area: usize) -> Result<(), String> {
    let Figures { slot, longest, listing } = figures;
    let (mut area_a, mut area_b) = (vec![FILL; area], vec![FILL; area]);
    let a = library::write_request(*slot, *longest, listing, &mut area_a);
    let b = port::write_request(*slot, *longest, listing, &mut area_b);
    if a != b || area_a != area_b {
        return Err(format!("writing differs: library {a:?}, port {b:?}, listing {listing:?}"));
    }
    Ok(())
}

/// Reading and writing, also with areas too small and larger, and with bytes changed.
pub fn archives(seed: u64, archive: &Archive) -> Agreed {
    let mut random = Random::new(seed);
    for answer in &archive.answers {
        for area in [SCHEDULE, SCHEDULE - 1, SCHEDULE + 7] {
            same_reading(answer, area)?;
        }
        same_reading(&changed(&mut random, answer), SCHEDULE)?;
    }
    for figures in &archive.figures {
        let bytes = 15 + 2 * figures.listing.len();
        for area in [REQUEST, bytes - 1, bytes] {
            same_writing(figures, area)?;
        }
        let listing = changed(&mut random, &figures.listing);
        same_writing(&Figures { listing, ..*figures }, REQUEST)?;
        let slot = random.pick(&[figures.slot, LAST_SLOT, LAST_SLOT + 1, u64::MAX]);
        let longest = random.pick(&[0, LONGEST as u8, LONGEST as u8 + 1, u8::MAX]);
        same_writing(&Figures { slot, longest, ..figures.clone() }, REQUEST)?;
    }
    Ok(4 * archive.answers.len() + 5 * archive.figures.len())
}

/// The same bytes with one of them changed, cut short, or with a byte more.
fn changed(random: &mut Random, bytes: &[u8]) -> Vec<u8> {
    let mut bytes = bytes.to_vec();
    let at = random.below(bytes.len() as u64) as usize;
    match random.below(4) {
        0 => bytes.truncate(at),
        1 => bytes.push(random.below(256) as u8),
        _ => bytes[at] ^= 1 << random.below(8),
    }
    bytes
}
