//! `tarnflaw request`: one record from its figures, by the library's writer.

use crate::arguments::Arguments;
use crate::decode::put_bytes;
use crate::frames::put_frame;
use crate::numbers::says;
use crate::output::{complain, print, print_bytes};
use crate::stop::{Ended, Stop, Verdict};
use tarnflaw::{ACCEPTED, LAST_SLOT, LIMIT_PLACE, LONGEST, REQUEST, SLOT_PLACE};

/// The figures of a request.
struct Figures {
    slot: u64,
    limit: u8,
    listing: Vec<[u8; 3]>,
}

/// `tarnflaw request slot N T N [list N k N R N]..`
pub fn verb(arguments: &Arguments) -> Ended {
    let figures = figures(arguments)?;
    let mut area = [0; REQUEST];
    let told =
        tarnflaw::write_request(figures.slot, figures.limit, &figures.listing.concat(), &mut area);
    if told.number != ACCEPTED {
        let why = at(&figures, told.place);
        complain(&format!(
            "tarnflaw request: refused {}, {}: {why}",
            told.number,
            says(told.number)
        ));
        return Ok(Verdict::Refused);
    }
    put_out(arguments, &area[..told.written]).map(|()| Verdict::Done)
}

/// Writes a record in the form that is asked for.
fn put_out(arguments: &Arguments, record: &[u8]) -> Result<(), Stop> {
    match (arguments.has("--frame"), arguments.has("--raw")) {
        (true, true) => arguments.misused("--frame and --raw, and one of them was expected"),
        (true, false) => {
            let mut frame = Vec::new();
            put_frame(&mut frame, record);
            print_bytes(&frame)
        }
        (false, true) => print_bytes(record),
        (false, false) => {
            let mut text = String::new();
            put_bytes(&mut text, "bytes", record);
            print(text.as_bytes())
        }
    }
}

/// The figures that the words say.
fn figures(arguments: &Arguments) -> Result<Figures, Stop> {
    let mut words = arguments.words.iter().map(String::as_str);
    let slot = named(arguments, &mut words, "slot", u64::MAX)?;
    let limit = named(arguments, &mut words, "T", u8::MAX.into())? as u8;
    let mut listing = Vec::new();
    while words.len() > 0 {
        let id = named(arguments, &mut words, "list", u8::MAX.into())?;
        let k = named(arguments, &mut words, "k", u8::MAX.into())?;
        let bound = named(arguments, &mut words, "R", u8::MAX.into())?;
        listing.push([id as u8, k as u8, bound as u8]);
    }
    Ok(Figures { slot, limit, listing })
}

/// The number behind a name.
fn named<'a>(
    arguments: &Arguments,
    words: &mut impl Iterator<Item = &'a str>,
    name: &str,
    limit: u64,
) -> Result<u64, Stop> {
    match words.next() {
        Some(word) if word == name => {}
        Some(word) => return arguments.misused(&format!("'{word}', and {name} was expected")),
        None => return arguments.misused(&format!("the words end, and {name} was expected")),
    }
    match words.next() {
        Some(word) => arguments.parsed(name, word, limit),
        None => arguments.misused(&format!("the words end, and a number for {name} was expected")),
    }
}

/// What the writer's place tells.
fn at(figures: &Figures, place: usize) -> String {
    match place {
        SLOT_PLACE => format!("slot {}, and at most {LAST_SLOT} was expected", figures.slot),
        LIMIT_PLACE => format!("T {}, and at most {LONGEST} was expected", figures.limit),
        entry => match figures.listing.get(entry) {
            Some([id, k, bound]) => format!(
                "list {id} k {k} R {bound}, entry {entry} counted from 0, and ids rising from 0 to 31, k 0 to 8 and R 1 to 8 were expected"
            ),
            None => format!("entry {entry}"),
        },
    }
}
