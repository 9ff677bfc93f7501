//! The sentence behind a line: what was accepted; or why not, where, and what can be done. The words are those of `docs/DICTIONARY.md`.

use crate::image::Image;
use crate::numbers::{says, MEANINGS, NO_LENGTH_HELPS};
use crate::requests::Where;
use tarnflaw::{
    Change, ACCEPTED, BAD_FIELD, BEHIND, LAST_SLOT, LENGTHS_EXHAUSTED, LONGEST, NOT_RISING,
    OUT_OF_RANGE, OVERFULL, SLOT_MISSED, TOO_EARLY,
};

/// The bytes of a request's record at which the fields of its slot and of T begin, the first field of an id, and the slot and T themselves.
const SLOT_FIELD: usize = 0;
const LIMIT_FIELD: usize = 11;
const LISTING: usize = 15;
const SLOT_AT: usize = 3;
const LIMIT_AT: usize = 14;

/// What was accepted: the timetable that the request left.
pub fn accepted(image: &Image) -> String {
    let first = image.request_slot();
    let owners = image.owners();
    let transition = match owners.len() {
        0 => "no transition".to_string(),
        _ => {
            let slots = owners
                .iter()
                .zip(first..)
                .map(|(owner, slot)| format!("slot {slot} to id {owner}"));
            format!("the transition gives {}", slots.collect::<Vec<_>>().join(", "))
        }
    };
    let offsets: Vec<String> =
        image.listed().map(|id| format!("id {id}: {}", image.offset(id))).collect();
    let cycle = match offsets.len() {
        0 => "nothing is listed".to_string(),
        _ => format!("offsets {}", offsets.join(", ")),
    };
    format!(
        "accepted at slot {first} with length {}: {transition}; the base is slot {}; {cycle}.",
        owners.len(),
        image.base()
    )
}

/// Why a request was refused, where, and what can be done. The image is the one that it was put to.
pub fn refused(
    image: &Image,
    request: &[u8],
    told: Change,
    place: impl Fn(usize, usize) -> Where,
) -> String {
    let reason = reason(image, request, told);
    let spot = match place(reason.byte, reason.field) {
        Where::Text(spot) => format!("line {}, word {}; ", spot.line, spot.word),
        Where::Byte(byte) => format!("byte {byte} of the frames; "),
    };
    format!(
        "refused {}, {}: {} ({spot}byte {} of the record). {}",
        told.number,
        says(told.number),
        reason.what,
        reason.field,
        reason.remedy
    )
}

/// What is at fault in a request: the byte of its record that says it, the byte at which that byte's field begins, what it is, and what can
/// be done.
struct Reason {
    byte: usize,
    field: usize,
    what: String,
    remedy: String,
}

/// The reason of a refusal.
fn reason(image: &Image, request: &[u8], told: Change) -> Reason {
    let place = told.place;
    let remedy = MEANINGS.get(usize::from(told.number)).map_or("", |meaning| meaning.remedy);
    let at = |byte, field, what| Reason { byte, field, what, remedy: remedy.to_string() };
    match told.number {
        BAD_FIELD => at(place, place, due(request, place)),
        OUT_OF_RANGE => value(request, place),
        NOT_RISING => {
            let id = request[place + 3];
            at(place + 3, place, format!("id {id} stands behind one that is not below it"))
        }
        TOO_EARLY => too_early(image, request),
        OVERFULL => {
            let field = field_of(request, place);
            at(field + 3, field, format!("the weights up to id {place} sum above 256"))
        }
        BEHIND => behind(image, request, place),
        SLOT_MISSED => {
            let slot = slot_of(request) + place as u64;
            let what = format!(
                "transition slot {place}, slot {slot}, is missed: more than one partition needs it; \
                 lengths 0 to {place} were searched, and a larger T gives the same answer"
            );
            at(SLOT_AT, SLOT_FIELD, what)
        }
        LENGTHS_EXHAUSTED => exhausted(place),
        _ => at(0, 0, "the library refused it".to_string()),
    }
}

/// What is said of a field that is not in its form: which one is due.
fn due(request: &[u8], place: usize) -> String {
    let (field, form) = match place {
        SLOT_FIELD => ("field 01, the slot,", "01 00 08 and 8 bytes"),
        LIMIT_FIELD => ("field 02, T,", "02 00 01 and 1 byte"),
        _ => ("field 03 of an id", "03 00 03 and id, k, R, or 03 00 02 and id, k"),
    };
    if place == request.len() {
        format!("the record ends, and {field} is due: {form}")
    } else {
        format!("no whole {field} stands here: {form}")
    }
}

/// The value that is out of range in the field that begins at a place. Of an id's field the library's writer tells which one it is.
fn value(request: &[u8], place: usize) -> Reason {
    let reason =
        |byte, what, remedy: &str| Reason { byte, field: place, what, remedy: remedy.to_string() };
    match place {
        SLOT_FIELD => {
            let what = format!("slot {} is above {LAST_SLOT}", slot_of(request));
            reason(SLOT_AT, what, "Slots are the controller's count, at most 2^48 - 1.")
        }
        LIMIT_FIELD => {
            let what = format!("T {} is above {LONGEST}", request[LIMIT_AT]);
            reason(LIMIT_AT, what, "Ask with T 64 at most.")
        }
        _ => {
            let fits = |entry: [u8; 3]| {
                tarnflaw::write_request(0, 0, &entry, &mut [0; tarnflaw::REQUEST]).number
                    == ACCEPTED
            };
            let (id, k) = (request[place + 3], request[place + 4]);
            if !fits([id, 0, 1]) {
                reason(place + 3, format!("id {id} is not 0 to 31"), "Ask for an id from 0 to 31.")
            } else if !fits([0, k, 1]) {
                reason(
                    place + 4,
                    format!("k {k} of id {id} is not 0 to 8"),
                    "Ask with a k from 0 to 8.",
                )
            } else {
                let bound = request[place + 5];
                let remedy = "Ask with an R from 1 to 8, or by a short field.";
                reason(place + 5, format!("R {bound} of id {id} is not 1 to 8"), remedy)
            }
        }
    }
}

/// A slot before the base.
fn too_early(image: &Image, request: &[u8]) -> Reason {
    let base = image.base();
    let what = format!(
        "slot {} lies before slot {base}, the base of the timetable that was accepted last",
        slot_of(request)
    );
    let remedy = if base > LAST_SLOT {
        "No slot that can be asked for is late enough.".to_string()
    } else {
        format!("Ask for slot {base} or a later one.")
    };
    Reason { byte: SLOT_AT, field: SLOT_FIELD, what, remedy }
}

/// An id that is too far behind for the R that is asked for it.
fn behind(image: &Image, request: &[u8], place: usize) -> Reason {
    let id = place as u8;
    let field = field_of(request, place);
    let slot = slot_of(request);
    let asked = tarnflaw::standing(&image.0, id, slot);
    let listed = asked.number == ACCEPTED;
    let stands = if listed { asked.shortfall } else { image.kept(id) };
    let given = request[field + 2] == 3;
    // A short field that is refused 8 is one of an id that is not listed (promise 16): it asks R 1.
    let bound = if given { request[field + 5] } else { 1 };
    let since = if listed { "" } else { ", with which it left," };
    let what = format!("id {id} stands at {stands}{since} at slot {slot}, and R {bound} is asked");
    let remedy = if listed {
        "Ask with a larger R, or by a short field, which leaves R as before."
    } else {
        "Ask with a larger R in full: a short field asks R 1 of an id that returns."
    };
    Reason { byte: if given { field + 5 } else { field }, field, what, remedy: remedy.to_string() }
}

/// All lengths up to T were searched in vain.
fn exhausted(limit: usize) -> Reason {
    let what = format!("lengths 0 to {limit} were searched in vain, and T is {limit}");
    let remedy = if limit < usize::from(LONGEST) {
        MEANINGS[usize::from(LENGTHS_EXHAUSTED)].remedy
    } else {
        NO_LENGTH_HELPS
    };
    Reason { byte: LIMIT_AT, field: LIMIT_FIELD, what, remedy: remedy.to_string() }
}

/// The slot of a request whose first field was read.
fn slot_of(request: &[u8]) -> u64 {
    request[SLOT_AT..LIMIT_FIELD].iter().fold(0, |sum, &byte| sum << 8 | u64::from(byte))
}

/// The byte at which the field of an id begins, in a request that was read.
fn field_of(request: &[u8], id: usize) -> usize {
    let mut at = LISTING;
    while usize::from(request[at + 3]) != id {
        at += 3 + usize::from(request[at + 2]);
    }
    at
}
