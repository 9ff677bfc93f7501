//! `tarnflaw owner` and `tarnflaw standing`: the queries after a file of requests.

use crate::arguments::Arguments;
use crate::controller::Controller;
use crate::image::Image;
use crate::numbers::says;
use crate::output::complain;
use crate::requests::{Put, Requests};
use crate::run::sentence;
use crate::stop::{wrong, Ended, Stop, Verdict};
use crate::words::number;
use std::io::{self, BufWriter, Write};
use std::ops::RangeInclusive;
use tarnflaw::{ACCEPTED, IDLE, NOT_LISTED};

/// `tarnflaw owner FILE SLOT..`
pub fn owner(arguments: &Arguments) -> Ended {
    let [file, slots @ ..] = &arguments.words[..] else {
        return arguments.misused("no file is given");
    };
    answer(arguments, file, slots, |image, slot| {
        let told = tarnflaw::owner(&image.0, slot);
        let said = match (told.number, told.owner) {
            (ACCEPTED, IDLE) => "idle".to_string(),
            (ACCEPTED, owner) => format!("id {owner}"),
            (number, _) => format!("refused {number}, {}", says(number)),
        };
        (told.number, said)
    })
}

/// `tarnflaw standing FILE ID SLOT..`
pub fn standing(arguments: &Arguments) -> Ended {
    let [file, id, slots @ ..] = &arguments.words[..] else {
        return arguments.misused("a file, an id and a slot were expected");
    };
    let id = arguments.parsed("the id", id, u8::MAX.into())? as u8;
    answer(arguments, file, slots, |image, slot| {
        let told = tarnflaw::standing(&image.0, id, slot);
        let said = match told.number {
            ACCEPTED => format!("id {id}: shortfall {}, slices {}", told.shortfall, told.slices),
            NOT_LISTED => {
                format!("refused {NOT_LISTED}, {}; it is owed {}", says(NOT_LISTED), image.kept(id))
            }
            number => format!("refused {number}, {}", says(number)),
        };
        (told.number, said)
    })
}

/// Puts the requests of a file, and asks for slots: each is answered by a number and what is said.
fn answer(
    arguments: &Arguments,
    file: &str,
    slots: &[String],
    ask: impl Fn(&Image, u64) -> (u8, String),
) -> Ended {
    if slots.is_empty() {
        return arguments.misused("no slot is given");
    }
    let slots: Vec<_> =
        slots.iter().map(|word| range(arguments, word)).collect::<Result<_, _>>()?;
    let (image, mut verdict) = after(file)?;
    let mut output = BufWriter::new(io::stdout().lock());
    for slot in slots.into_iter().flatten() {
        let (number, said) = ask(&image, slot);
        verdict = verdict.and(Verdict::of(number));
        writeln!(output, "slot {slot}: {said}")?;
    }
    output.flush()?;
    Ok(verdict)
}

/// The slots that a word names: one, or those from the first to the last of a range.
fn range(arguments: &Arguments, word: &str) -> Result<RangeInclusive<u64>, Stop> {
    let (first, last) = word.split_once("..").unwrap_or((word, word));
    let (Some(first), Some(last)) = (number(first.as_bytes()), number(last.as_bytes())) else {
        return arguments
            .misused(&format!("'{word}', and a slot, or a range such as 6..14, was expected"));
    };
    let range = first..=last;
    if range.is_empty() {
        return arguments.misused(&format!(
            "'{word}', and a range from a slot to one not before it was expected"
        ));
    }
    Ok(range)
}

/// The timetable after the requests of a file. A refused one leaves it as it was, and is told on standard error.
fn after(file: &str) -> Result<(Image, Verdict), Stop> {
    let mut requests = Requests::open(file)?;
    let mut controller = Controller::empty();
    let mut verdict = Verdict::Done;
    loop {
        match requests.next()? {
            Put::Request(request, at) => {
                let request = request.to_vec();
                let told = controller.put(&request);
                verdict = verdict.and(Verdict::of(told.number));
                if told.number != ACCEPTED {
                    let why = sentence(&controller, &requests, &request, at, told);
                    complain(&format!("{file}: request {}: {why}", controller.ordinal));
                }
            }
            Put::End => return Ok((controller.image, verdict)),
            Put::BadFrame(said) => return wrong(said),
        }
    }
}
