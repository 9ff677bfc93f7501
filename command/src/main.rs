//! `tarnflaw`, a command over the proved library: it reads text, calls the functions of `include/tarnflaw.h`, and shows what they tell.
//! `docs/COMMAND.md` is its page.

#![forbid(unsafe_code)]

mod answer;
mod arguments;
mod canvas;
mod controller;
mod decode;
mod explain;
mod frames;
mod help;
mod image;
mod numbers;
mod output;
mod picture;
mod progress;
mod queries;
mod request;
mod requests;
mod run;
mod show;
mod source;
mod stop;
mod svg;
mod terminal;
#[cfg(test)]
mod tests;
mod text;
mod words;

use crate::arguments::{Arguments, Takes};
use crate::source::{Source, FRAME_TAG};
use crate::stop::{wrong, Ended, Stop, Verdict};
use std::ffi::OsString;
use std::process::ExitCode;

/// A verb: what it takes, what is said of it, and what it does.
struct Verb {
    takes: Takes,
    help: &'static str,
    does: fn(&Arguments) -> Ended,
}

/// A verb by its name, options and help.
const fn verb(
    verb: &'static str,
    flags: &'static [&'static str],
    valued: &'static [&'static str],
    help: &'static str,
    does: fn(&Arguments) -> Ended,
) -> Verb {
    Verb { takes: Takes { verb, flags, valued }, help, does }
}

/// The verbs.
const VERBS: [Verb; 8] = [
    verb("run", &["--explain"], &["--answers"], help::RUN, run::verb),
    verb("show", &[], show::OPTIONS, help::SHOW, show::verb),
    verb("encode", &[], &[], help::ENCODE, encode),
    verb("decode", &[], &[], help::DECODE, decode),
    verb("request", &["--frame", "--raw"], &[], help::REQUEST, request::verb),
    verb("answer", &[], &[], help::ANSWER, answer::verb),
    verb("owner", &[], &[], help::OWNER, queries::owner),
    verb("standing", &[], &[], help::STANDING, queries::standing),
];

/// The verb that the arguments name is done; its end is the exit status.
fn main() -> ExitCode {
    let given: Result<Vec<String>, OsString> =
        std::env::args_os().skip(1).map(OsString::into_string).collect();
    let ended = match given {
        Ok(given) => command(&given),
        Err(word) => wrong(format!("tarnflaw: {word:?} is not in UTF-8")),
    };
    match ended {
        Ok(Verdict::Done) | Err(Stop::Closed) => ExitCode::SUCCESS,
        Ok(Verdict::Refused) => ExitCode::from(1),
        Err(Stop::Wrong(said)) => {
            output::complain(&said);
            ExitCode::from(2)
        }
    }
}

/// Does what the arguments say.
fn command(given: &[String]) -> Ended {
    let words: Vec<&str> = given.iter().map(String::as_str).collect();
    match words[..] {
        [] => wrong("tarnflaw: no verb is given; see: tarnflaw --help".to_string()),
        ["--help" | "-h" | "help"] | ["help", "--help" | "-h"] => told(help::COMMAND),
        ["--version" | "-V"] => version(),
        ["help", topic] => topic_help(topic),
        ["help", ..] => wrong("tarnflaw: help takes one topic; see: tarnflaw --help".to_string()),
        [name, ..] => match VERBS.iter().find(|verb| verb.takes.verb == name) {
            Some(verb) => match Arguments::of(&verb.takes, &given[1..])? {
                arguments if arguments.help => told(verb.help),
                arguments => (verb.does)(&arguments),
            },
            None => wrong(format!("tarnflaw: {name} is no verb of it; see: tarnflaw --help")),
        },
    }
}

/// Tells a text.
fn told(text: &str) -> Ended {
    output::print(text.as_bytes()).map(|()| Verdict::Done)
}

/// Tells what is said of a verb, or of another topic.
fn topic_help(topic: &str) -> Ended {
    match (topic, VERBS.iter().find(|verb| verb.takes.verb == topic)) {
        (_, Some(verb)) => told(verb.help),
        ("text", _) => told(help::TEXT),
        ("numbers", _) => told(&numbers::table()),
        _ => wrong(format!("tarnflaw: there is no help on {topic}; see: tarnflaw --help")),
    }
}

/// Tells the version of the library.
fn version() -> Ended {
    told(&format!(
        "tarnflaw, library version {}, image version {}\n",
        tarnflaw::VERSION,
        tarnflaw::IMAGE_VERSION
    ))
}

/// `tarnflaw encode`.
fn encode(arguments: &Arguments) -> Ended {
    let source = Source::open(&arguments.file()?)?;
    let name = source.name.clone();
    if source.first() == Some(FRAME_TAG) {
        return wrong(format!("{name}:1:1: frames, and a text was expected"));
    }
    match text::encode(&source.whole()?) {
        Ok(encoded) => output::print_bytes(&encoded.frames).map(|()| Verdict::Done),
        Err(fault) => wrong(fault.told(&name)),
    }
}

/// `tarnflaw decode`.
fn decode(arguments: &Arguments) -> Ended {
    let source = Source::open(&arguments.file()?)?;
    if let Some(first) = source.first().filter(|&byte| byte != FRAME_TAG) {
        let said = "and the tag of a frame, 40, was expected: all of it is told as a rest";
        output::complain(&format!("{}: byte 0: byte {first:02x}, {said}", source.name));
    }
    told(&decode::decode(&source.whole()?))
}
