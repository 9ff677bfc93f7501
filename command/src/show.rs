//! `tarnflaw show`: the slots around each change as a picture, in the terminal or as an SVG file.

use crate::arguments::Arguments;
use crate::controller::Controller;
use crate::output::write_file;
use crate::picture::{Around, History, Names, Picture};
use crate::progress::Progress;
use crate::requests::{Put, Requests};
use crate::run::sentence;
use crate::stop::{wrong, Ended, Stop, Verdict};
use crate::svg::Svg;
use crate::terminal::Terminal;
use crate::words::shown;
use std::io::{self, BufWriter, IsTerminal, Write};
use tarnflaw::{ACCEPTED, IDS};

/// The options of the verb.
pub const OPTIONS: &[&str] = &["--svg", "--only", "--before", "--after", "--columns", "--name"];

/// Characters that the name of a partition has at most.
const LONGEST_NAME: usize = 40;

/// Where pictures go.
enum Drawing {
    Terminal(Terminal, BufWriter<io::StdoutLock<'static>>),
    Svg(Svg, String),
}

impl Drawing {
    /// Draws a change.
    fn draw(&mut self, picture: &Picture) -> Result<(), Stop> {
        match self {
            Drawing::Terminal(terminal, output) => {
                output.write_all(terminal.draw(picture).as_bytes())?
            }
            Drawing::Svg(svg, _) => svg.draw(picture),
        }
        Ok(())
    }

    /// Says that a request was refused.
    fn say(&mut self, said: &str) -> Result<(), Stop> {
        match self {
            Drawing::Terminal(_, output) => writeln!(output, "{said}\n")?,
            Drawing::Svg(svg, _) => svg.say(said),
        }
        Ok(())
    }

    /// Ends the drawing.
    fn finish(self) -> Result<(), Stop> {
        match self {
            Drawing::Terminal(_, mut output) => Ok(output.flush()?),
            Drawing::Svg(svg, file) => write_file(&file, svg.finish().as_bytes()),
        }
    }
}

/// `tarnflaw show [FILE]`
pub fn verb(arguments: &Arguments) -> Ended {
    let around = around(arguments)?;
    let only = only(arguments)?;
    let mut drawing = drawing(arguments)?;
    let mut requests = Requests::open(&arguments.file()?)?;
    let mut progress = Progress::begin();
    let mut controller = Controller::empty();
    let mut history = History::empty(around);
    let mut verdict = Verdict::Done;
    let bad = loop {
        let (request, at) = match requests.next()? {
            Put::Request(request, at) => (request.to_vec(), at),
            Put::End => break None,
            Put::BadFrame(said) => break Some(said),
        };
        let told = controller.put(&request);
        verdict = verdict.and(Verdict::of(told.number));
        let ordinal = controller.ordinal;
        let drawn = only.is_none_or(|only| only == ordinal);
        if told.number == ACCEPTED {
            history.accept(&controller.image);
        }
        if drawn && told.number == ACCEPTED {
            drawing.draw(&history.picture(ordinal))?;
        } else if drawn {
            let why = sentence(&controller, &requests, &request, at, told);
            drawing.say(&format!("request {ordinal}: {why}"))?;
        }
        progress.tell(ordinal);
    };
    if let Some(only) = only.filter(|&only| only > controller.ordinal && bad.is_none()) {
        return arguments
            .misused(&format!("--only {only}, and the input has {} requests", controller.ordinal));
    }
    drawing.finish()?;
    bad.map_or(Ok(verdict), wrong)
}

/// The one request whose change is to be drawn, if one is named.
fn only(arguments: &Arguments) -> Result<Option<u64>, Stop> {
    let Some(given) = arguments.value("--only") else { return Ok(None) };
    match arguments.parsed("--only", given, u64::MAX)? {
        0 => arguments.misused("--only 0, and a request counted from 1 was expected"),
        only => Ok(Some(only)),
    }
}

/// How many slots are to be drawn around a change, the first from the base on among them.
fn around(arguments: &Arguments) -> Result<Around, Stop> {
    let before = arguments.number("--before", 64, 6)?;
    match arguments.number("--after", 256, 8)? {
        0 => arguments.misused("--after 0, and 1 slot or more was expected"),
        after => Ok(Around { before, after }),
    }
}

/// Where the pictures are to go.
fn drawing(arguments: &Arguments) -> Result<Drawing, Stop> {
    let names = names(arguments)?;
    if let Some(file) = arguments.value("--svg") {
        return Ok(Drawing::Svg(Svg::new(names), file.to_string()));
    }
    let shell = std::env::var("COLUMNS").ok().and_then(|columns| columns.parse().ok());
    let columns = arguments.number("--columns", 1000, shell.unwrap_or(80).clamp(60, 1000))?;
    if columns < 60 {
        return arguments.misused("--columns under 60, and 60 or more were expected");
    }
    let set = |name: &str| std::env::var_os(name).unwrap_or_default();
    let bold = io::stdout().is_terminal() && set("NO_COLOR").is_empty() && set("TERM") != "dumb";
    let output = BufWriter::new(io::stdout().lock());
    Ok(Drawing::Terminal(Terminal { names, columns: columns as usize, bold }, output))
}

/// What partitions are called.
fn names(arguments: &Arguments) -> Result<Names, Stop> {
    let named = arguments.all("--name").map(|given| match given.split_once('=') {
        Some((id, name)) if is_name(name) => {
            let id = arguments.parsed("the id of --name", id, u64::from(IDS) - 1)?;
            Ok((id as u8, name.to_string()))
        }
        Some((_, name)) => {
            let expected = format!("1 to {LONGEST_NAME} characters that can be printed");
            arguments.misused(&format!(
                "'{}' for --name, and {expected} were expected",
                shown(name.as_bytes())
            ))
        }
        None => arguments.misused(&format!("'{given}' for --name, and ID=NAME was expected")),
    });
    named.collect()
}

/// Whether a text can stand in a picture as a name: it is short, and each character can be printed and stand in XML.
fn is_name(text: &str) -> bool {
    let fits = |letter: char| !letter.is_control() && !('\u{fffe}'..='\u{ffff}').contains(&letter);
    (1..=LONGEST_NAME).contains(&text.chars().count()) && text.chars().all(fits)
}
