//! The second program's commands: `lines` answers request frames, `generate` makes them and
//! `counts` counts the answers; `answers`, `probes` and `probe-counts` do so for probes, `archives` and
//! `archive-counts` for those that read answers and write requests; `pictures` works out what the
//! command draws; `figures` holds documents against the figures of the cases.

#![forbid(unsafe_code)]

use second_model::archive_counts::ArchiveCounts;
use second_model::archives::Archives;
use second_model::cases;
use second_model::counts::{ProbeCounts, RequestCounts};
use second_model::documents::{faults, Document};
use second_model::figures::Figures;
use second_model::frames::{frame, print_lines, print_pictures, print_probes};
use second_model::generate::Generator;
use second_model::pictures::Around;
use second_model::probes::Probes;
use std::io::{self, BufWriter, Write};
use std::num::IntErrorKind;
use std::process::ExitCode;

const USAGE: &str = "\
second lines                      frames from standard input, a line for each request
second cases                      the cases of docs/RULES.md 11 as request frames to standard output
second generate SEED COUNT        random request frames to standard output
second counts SEED COUNT          how often each answer comes in those frames
second answers                    probe frames from standard input, a line for each probe
second probes SEED COUNT          the cases, random probes, and transitions swept, to standard output
second probe-counts SEED COUNT    how often each answer comes in those probes
second archives SEED COUNT        cases and random probes that read answers and write requests
second archive-counts SEED COUNT  how often each answer comes in those probes
second pictures BEFORE AFTER      frames from standard input, the figures of each change's picture: so
                                  many slots before the request slot, and so many from the base on
second figures                    the figures that the documents show, worked out
second figures FILE..             whether the documents show them";

/// The command that the arguments name is run; where they name none, it is said what is wrong.
fn main() -> ExitCode {
    let arguments: Vec<String> = std::env::args().skip(1).collect();
    let words: Vec<&str> = arguments.iter().map(String::as_str).collect();
    match run(&words) {
        Ok(Ok(())) => ExitCode::SUCCESS,
        Ok(Err(error)) => {
            let _ = writeln!(io::stderr(), "second: {error}");
            ExitCode::FAILURE
        }
        Err(wrong) => {
            let _ = writeln!(io::stderr(), "{wrong}");
            ExitCode::from(2)
        }
    }
}

/// What came of the command that the words name; or what is wrong with them.
fn run(words: &[&str]) -> Result<io::Result<()>, String> {
    match *words {
        ["lines"] => Ok(lines()),
        ["cases"] => Ok(write_frames(cases::requests())),
        ["answers"] => Ok(answers()),
        ["figures"] => Ok(print_figures()),
        ["figures", ref files @ ..] => Ok(check_figures(files)),
        ["pictures", before, after] => {
            let (before, after) = (number("BEFORE", before)?, number("AFTER", after)?);
            Ok(pictures(Around { before, after }))
        }
        ["generate", seed, count] => Ok(generate(numbers(seed, count)?)),
        ["counts", seed, count] => Ok(counts(numbers(seed, count)?)),
        ["probes", seed, count] => Ok(probes(numbers(seed, count)?)),
        ["probe-counts", seed, count] => Ok(probe_counts(numbers(seed, count)?)),
        ["archives", seed, count] => Ok(archives(numbers(seed, count)?)),
        ["archive-counts", seed, count] => Ok(archive_counts(numbers(seed, count)?)),
        _ => Err(String::from(USAGE)),
    }
}

/// A seed and a count, if both are numbers.
fn numbers(seed: &str, count: &str) -> Result<(u64, u64), String> {
    Ok((number("SEED", seed)?, number("COUNT", count)?))
}

/// A number by its name in the usage; one that is too large is named, any other word shows the usage.
fn number(name: &str, word: &str) -> Result<u64, String> {
    word.parse().map_err(|error: std::num::ParseIntError| match error.kind() {
        IntErrorKind::PosOverflow => {
            format!("second: {name} {word} is too large: it is at most {}", u64::MAX)
        }
        _ => String::from(USAGE),
    })
}

/// Each request on standard input is answered with its line.
fn lines() -> io::Result<()> {
    let mut output = BufWriter::new(io::stdout().lock());
    print_lines(&mut io::stdin().lock(), &mut output)?;
    output.flush()
}

/// Each probe on standard input is answered with its line.
fn answers() -> io::Result<()> {
    let mut output = BufWriter::new(io::stdout().lock());
    print_probes(&mut io::stdin().lock(), &mut output)?;
    output.flush()
}

/// The figures of the picture of each change that requests on standard input bring.
fn pictures(around: Around) -> io::Result<()> {
    let mut output = BufWriter::new(io::stdout().lock());
    print_pictures(&mut io::stdin().lock(), &mut output, around)?;
    output.flush()
}

/// Random requests are written in their frames.
fn generate((seed, count): (u64, u64)) -> io::Result<()> {
    write_frames(Generator::new(seed, count))
}

/// The cases and random probes are written in their frames.
fn probes((seed, count): (u64, u64)) -> io::Result<()> {
    write_frames(Probes::new(seed, count).map(|made| made.content))
}

/// Probes that read answers and write requests are written in their frames.
fn archives((seed, count): (u64, u64)) -> io::Result<()> {
    write_frames(Archives::new(seed, count).map(|made| made.content))
}

/// Contents are written in their frames.
fn write_frames(contents: impl IntoIterator<Item = Vec<u8>>) -> io::Result<()> {
    let mut output = BufWriter::new(io::stdout().lock());
    for content in contents {
        output.write_all(&frame(&content))?;
    }
    output.flush()
}

/// How often each answer comes among random requests.
fn counts((seed, count): (u64, u64)) -> io::Result<()> {
    let counts = RequestCounts::of(Generator::new(seed, count));
    write!(io::stdout(), "{}", counts.tables())
}

/// How often each answer comes among the cases and random probes.
fn probe_counts((seed, count): (u64, u64)) -> io::Result<()> {
    let counts = ProbeCounts::of(Probes::new(seed, count));
    write!(io::stdout(), "{}", counts.tables())
}

/// How often each answer comes among probes that read answers and write requests.
fn archive_counts((seed, count): (u64, u64)) -> io::Result<()> {
    let counts = ArchiveCounts::of(Archives::new(seed, count));
    write!(io::stdout(), "{}", counts.tables())
}

/// The figures that the documents show are printed by name.
fn print_figures() -> io::Result<()> {
    write!(io::stdout(), "{}", Figures::of_documents().text())
}

/// Documents are held against the figures; each place that differs is named.
fn check_figures(files: &[&str]) -> io::Result<()> {
    let documents: io::Result<Vec<Document>> = files.iter().map(|name| document(name)).collect();
    let figures = Figures::of_documents();
    let faults = faults(&documents?, &figures);
    for fault in &faults {
        writeln!(io::stderr(), "{fault}")?;
    }
    if !faults.is_empty() {
        return Err(io::Error::other(format!(
            "places that differ from the figures: {}",
            faults.len()
        )));
    }
    let (blocks, examples) = (figures.blocks.len(), figures.cells.len());
    let shown = format!("{blocks} blocks, {examples} examples, {} phrases", figures.phrases.len());
    writeln!(io::stdout(), "the figures of {} are those worked out: {shown}", files.join(", "))
}

/// A file as a document.
fn document(name: &str) -> io::Result<Document> {
    let text = std::fs::read_to_string(name)
        .map_err(|error| io::Error::new(error.kind(), format!("{name}: {error}")))?;
    Ok(Document { name: String::from(name), text })
}
