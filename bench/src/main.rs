//! The library and the plain port, side by side on the same inputs.
//! bench SEED FRAMES CHANGER PORT MILLION COMMAND: FRAMES is a file for the programs CHANGER and PORT,
//! MILLION one for CHANGER and COMMAND.

mod archive;
mod compare;
mod desk;
mod inputs;
mod library;
mod program;
mod queries;
mod random;
mod request;
mod rows;
mod source;
mod stack;
mod table;
mod timing;
mod work;
mod worst;

use std::error::Error;

use archive::Archive;
use desk::Desk;
use inputs::{listed_ids, Input};
use port::number::{ACCEPTED, LENGTHS_EXHAUSTED};
use port::{IDS, LONGEST};
use program::Program;
use rows::{Asked, Inputs, Programs};
use table::{Section, LIBRARY_AND_PORT};

/// The histories of the 2021 paper's workload.
const HISTORIES: usize = 200;
/// The worst inputs of each ending.
const WORST: usize = 12;
/// The odd queries, which are compared only.
const ODD: usize = 2000;
/// The 2021 paper's heuristic takes 300 microseconds; the goal is to be 20 times faster.
const SOURCE_GOAL: f64 = 300.0 / 20.0;
/// A tenth of a slot of 2 ms, in microseconds.
const WORST_GOAL: f64 = 200.0;
/// What the stack of a change may take, in bytes.
const STACK_GOAL: f64 = 2320.0;

/// What the command line names.
struct Arguments {
    seed: u64,
    frames: String,
    changer: String,
    port: String,
    million: String,
    command: String,
}

/// Compares, then measures and prints all.
fn main() -> Result<(), Box<dyn Error>> {
    let arguments = arguments().ok_or("usage: bench SEED FRAMES CHANGER PORT MILLION COMMAND")?;
    let inputs = all_inputs(arguments.seed);
    let asked = rows::asked(arguments.seed, &inputs);
    verify_worst(&inputs)?;
    let archives = [
        ("(a)", archive::archive(&inputs.source)),
        ("(b) found at 64", archive::archive(&inputs.found)),
    ];
    compare_calls(&arguments, &inputs, &asked, &archives)?;
    let Arguments { changer, port, frames, million, command, .. } = &arguments;
    let changer = || Program::plain(changer);
    let mut programs = Programs { one: changer(), other: Program::plain(port), frames, count: 0 };
    let command = Program { path: command, arguments: &["run"], ends: &[0, 1] };
    let mut commands = Programs { one: command, other: changer(), frames: million, count: 0 };
    compare_programs("Both programs", &mut programs)?;
    compare_programs("Command and program", &mut commands)?;
    let sections = [
        rows::source(&inputs),
        rows::worst(&inputs),
        rows::query_section(&asked),
        programs.section("d", "The programs", LIBRARY_AND_PORT)?,
        rows::archives(&archives),
        commands.section("f", "The command, `tarnflaw run`", ["command", "program"])?,
    ];
    sections.iter().for_each(Section::print);
    describe(&inputs.source);
    let stack = print_stack(&inputs);
    print_goals(&sections, stack);
    Ok(())
}

/// The command line's six words, no more and no fewer.
fn arguments() -> Option<Arguments> {
    let words: Vec<String> = std::env::args().skip(1).collect();
    let [seed, frames, changer, port, million, command] = <[String; 6]>::try_from(words).ok()?;
    Some(Arguments { seed: seed.parse().ok()?, frames, changer, port, million, command })
}

/// The inputs of a seed.
fn all_inputs(seed: u64) -> Inputs {
    Inputs {
        source: source::source_inputs(seed, HISTORIES),
        exhausted: worst::worst_inputs(seed, LENGTHS_EXHAUSTED, WORST),
        found: worst::worst_inputs(seed, ACCEPTED, WORST),
    }
}

/// Each worst input has 32 listed before and after, T 64 and tries 65.
fn verify_worst(inputs: &Inputs) -> Result<(), String> {
    for input in inputs.exhausted.iter().chain(&inputs.found) {
        let before = listed_ids(&input.image).len();
        let after = (input.record.len() - 15) / 6;
        let longest = usize::from(input.record[14]);
        let searched = input.outcome().tries == worst::ALL_TRIES;
        if before != IDS || after != IDS || longest != LONGEST || !searched {
            return Err("a worst input is not one".to_string());
        }
    }
    Ok(())
}

/// Holds all answers of both against each other.
fn compare_calls(
    arguments: &Arguments,
    inputs: &Inputs,
    asked: &[Asked],
    archives: &[(&str, Archive)],
) -> Result<(), String> {
    let seed = arguments.seed;
    let mut calls = compare::empty()?;
    for inputs in [&inputs.source, &inputs.exhausted, &inputs.found] {
        calls += compare::changes(inputs)? + compare::damaged(seed, inputs)?;
        calls += compare::short_fields(seed, inputs)?;
    }
    for row in asked {
        calls += compare::queries(&row.queries)?;
    }
    for (_, archive) in archives {
        calls += compare::archives(seed, archive)?;
    }
    let images = queries::timetables(&inputs.source, 1, IDS);
    calls += compare::queries(&queries::odd_queries(seed, &images, ODD))?;
    for images in [images, queries::timetables(&inputs.found, IDS, IDS)] {
        calls += compare::queries(&queries::sweeps(&images))?;
        calls += compare::queries(&queries::other_walks(seed, &images))?;
    }
    let frames = std::fs::read(&arguments.frames).map_err(|error| error.to_string())?;
    calls += compare::stream(&frames)?;
    println!(
        "\nBoth give the same in {calls} calls: numbers, places, tries, bytes, areas, images."
    );
    Ok(())
}

/// Holds the lines of two programs against each other, and counts them.
fn compare_programs(name: &str, programs: &mut Programs) -> Result<(), Box<dyn Error>> {
    let lines = programs.one.lines(programs.frames)?;
    if lines != programs.other.lines(programs.frames)? {
        return Err(format!("{name}: the lines differ").into());
    }
    programs.count = lines.iter().filter(|&&byte| byte == b'\n').count();
    println!("{name} print the same {} lines.", programs.count);
    Ok(())
}

/// Prints how the requests of the workload end.
fn describe(inputs: &[Input]) {
    let mut numbers = [0; 12];
    for outcome in inputs.iter().map(Input::outcome) {
        numbers[usize::from(outcome.number)] += 1;
    }
    let [accepted, .., behind, missed, _, exhausted] = numbers;
    print!("\nOf the {} requests of (a) {accepted} are accepted, ", inputs.len());
    println!("{behind} refused 8, {missed} refused 9, {exhausted} refused 11.");
}

/// Prints the stack's depth over all changes; tells the library's.
fn print_stack(inputs: &Inputs) -> usize {
    let mut desk = Desk::new();
    let all = || inputs.source.iter().chain(&inputs.exhausted).chain(&inputs.found);
    let library = stack::depth(&mut || all().for_each(|input| desk.library(input)));
    let port = stack::depth(&mut || all().for_each(|input| desk.port(input)));
    let nothing = stack::depth(&mut || ());
    println!("\n### Stack of a change, bytes\n");
    println!("| library | port | no call |\n|---|---|---|\n| {library} | {port} | {nothing} |");
    library
}

/// Prints which goals are met.
fn print_goals(sections: &[Section; 6], stack: usize) {
    let [source, worst, ..] = sections;
    let all = source.rows[0].library();
    table::goals_head();
    table::goal("(a) all requests, median, microseconds", all.median, SOURCE_GOAL);
    table::goal("(a) all requests, worst, microseconds", all.worst, SOURCE_GOAL);
    for row in &worst.rows {
        let name = format!("(b) {}, worst, microseconds", row.name);
        table::goal(&name, row.library().worst, WORST_GOAL);
    }
    table::ratio_goals(sections);
    table::goal("stack of a change, bytes", stack as f64, STACK_GOAL);
}
