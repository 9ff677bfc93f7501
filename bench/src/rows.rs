//! What is measured in each row.

use std::io;

use port::IDS;

use crate::archive::Archive;
use crate::desk::{self, Desk};
use crate::inputs::{Input, Query};
use crate::program::{self, Program};
use crate::queries::{met_without_transition, queries, timetables, Where};
use crate::table::{Row, Section, LIBRARY_AND_PORT};
use crate::timing::{self, Effort, Times};

/// The queries of a row.
const QUERIES: usize = 400;
/// The passes over the 2021 paper's workload.
const PASSES: usize = 25;
/// The runs of each program.
const RUNS: usize = 9;
/// How often a request of the 2021 paper's workload is timed.
const SOURCE_EFFORT: Effort = Effort { batch: 16, rounds: 21 };
/// How often a worst request is timed.
const WORST_EFFORT: Effort = Effort { batch: 4, rounds: 41 };
/// How often a query, a reading or a writing is timed.
const QUERY_EFFORT: Effort = Effort { batch: 64, rounds: 15 };

/// The inputs of all changes: the 2021 paper's, and the worst in vain and found at the last length.
pub struct Inputs {
    pub source: Vec<Input>,
    pub exhausted: Vec<Input>,
    pub found: Vec<Input>,
}

/// The queries of a row.
pub struct Asked {
    name: String,
    pub queries: Vec<Query>,
}

/// The 2021 paper's workload: all requests, those searched, and one pass after the other over all.
pub fn source(inputs: &Inputs) -> Section {
    let all = &inputs.source;
    let rows = vec![
        changes("all requests", all, SOURCE_EFFORT),
        changes("those that were searched", &with_tries(all, 1), SOURCE_EFFORT),
        changes("those with 2 tries or more", &with_tries(all, 2), SOURCE_EFFORT),
        passes("all in turn, none repeated, mean of a request", all),
    ];
    Section { letter: "a", title: "The 2021 paper's workload", beside: LIBRARY_AND_PORT, rows }
}

/// The inputs with so many tries or more.
fn with_tries(inputs: &[Input], fewest: u8) -> Vec<Input> {
    inputs.iter().filter(|input| input.outcome().tries >= fewest).cloned().collect()
}

/// The worst case.
pub fn worst(inputs: &Inputs) -> Section {
    let rows = vec![
        changes("in vain (refused 11)", &inputs.exhausted, WORST_EFFORT),
        changes("found at 64", &inputs.found, WORST_EFFORT),
    ];
    Section {
        letter: "b",
        title: "The worst case: 32 partitions, T 64, tries 65",
        beside: LIBRARY_AND_PORT,
        rows,
    }
}

/// A row of changes, each repeated.
fn changes(name: &str, inputs: &[Input], effort: Effort) -> Row {
    let (mut a, mut b) = (Desk::new(), Desk::new());
    let times = timing::each(inputs, effort, |input| a.library(input), |input| b.port(input));
    Row { name: name.to_string(), counted: "inputs", times }
}

/// A row of passes over changes.
fn passes(name: &str, inputs: &[Input]) -> Row {
    let (mut a, mut b) = (Desk::new(), Desk::new());
    let times = timing::passes(inputs, PASSES, |input| a.library(input), |input| b.port(input));
    Row { name: name.to_string(), counted: "passes", times }
}

/// The queries of each row: timetables of 32 partitions after a transition of 64 slots and without
/// one, so that the cost of walking it shows, and of about 12 after a transition.
pub fn asked(seed: u64, inputs: &Inputs) -> Vec<Asked> {
    let large = timetables(&inputs.found, IDS, IDS);
    let settled = met_without_transition(&inputs.found, IDS);
    let small = timetables(&inputs.source, 11, 13);
    let everywhere = [Where::Transition, Where::Near, Where::Far];
    let mut rows = Vec::new();
    for (what, images, places) in [
        ("32 partitions, 64 transition slots", &large, &everywhere[..]),
        ("32 partitions, no transition", &settled, &everywhere[1..]),
        ("11 to 13 partitions", &small, &everywhere[..]),
    ] {
        for &place in places {
            let name = format!("{what}, slots {}", place.name());
            rows.push(Asked { name, queries: queries(seed, images, place, QUERIES) });
        }
    }
    rows
}

/// The queries.
pub fn query_section(asked: &[Asked]) -> Section {
    let mut rows = Vec::new();
    for Asked { name, queries } in asked {
        let times = timing::each(queries, QUERY_EFFORT, desk::library_owner, desk::port_owner);
        rows.push(Row { name: format!("owner, {name}"), counted: "inputs", times });
    }
    for Asked { name, queries } in asked {
        let times =
            timing::each(queries, QUERY_EFFORT, desk::library_standing, desk::port_standing);
        rows.push(Row { name: format!("standing, {name}"), counted: "inputs", times });
    }
    Section { letter: "c", title: "Queries", beside: LIBRARY_AND_PORT, rows }
}

/// Reading the answers and writing the requests of some archives, each with its name.
pub fn archives(archives: &[(&str, Archive)]) -> Section {
    let mut rows = Vec::new();
    for (name, Archive { answers, .. }) in archives {
        let times = timing::each(answers, QUERY_EFFORT, desk::library_reading, desk::port_reading);
        rows.push(Row { name: format!("reading an answer, {name}"), counted: "inputs", times });
    }
    for (name, Archive { figures, .. }) in archives {
        let times = timing::each(figures, QUERY_EFFORT, desk::library_writing, desk::port_writing);
        rows.push(Row { name: format!("writing a request, {name}"), counted: "inputs", times });
    }
    Section {
        letter: "e",
        title: "Archived answers, and requests from figures",
        beside: LIBRARY_AND_PORT,
        rows,
    }
}

/// Two programs on so many frames.
pub struct Programs<'a> {
    pub one: Program<'a>,
    pub other: Program<'a>,
    pub frames: &'a str,
    pub count: usize,
}

impl Programs<'_> {
    /// The programs, each run's time shared out over its frames.
    pub fn section(
        &self,
        letter: &'static str,
        title: &'static str,
        beside: [&'static str; 2],
    ) -> io::Result<Section> {
        let Times { library, port } = program::times(&self.one, &self.other, self.frames, RUNS)?;
        let count = self.count as f64;
        let shared = |times: Vec<f64>| times.into_iter().map(|time| time / count).collect();
        let times = Times { library: shared(library), port: shared(port) };
        let name = format!("whole process on {count} frames, time of a frame");
        let rows = vec![Row { name, counted: "runs", times }];
        Ok(Section { letter, title, beside, rows })
    }
}
