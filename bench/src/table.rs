//! The figures as markdown tables, and the goals.

use crate::timing::Times;

/// The largest ratio of medians, library to port, that is a goal met.
const RATIO: f64 = 1.0;
/// The same of the programs: the library's tests no timetable that it knows to be sound.
const PROGRAM_RATIO: f64 = 0.8;
/// The same of the command beside the program.
const COMMAND_RATIO: f64 = 2.0;
/// What stands side by side in most sections.
pub const LIBRARY_AND_PORT: [&str; 2] = ["library", "port"];

/// One row: what was measured, in what (inputs, passes or runs), and its times.
pub struct Row {
    pub name: String,
    pub counted: &'static str,
    pub times: Times,
}

/// The rows under one heading.
pub struct Section {
    pub letter: &'static str,
    pub title: &'static str,
    /// What stands side by side.
    pub beside: [&'static str; 2],
    pub rows: Vec<Row>,
}

/// The median and the worst of some times, in microseconds.
pub struct Summary {
    pub median: f64,
    pub worst: f64,
}

/// The median and the worst.
fn summary(times: &[f64]) -> Summary {
    let mut sorted = times.to_vec();
    sorted.sort_by(f64::total_cmp);
    let micros = |index: usize| sorted[index] / 1000.0;
    Summary { median: micros(sorted.len() / 2), worst: micros(sorted.len() - 1) }
}

impl Row {
    /// The library's figures.
    pub fn library(&self) -> Summary {
        summary(&self.times.library)
    }

    /// The ratio of the medians, library to port.
    fn ratio(&self) -> f64 {
        self.library().median / summary(&self.times.port).median
    }

    /// Prints the row.
    fn print(&self) {
        let (library, port) = (self.library(), summary(&self.times.port));
        let count = self.times.library.len();
        print!("| {} | {count} {} ", self.name, self.counted);
        print!("| {:.3} | {:.3} | {:.2} ", library.median, port.median, self.ratio());
        println!(
            "| {:.3} | {:.3} | {:.2} |",
            library.worst,
            port.worst,
            library.worst / port.worst
        );
    }
}

impl Section {
    /// Prints the table; times are in microseconds, ratios of the first to the second.
    pub fn print(&self) {
        let [one, other] = self.beside;
        println!("\n### ({}) {}\n", self.letter, self.title);
        print!("| | measured | median, {one} | median, {other} | ratio ");
        println!("| worst, {one} | worst, {other} | ratio |");
        println!("|---|---|---|---|---|---|---|---|");
        self.rows.iter().for_each(Row::print);
    }
}

/// Prints the head of the goals' table.
pub fn goals_head() {
    println!("\n### Goals\n\n| Goal | at most | here | |\n|---|---|---|---|");
}

/// Prints a goal that a figure may not exceed.
pub fn goal(name: &str, figure: f64, most: f64) {
    let verdict = if figure <= most { "met" } else { "missed" };
    println!("| {name} | {most} | {figure:.2} | {verdict} |");
}

/// Prints for each row whether the first is as fast beside the second as it is to be.
pub fn ratio_goals(sections: &[Section]) {
    for section in sections {
        let most = match section.letter {
            "d" => PROGRAM_RATIO,
            "f" => COMMAND_RATIO,
            _ => RATIO,
        };
        for row in &section.rows {
            let name = format!("ratio of medians, ({}) {}", section.letter, row.name);
            goal(&name, row.ratio(), most);
        }
    }
}
