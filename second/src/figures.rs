//! The figures that the documents show: fenced blocks, example cells, and the phrases of the prose
//! that hold figures. Each is worked out from the requests of the cases; what stands here in
//! letters are labels.

use crate::{dictionary, followed};
use std::fmt::{Display, Write};

/// A fenced block, by the name that stands in its marker.
pub struct Block {
    pub name: String,
    pub text: String,
}

/// An example, by the heading of its section and the first cell of its row.
pub struct Cell {
    pub section: String,
    pub row: String,
    pub text: String,
}

/// A piece of a section's prose that holds figures.
pub struct Phrase {
    pub section: String,
    pub text: String,
}

/// All that the documents show, the phrases of a section in their order.
#[derive(Default)]
pub struct Figures {
    pub blocks: Vec<Block>,
    pub cells: Vec<Cell>,
    pub phrases: Vec<Phrase>,
}

impl Figures {
    /// The figures of docs/DICTIONARY.md and docs/WORKED.md.
    pub fn of_documents() -> Figures {
        let mut figures = Figures::default();
        dictionary::add_to(&mut figures);
        followed::add_to(&mut figures);
        figures
    }

    /// One more block.
    pub fn block(&mut self, name: &str, text: String) {
        self.blocks.push(Block { name: String::from(name), text });
    }

    /// One more example.
    pub fn cell(&mut self, section: &str, row: impl Display, text: impl Display) {
        let (section, row, text) = (String::from(section), row.to_string(), text.to_string());
        self.cells.push(Cell { section, row, text });
    }

    /// One more phrase, behind the others of its section.
    pub fn phrase(&mut self, section: &str, text: impl Display) {
        self.phrases.push(Phrase { section: String::from(section), text: text.to_string() });
    }

    /// All of them by name, as the command prints them.
    pub fn text(&self) -> String {
        let mut text = String::new();
        for Block { name, text: block } in &self.blocks {
            let _ = writeln!(text, "block: {name}\n{block}");
        }
        text.extend(
            self.cells
                .iter()
                .map(|cell| format!("example: {}: {}: {}\n", cell.section, cell.row, cell.text)),
        );
        text.extend(
            self.phrases
                .iter()
                .map(|phrase| format!("phrase: {}: {}\n", phrase.section, phrase.text)),
        );
        text
    }
}

/// Bytes in hexadecimal, one space apart.
pub fn hexadecimal(bytes: &[u8]) -> String {
    let bytes: Vec<String> = bytes.iter().map(|byte| format!("{byte:02x}")).collect();
    bytes.join(" ")
}

/// Bytes as they stand in a document, between backticks.
pub fn code(bytes: &[u8]) -> String {
    format!("`{}`", hexadecimal(bytes))
}

/// Numbers as a list with commas.
pub fn list<T: Display>(numbers: impl IntoIterator<Item = T>) -> String {
    let numbers: Vec<String> = numbers.into_iter().map(|number| number.to_string()).collect();
    numbers.join(", ")
}

/// Numbers as a list with commas and a last "and".
pub fn list_and<T: Display>(numbers: impl IntoIterator<Item = T>) -> String {
    list_with(numbers, "and")
}

/// Numbers as a list with commas and a word before the last one.
pub fn list_with<T: Display>(numbers: impl IntoIterator<Item = T>, word: &str) -> String {
    let list = list(numbers);
    match list.rsplit_once(", ") {
        Some((most, last)) => format!("{most} {word} {last}"),
        None => list,
    }
}

/// A number with a comma before its last three digits, if it has more.
pub fn thousands(number: usize) -> String {
    match number / 1000 {
        0 => number.to_string(),
        thousands => format!("{thousands},{:03}", number % 1000),
    }
}

/// Rows of a block: each label, then its values under one another, as wide as the widest.
pub fn aligned(rows: &[(&str, Vec<String>)], gap: usize) -> String {
    let label = rows.iter().map(|(label, _)| label.len()).max().unwrap_or(0) + gap;
    let value = rows.iter().flat_map(|(_, values)| values).map(String::len).max().unwrap_or(0);
    let line = |(name, values): &(&str, Vec<String>)| {
        let values: String = values.iter().map(|text| format!(" {text:>value$}")).collect();
        format!("{name:label$}{values}")
    };
    let lines: Vec<String> = rows.iter().map(line).collect();
    lines.join("\n")
}

/// The values of a row that differ, each once, in the order in which they first come.
pub fn in_turn<T: PartialEq>(values: impl Iterator<Item = T>) -> Vec<T> {
    values.fold(Vec::new(), |mut seen, value| {
        if !seen.contains(&value) {
            seen.push(value);
        }
        seen
    })
}
