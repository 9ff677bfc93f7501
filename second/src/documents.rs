//! The documents held against the figures. In a worked section every digit has to be one that the
//! figures give: in a fenced block behind its marker, in an example cell, or in a phrase of the
//! prose. A section is worked if its document is, or if it holds a block or an example.

use crate::figures::Figures;
use std::fmt;

/// A document by its name, with its text.
pub struct Document {
    pub name: String,
    pub text: String,
}

/// Where a document differs from the figures.
#[derive(Debug)]
pub struct Fault {
    place: String,
    expected: String,
    found: String,
}

impl fmt::Display for Fault {
    fn fmt(&self, out: &mut fmt::Formatter<'_>) -> fmt::Result {
        let Fault { place, expected, found } = self;
        write!(out, "{place}\n    expected: {expected}\n    found:    {found}")
    }
}

/// A fenced block: the line of its fence, the name in its marker, its language and its lines.
struct Fence {
    line: usize,
    name: Option<String>,
    language: String,
    lines: Vec<String>,
}

/// A row of a table of examples: its line, its first cell and its last.
struct Row {
    line: usize,
    key: String,
    example: String,
}

/// A section's text outside of blocks and examples, with the line of each byte.
#[derive(Default)]
struct Prose {
    text: String,
    lines: Vec<usize>,
}

/// A heading and what stands under it, up to the next heading.
struct Section {
    document: String,
    heading: String,
    prose: Prose,
    fences: Vec<Fence>,
    rows: Vec<Row>,
    given: Vec<(usize, String)>,
}

/// A document as it is read line by line.
struct Reader {
    document: String,
    sections: Vec<Section>,
    fence: Option<Fence>,
    marker: Option<(usize, String)>,
    table: Option<bool>,
    faults: Vec<Fault>,
}

/// Every fault of the documents; none if they show the figures, each at least once.
pub fn faults(documents: &[Document], figures: &Figures) -> Vec<Fault> {
    let mut faults = Vec::new();
    let mut sections = Vec::new();
    for document in documents {
        let (read, faulty) = read(document);
        sections.extend(read);
        faults.extend(faulty);
    }
    faults.extend(sections.iter().flat_map(|section| section.faults(figures)));
    faults.extend(unused(&sections, figures));
    faults
}

/// The sections of a document, and what is wrong with its markers.
fn read(document: &Document) -> (Vec<Section>, Vec<Fault>) {
    let mut reader = Reader {
        document: document.name.clone(),
        sections: Vec::new(),
        fence: None,
        marker: None,
        table: None,
        faults: Vec::new(),
    };
    reader.start_section(0, "");
    for (before, line) in document.text.lines().enumerate() {
        reader.line(before + 1, line);
    }
    reader.end();
    (reader.sections, reader.faults)
}

impl Reader {
    /// One more line: a fence, a line of a block, or one of the text.
    fn line(&mut self, number: usize, line: &str) {
        let trimmed = line.trim();
        let fence = trimmed.strip_prefix("```").or(trimmed.strip_prefix("~~~"));
        match (&mut self.fence, fence) {
            (Some(_), Some("")) => self.end_fence(),
            (Some(open), _) => open.lines.push(String::from(line)),
            (None, Some(language)) => self.start_fence(number, language),
            (None, None) => self.text_line(number, trimmed),
        }
    }

    /// Whether a line is a marker; the name of a block is kept for its fence, phrases are given.
    fn is_marker(&mut self, number: usize, line: &str) -> bool {
        if let Some(name) = comment(line, "figures:") {
            self.lone_marker();
            self.marker = Some((number, String::from(name)));
            return true;
        }
        let Some(phrases) = comment(line, "given:") else {
            return false;
        };
        let phrases = phrases.split(';').map(|phrase| (number, String::from(phrase.trim())));
        self.section().given.extend(phrases);
        true
    }

    /// A line outside of blocks: a marker, a heading, a row of a table, or prose.
    fn text_line(&mut self, number: usize, line: &str) {
        if self.is_marker(number, line) {
            return;
        }
        if !line.is_empty() {
            self.lone_marker();
        }
        if line.starts_with('#') {
            self.start_section(number, line.trim_start_matches('#').trim());
        } else if line.starts_with('|') {
            self.row(number, line);
            return;
        } else {
            self.section().prose.add(number, line);
        }
        self.table = None;
    }

    /// A row of a table; in a table of examples its last cell is one.
    fn row(&mut self, number: usize, line: &str) {
        let cells = cells(line);
        let last = cells.last().cloned().unwrap_or_default();
        let examples = self.table.unwrap_or(false);
        if self.table.is_none() {
            self.table = Some(last.starts_with("Example"));
        }
        if !examples || cells.iter().all(|cell| cell.chars().all(|sign| "-:".contains(sign))) {
            self.section().prose.add(number, line);
            return;
        }
        let key = cells.first().cloned().unwrap_or_default();
        let before = format!("| {} |", cells[..cells.len() - 1].join(" | "));
        self.section().prose.add(number, &before);
        self.section().rows.push(Row { line: number, key, example: last });
    }

    /// A fence opens a block; one without a marker holds shell commands.
    fn start_fence(&mut self, line: usize, language: &str) {
        let name = self.marker.take().map(|(_, name)| name);
        if name.is_none() && language != "sh" {
            let expected = "a marker <!-- figures: NAME --> above the block, or ```sh for commands";
            self.fault(line, expected, &format!("```{language}"));
        }
        self.table = None;
        self.fence =
            Some(Fence { line, name, language: String::from(language), lines: Vec::new() });
    }

    /// The block that is open ends.
    fn end_fence(&mut self) {
        let fence = self.fence.take();
        self.section().fences.extend(fence);
    }

    /// The document ends; nothing may be left open.
    fn end(&mut self) {
        self.lone_marker();
        if let Some(Fence { line, language, .. }) = self.fence.take() {
            self.fault(line, "a fence that ends the block", &format!("```{language}"));
        }
    }

    /// A marker that waits for its block does so in vain.
    fn lone_marker(&mut self) {
        if let Some((line, name)) = self.marker.take() {
            self.fault(line, "a block under its marker", &format!("<!-- figures: {name} -->"));
        }
    }

    /// A heading starts a section.
    fn start_section(&mut self, number: usize, heading: &str) {
        let mut prose = Prose::default();
        prose.add(number, heading);
        self.sections.push(Section {
            document: self.document.clone(),
            heading: String::from(heading),
            prose,
            fences: Vec::new(),
            rows: Vec::new(),
            given: Vec::new(),
        });
    }

    /// The section that is being read.
    fn section(&mut self) -> &mut Section {
        let last = self.sections.len() - 1;
        &mut self.sections[last]
    }

    /// One more fault at a line.
    fn fault(&mut self, line: usize, expected: &str, found: &str) {
        let place = format!("{}:{line}:", self.document);
        let (expected, found) = (String::from(expected), String::from(found));
        self.faults.push(Fault { place, expected, found });
    }
}

/// What a comment of some kind says, if a line is one.
fn comment<'a>(line: &'a str, kind: &str) -> Option<&'a str> {
    let inside = line.strip_prefix("<!--")?.strip_suffix("-->")?.trim();
    Some(inside.strip_prefix(kind)?.trim())
}

/// The cells of a table's row; a bar behind a backslash ends none.
fn cells(row: &str) -> Vec<String> {
    const BAR: &str = "\u{1}";
    let row = row.replace("\\|", BAR);
    let inside = row.strip_prefix('|').unwrap_or(&row);
    let inside = inside.strip_suffix('|').unwrap_or(inside);
    inside.split('|').map(|cell| cell.trim().replace(BAR, "\\|")).collect()
}

impl Prose {
    /// One more line, a space behind the one before.
    fn add(&mut self, number: usize, line: &str) {
        let words: Vec<&str> = line.split_whitespace().collect();
        self.text.push_str(&words.join(" "));
        self.text.push(' ');
        self.lines.resize(self.text.len(), number);
    }
}

impl Section {
    /// Where the section differs from the figures.
    fn faults(&self, figures: &Figures) -> Vec<Fault> {
        let mut faults: Vec<Fault> =
            self.fences.iter().filter_map(|fence| self.fence_fault(fence, figures)).collect();
        faults.extend(self.rows.iter().filter_map(|row| self.row_fault(row, figures)));
        faults.extend(self.prose_faults(figures));
        faults
    }

    /// A block with a marker is the block of that name, byte for byte.
    fn fence_fault(&self, fence: &Fence, figures: &Figures) -> Option<Fault> {
        let name = fence.name.as_ref()?;
        let Some(block) = figures.blocks.iter().find(|block| block.name == *name) else {
            return Some(self.fault(fence.line, "the name of a block", name));
        };
        let wanted: Vec<&str> = block.text.lines().collect();
        let longest = wanted.len().max(fence.lines.len());
        let found = |at: usize| fence.lines.get(at).map(String::as_str);
        let differs = (0..longest).find(|&at| wanted.get(at).copied() != found(at))?;
        let end = "the end of the block";
        let expected = wanted.get(differs).copied().unwrap_or(end);
        Some(self.fault(fence.line + 1 + differs, expected, found(differs).unwrap_or(end)))
    }

    /// An example is the one of its section and row.
    fn row_fault(&self, row: &Row, figures: &Figures) -> Option<Fault> {
        let of_row =
            |cell: &&crate::figures::Cell| cell.section == self.heading && cell.row == row.key;
        match figures.cells.iter().find(of_row) {
            None => Some(self.fault(row.line, "a row with an example", &row.key)),
            Some(cell) if cell.text != row.example => {
                Some(self.fault(row.line, &cell.text, &row.example))
            }
            Some(_) => None,
        }
    }

    /// Each phrase stands in the prose, in its order, and no digit stands outside of them.
    fn prose_faults(&self, figures: &Figures) -> Vec<Fault> {
        let mut covered = vec![false; self.prose.text.len()];
        let mut faults = self.cover_phrases(figures, &mut covered);
        faults.extend(self.given.iter().filter_map(|given| self.cover_given(given, &mut covered)));
        self.cover_citations(&mut covered);
        let bare = |at: &usize| self.prose.text.as_bytes()[*at].is_ascii_digit() && !covered[*at];
        if let Some(at) = (0..covered.len()).find(bare).filter(|_| faults.is_empty()) {
            let expected = "a number that a block, an example or a phrase gives";
            faults.push(self.fault(self.prose.lines[at], expected, self.around(at)));
        }
        faults
    }

    /// The phrases of the section are marked as covered; each that is not there is a fault.
    fn cover_phrases(&self, figures: &Figures, covered: &mut [bool]) -> Vec<Fault> {
        let mut faults = Vec::new();
        let mut from = 0;
        for phrase in figures.phrases.iter().filter(|phrase| phrase.section == self.heading) {
            match self.prose.text[from..].find(&phrase.text) {
                Some(at) => {
                    covered[from + at..from + at + phrase.text.len()].fill(true);
                    from += at + phrase.text.len();
                }
                None => faults.push(self.missing(from, &phrase.text)),
            }
        }
        faults
    }

    /// A phrase is not there; what stands in its place begins like it, up to its first figure.
    fn missing(&self, from: usize, phrase: &str) -> Fault {
        let rest = &self.prose.text[from..];
        let begins = phrase.split(|sign: char| sign.is_ascii_digit()).next().unwrap_or("");
        let at = from + rest.find(begins).unwrap_or(0);
        let length = phrase.chars().count() + 12;
        let found: String = self.prose.text[at..].chars().take(length).collect();
        let line = self.prose.lines.get(at).copied().unwrap_or(0);
        self.fault(line, phrase, found.trim_end())
    }

    /// A given phrase, a number with a word beside it, is marked as covered wherever it stands.
    fn cover_given(&self, (line, phrase): &(usize, String), covered: &mut [bool]) -> Option<Fault> {
        let named = phrase.contains(|sign: char| sign.is_ascii_digit())
            && phrase.contains(|sign: char| sign.is_alphabetic());
        if !named {
            return Some(self.fault(*line, "a given number with a word beside it", phrase));
        }
        let text = &self.prose.text;
        let places: Vec<usize> = text
            .match_indices(phrase.as_str())
            .map(|(at, _)| at)
            .filter(|&at| stands_alone(text, at, phrase.len()))
            .collect();
        if places.is_empty() {
            return Some(self.fault(*line, "a given phrase that stands in the section", phrase));
        }
        for at in places {
            covered[at..at + phrase.len()].fill(true);
        }
        None
    }

    /// The numbers of sections that follow a citation's path are marked as covered.
    fn cover_citations(&self, covered: &mut [bool]) {
        const PATH: &str = "docs/RULES.md";
        for (at, _) in self.prose.text.match_indices(PATH) {
            let from = at + PATH.len();
            covered[from..from + cited(&self.prose.text[from..])].fill(true);
        }
    }

    /// Some of the prose around a byte.
    fn around(&self, at: usize) -> &str {
        let text = &self.prose.text;
        let start = (0..=at.saturating_sub(30)).rev().find(|&start| text.is_char_boundary(start));
        let end = (at + 30..text.len()).find(|&end| text.is_char_boundary(end));
        text[start.unwrap_or(0)..end.unwrap_or(text.len())].trim()
    }

    /// A fault at a line of the section's document.
    fn fault(&self, line: usize, expected: &str, found: &str) -> Fault {
        let place = format!("{}:{line}: \"{}\"", self.document, self.heading);
        Fault { place, expected: String::from(expected), found: String::from(found) }
    }
}

/// Whether no letter or digit stands right before or behind a piece of a text.
fn stands_alone(text: &str, at: usize, length: usize) -> bool {
    let before = text[..at].chars().next_back();
    let behind = text[at + length..].chars().next();
    ![before, behind].into_iter().flatten().any(char::is_alphanumeric)
}

/// The length of the section numbers behind a citation's path: one, or several with a joint.
pub(crate) fn cited(text: &str) -> usize {
    let mut at = text.len() - text.trim_start_matches(['`', ')']).len();
    let mut joints: &[&str] = &[" "];
    let number = |at: usize, joint: &str| section_number(text[at..].strip_prefix(joint)?);
    while let Some((joint, length)) =
        joints.iter().find_map(|joint| Some((joint.len(), number(at, joint)?)))
    {
        at += joint + length;
        joints = &[", ", " to ", " and "];
    }
    at
}

/// The length of a section's number that a text begins with: 4, 4.3 or 11.A.
fn section_number(text: &str) -> Option<usize> {
    let digits = |text: &str| text.bytes().take_while(u8::is_ascii_digit).count();
    let whole = digits(text);
    let part = text[whole..].strip_prefix('.').map_or(0, |part| {
        let letter = usize::from(part.starts_with(|sign: char| sign.is_ascii_uppercase()));
        digits(part).max(letter)
    });
    match (whole, part) {
        (0, _) => None,
        (_, 0) => Some(whole),
        _ => Some(whole + 1 + part),
    }
}

/// The figures that no document shows.
fn unused(sections: &[Section], figures: &Figures) -> Vec<Fault> {
    let named = |name: &String| {
        sections.iter().flat_map(|section| &section.fences).any(|of| of.name.as_ref() == Some(name))
    };
    let shown = |heading: &String, row: &String| {
        let of_heading = sections.iter().filter(|section| section.heading == *heading);
        of_heading.flat_map(|section| &section.rows).any(|shown| shown.key == *row)
    };
    let headed = |heading: &String| sections.iter().any(|section| section.heading == *heading);
    let blocks = figures.blocks.iter().filter(|block| !named(&block.name));
    let cells = figures.cells.iter().filter(|cell| !shown(&cell.section, &cell.row));
    let phrases = figures.phrases.iter().filter(|phrase| !headed(&phrase.section));
    blocks
        .map(|block| format!("block \"{}\"", block.name))
        .chain(cells.map(|cell| format!("example of \"{}\" in \"{}\"", cell.row, cell.section)))
        .chain(phrases.map(|phrase| format!("\"{}\" in \"{}\"", phrase.text, phrase.section)))
        .map(|figure| Fault {
            place: String::from("second figures:"),
            expected: format!("a document that shows: {figure}"),
            found: String::from("none"),
        })
        .collect()
}
