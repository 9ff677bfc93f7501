//! A change drawn in characters: a row for each slot, from top to bottom, and a column for each partition.

use crate::picture::{Cell, Lane, Names, Picture};
use crate::words::folded;
use std::fmt::Write;

/// A terminal: what partitions are called there, how wide it is, and whether own slots are set in bold.
pub struct Terminal {
    pub names: Names,
    pub columns: usize,
    pub bold: bool,
}

/// How much of a partition has room in a row: figure and bar, the figure alone, or how many eighths of its bound it has reached.
#[derive(Clone, Copy, PartialEq, Eq)]
enum Size {
    Bar,
    Figure,
    Eighths,
}

/// Columns of a cell's figure, with bar: of what stands around the bar; without: of the whole cell.
const AROUND_BAR: usize = 8;
const LEAST_BAR: usize = 6;
const FIGURE: usize = 5;
const EIGHTHS: usize = 2;
/// Columns in which a slot's number is told; a longer one is told from the request slot on.
const SLOT: usize = 8;

/// How the rows of a picture are laid out.
struct Layout {
    /// Columns of a slot's number.
    slot: usize,
    size: Size,
    /// Columns of a partition, and how many of them stand side by side.
    lane: usize,
    beside: usize,
}

impl Terminal {
    /// Draws a change.
    pub fn draw(&self, picture: &Picture) -> String {
        let layout = self.layout(picture);
        let mut text = String::new();
        let mut heads = vec![picture.title(), picture.brought_along(&self.names)];
        heads.extend(legend(layout.size).iter().map(|line| line.to_string()));
        if picture.lanes.is_empty() {
            heads.push("nothing is listed in these slots".to_string());
        }
        for line in heads.iter().flat_map(|head| folded(head, self.columns)) {
            let _ = writeln!(text, "{line}");
        }
        for lanes in picture.lanes.chunks(layout.beside.max(1)) {
            text.push('\n');
            self.put_block(&mut text, picture, &layout, lanes);
        }
        text.push('\n');
        text
    }

    /// Lays a picture out: as much of each partition as has room beside the others.
    fn layout(&self, picture: &Picture) -> Layout {
        let slot =
            picture.slots.iter().map(|slot| picture.slot_label(slot.number, SLOT).len()).max();
        let slot = slot.unwrap_or(0).max(4);
        let room = self.columns.saturating_sub(slot + 6);
        let lanes = picture.lanes.len().max(1);
        let most = AROUND_BAR + 24;
        let (size, lane) = match room / lanes {
            each if each >= AROUND_BAR + LEAST_BAR => (Size::Bar, each.min(most)),
            each if each >= FIGURE => (Size::Figure, each.min(FIGURE + 1)),
            each => (Size::Eighths, each.clamp(EIGHTHS, EIGHTHS + 1)),
        };
        Layout { slot, size, lane, beside: room / lane }
    }

    /// Some partitions side by side, a row for each slot.
    fn put_block(&self, text: &mut String, picture: &Picture, layout: &Layout, lanes: &[Lane]) {
        self.put_heads(text, layout, lanes);
        let width = layout.slot + 6 + layout.lane * lanes.len();
        for (index, slot) in picture.slots.iter().enumerate() {
            let label = picture.slot_label(slot.number, SLOT);
            if let Some(mark) = mark(picture, slot.number, &label) {
                let _ = writeln!(text, "{:-<width$}", format!("-- {mark} "));
            }
            let owner = slot.owner.map_or(".".to_string(), |id| id.to_string());
            let mut row = format!("{label:>0$} {owner:>3}  ", layout.slot);
            for lane in lanes {
                row.push_str(&self.cell(lane, lane.cells[index], layout));
            }
            text.push_str(row.trim_end());
            text.push('\n');
        }
    }

    /// The heads of partitions: their ids, and with room what they are called; their bounds.
    fn put_heads(&self, text: &mut String, layout: &Layout, lanes: &[Lane]) {
        let width = layout.lane;
        let rows = lanes.iter().map(|lane| self.heads(lane, layout)).collect::<Vec<_>>();
        let count = rows.iter().map(Vec::len).max().unwrap_or(0);
        for index in 0..count {
            let (slot, has) = if index + 1 == count { ("slot", "has") } else { ("", "") };
            let mut row = format!("{slot:>0$} {has:>3}  ", layout.slot);
            row.extend(rows.iter().map(|heads| format!("{:width$}", heads[index])));
            text.push_str(row.trim_end());
            text.push('\n');
        }
    }

    /// The head of a partition, a line each: no figure of it is cut.
    fn heads(&self, lane: &Lane, layout: &Layout) -> Vec<String> {
        let id = lane.id;
        let bounds = || lane.bounds().iter().map(u8::to_string).collect::<Vec<_>>().join("-");
        match layout.size {
            Size::Bar => {
                let named = lane.label(&self.names).chars().take(layout.lane - 1).collect();
                let below = Some(lane.below()).filter(|below| below.len() < layout.lane);
                vec![named, below.unwrap_or_else(|| format!("R {}", bounds()))]
            }
            Size::Figure => {
                vec![
                    format!("{:>4}", format!("id{id}")),
                    format!("{:>4}", format!("R{}", bounds())),
                ]
            }
            Size::Eighths => {
                let tens = if id < 10 { " ".to_string() } else { (id / 10).to_string() };
                vec![tens, (id % 10).to_string(), format!("{}", lane.limit() / 256)]
            }
        }
    }

    /// A partition in a slot.
    fn cell(&self, lane: &Lane, cell: Option<Cell>, layout: &Layout) -> String {
        let width = layout.lane;
        let Some(cell) = cell else {
            let dash = if layout.size == Size::Eighths { "-" } else { "   -" };
            return format!("{dash:width$}");
        };
        let own = if cell.own { '*' } else { ' ' };
        let drawn = match layout.size {
            Size::Bar => {
                format!(
                    "{:>4} {}{own}",
                    cell.shortfall,
                    bar(cell, lane.limit(), width - AROUND_BAR)
                )
            }
            Size::Figure => format!("{:>4}{own}", cell.shortfall),
            Size::Eighths => {
                format!("{}{own}", u32::from(cell.shortfall) * 8 / u32::from(lane.limit()))
            }
        };
        let drawn = format!("{drawn:width$}");
        if self.bold && cell.own {
            format!("\x1b[1m{drawn}\x1b[0m")
        } else {
            drawn
        }
    }
}

/// A shortfall as a bar: up to it `=`, at the bound `|`, and `o` where a count begun anew would stand. The whole width is the lane's largest bound.
fn bar(cell: Cell, limit: u16, width: usize) -> String {
    let scaled = |figure: u16| usize::from(figure) * width / usize::from(limit);
    let filled = scaled(cell.shortfall).max(usize::from(cell.shortfall > 0));
    let mut bar = vec!['='; filled];
    bar.resize(width + 1, ' ');
    bar[scaled(cell.limit())] = '|';
    if let Some(anew) = cell.anew {
        bar[scaled(anew)] = 'o';
    }
    bar.into_iter().collect()
}

/// What the signs mean.
fn legend(size: Size) -> &'static [&'static str] {
    match size {
        Size::Bar => &[
            "figure and = shortfall at the slot's start, in 256ths   | its bound, 256 R",
            "* its own slot   o if counted anew at the request slot: not the deficit",
        ],
        Size::Figure => {
            &["figure: shortfall at the slot's start, in 256ths, below 256 R   * its own slot"]
        }
        Size::Eighths => &[
            "figure: shortfall at the slot's start, in eighths of 256 R   * its own slot",
            "above it the id, and R, the largest in these slots",
        ],
    }
}

/// What begins in a slot.
fn mark(picture: &Picture, slot: u64, label: &str) -> Option<String> {
    match (slot == picture.request_slot, slot == picture.base) {
        (true, true) => Some(format!("request slot {label}, base {label}: the cycle")),
        (true, false) => Some(format!("request slot {label}: the transition")),
        (false, true) => Some(format!("base {label}: the cycle")),
        (false, false) => None,
    }
}
