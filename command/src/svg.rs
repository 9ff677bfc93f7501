//! Changes drawn as an SVG picture, one under another: slots from left to right, a lane for each partition.

use crate::canvas::{Anchor, Canvas, ANEW, BAR, BASE, BOUND, GROUND, OWN, REQUEST, TRANSITION};
use crate::picture::{Cell, Lane, Names, Picture};
use crate::words::folded;
use std::fmt::Write;

/// Left of the slots stand the names of the lanes, at least so wide; right of them is a margin.
const LEFT: usize = 150;
const RIGHT: usize = 24;
/// The width of a letter of a lane's name, about.
const LETTER: usize = 7;
/// The margin of texts.
const MARGIN: usize = 20;
/// From a picture's top: its title, what is brought along, the marks, the numbers of the slots, their owners, and the first lane.
const TITLE: usize = 20;
const BROUGHT: usize = 38;
const MARKS: usize = 60;
const NUMBERS: usize = 78;
const OWNERS: usize = 93;
const LANES: usize = 102;
/// Under a picture, and under the last one.
const GAP: usize = 28;
const LEGEND: usize = 58;
const LEAST_WIDTH: usize = 660;
/// The height of a line of text, and how many characters it has at most.
const LINE: usize = 18;
const CHARACTERS: usize = 110;

/// A drawing, to which pictures are added.
pub struct Svg {
    names: Names,
    canvas: Canvas,
    left: usize,
    width: usize,
    height: usize,
}

/// The measures of a picture's lanes.
struct Measures {
    /// The width of a slot.
    slot: usize,
    /// Heights in a lane: the figures, the bars up to the largest bound, the own slots, the gap under it.
    figures: usize,
    bars: usize,
    own: usize,
    gap: usize,
    /// The size of the figures' letters, and of those of the lane's name and bounds.
    letters: usize,
    label: (usize, usize),
    /// Whether a count begun anew has room beside the figure.
    both: bool,
}

impl Measures {
    /// The measures that suit a picture, by how many slots and lanes it has.
    fn of(picture: &Picture) -> Measures {
        let wide = picture.slots.len() <= 24;
        let slot = if wide { 48 } else { 32 };
        let letters = if wide { 11 } else { 9 };
        match picture.lanes.len() {
            0..=6 => Measures {
                slot,
                figures: 16,
                bars: 64,
                own: 10,
                gap: 14,
                letters,
                label: (12, 10),
                both: wide,
            },
            7..=16 => Measures {
                slot,
                figures: 14,
                bars: 28,
                own: 8,
                gap: 8,
                letters: 9,
                label: (12, 10),
                both: false,
            },
            _ => Measures {
                slot,
                figures: 13,
                bars: 20,
                own: 6,
                gap: 5,
                letters: 9,
                label: (11, 9),
                both: false,
            },
        }
    }

    /// The height of a lane.
    fn lane(&self) -> usize {
        self.figures + self.bars + self.own + self.gap
    }
}

/// A picture on its place in the drawing.
struct Placed<'a> {
    picture: &'a Picture,
    measures: Measures,
    left: usize,
    top: usize,
}

impl Placed<'_> {
    /// The end of the lanes.
    fn bottom(&self) -> usize {
        self.top + LANES + self.measures.lane() * self.picture.lanes.len()
    }

    /// Where the slot with an index begins, from left to right.
    fn left(&self, index: usize) -> usize {
        self.left + index * self.measures.slot
    }

    /// The end of the slots.
    fn right(&self) -> usize {
        self.left(self.picture.slots.len())
    }

    /// Where a slot begins; behind the last one that is drawn, there.
    fn across(&self, slot: u64) -> usize {
        let drawn = &self.picture.slots;
        self.left(drawn.iter().position(|drawn| drawn.number >= slot).unwrap_or(drawn.len()))
    }

    /// The top of the lane with an index.
    fn lane(&self, index: usize) -> usize {
        self.top + LANES + index * self.measures.lane()
    }

    /// The ground of a lane, on which its bars stand.
    fn ground(&self, lane: usize) -> f64 {
        (self.lane(lane) + self.measures.figures + self.measures.bars) as f64
    }

    /// How high a figure stands in a lane.
    fn height(&self, lane: usize, figure: u16) -> f64 {
        self.measures.bars as f64 * f64::from(figure) / f64::from(self.picture.lanes[lane].limit())
    }

    /// A slot's number, where it has room.
    fn slot_label(&self, slot: u64) -> String {
        self.picture.slot_label(slot, self.measures.slot / LETTER)
    }

    /// A path over slots at the height of each one's figure in a lane; it is broken where there is none.
    fn stairs(&self, lane: usize, figure: impl Fn(&Cell) -> Option<u16>) -> String {
        let mut path = String::new();
        let mut goes_on = false;
        for (index, cell) in self.picture.lanes[lane].cells.iter().enumerate() {
            let figure = cell.as_ref().and_then(&figure);
            if let Some(figure) = figure {
                let y = self.ground(lane) - self.height(lane, figure);
                let step =
                    if goes_on { "V".to_string() } else { format!("M{} ", self.left(index)) };
                let _ = write!(path, "{step}{y:.1}H{}", self.left(index + 1));
            }
            goes_on = figure.is_some();
        }
        path
    }
}

impl Svg {
    /// A drawing without a picture.
    pub fn new(names: Names) -> Svg {
        let letters = names.values().map(|name| "id 31 ".len() + name.chars().count()).max();
        let left = LEFT.max(MARGIN + LETTER * letters.unwrap_or(0));
        Svg { names, canvas: Canvas::empty(), left, width: LEAST_WIDTH, height: 0 }
    }

    /// Adds a change.
    pub fn draw(&mut self, picture: &Picture) {
        let measures = Measures::of(picture);
        let placed = Placed { picture, measures, left: self.left, top: self.height };
        self.put_transition(&placed);
        self.put_heads(&placed);
        for (index, lane) in picture.lanes.iter().enumerate() {
            self.put_lane(&placed, index, lane);
        }
        self.put_marks(&placed);
        let brought = LETTER * picture.brought_along(&self.names).chars().count();
        self.width = self.width.max(placed.right() + RIGHT).max(MARGIN + brought);
        self.height = placed.bottom() + GAP;
    }

    /// Adds what is said of a request that was refused.
    pub fn say(&mut self, said: &str) {
        for line in folded(said, CHARACTERS) {
            self.height += LINE;
            self.canvas.text((MARGIN, self.height), 12, Anchor::Behind, &line);
        }
        self.height += GAP;
    }

    /// The whole drawing, with what its signs mean.
    pub fn finish(mut self) -> String {
        self.put_legend();
        self.canvas.finish(self.width, self.height + LEGEND)
    }

    /// Title, what is brought into the change, and the numbers and owners of the slots.
    fn put_heads(&mut self, placed: &Placed) {
        let (picture, top) = (placed.picture, placed.top);
        self.canvas.begin("font-weight='bold'");
        self.canvas.text((MARGIN, top + TITLE), 14, Anchor::Behind, &picture.title());
        self.canvas.end();
        let brought = picture.brought_along(&self.names);
        self.canvas.text((MARGIN, top + BROUGHT), 12, Anchor::Behind, &brought);
        self.canvas.text((self.left - 12, top + NUMBERS), 11, Anchor::Before, "slot");
        self.canvas.text((self.left - 12, top + OWNERS), 11, Anchor::Before, "has it: id");
        for (index, slot) in picture.slots.iter().enumerate() {
            let middle = placed.left(index) + placed.measures.slot / 2;
            let number = placed.slot_label(slot.number);
            let owner = slot.owner.map_or("\u{b7}".to_string(), |id| id.to_string());
            self.canvas.text((middle, top + NUMBERS), 11, Anchor::Around, &number);
            self.canvas.text((middle, top + OWNERS), 11, Anchor::Around, &owner);
        }
    }

    /// The transition, under everything else.
    fn put_transition(&mut self, placed: &Placed) {
        let picture = placed.picture;
        let (from, to) = (placed.across(picture.request_slot), placed.across(picture.base));
        let top = placed.top + MARKS + 6;
        if from < to {
            let size = ((to - from) as f64, (placed.bottom() - top) as f64);
            self.canvas.rectangle((from as f64, top as f64), size, TRANSITION);
        }
    }

    /// The lines at the request slot and at the base.
    fn put_marks(&mut self, placed: &Placed) {
        let (slot, base) = (placed.picture.request_slot, placed.picture.base);
        let (from, to) = (placed.across(slot), placed.across(base));
        let (y, bottom) = (placed.top + MARKS, placed.bottom());
        let down = |x: usize| format!("M{x} {}V{bottom}", y + 5);
        self.canvas.path(&down(from), REQUEST);
        let (slot_label, base_label) = (placed.slot_label(slot), placed.slot_label(base));
        if slot == base {
            let both = format!("request slot {slot_label}, base {base_label}");
            self.canvas.text((from, y), 12, Anchor::Around, &both);
            return;
        }
        self.canvas.text((from - 3, y), 12, Anchor::Before, &format!("request slot {slot_label}"));
        if to < placed.right() {
            self.canvas.path(&down(to), BASE);
            self.canvas.text((to + 3, y), 12, Anchor::Behind, &format!("base {base_label}"));
        }
    }

    /// A partition's lane: its name and bounds, its cells, its bound, and the count begun anew.
    fn put_lane(&mut self, placed: &Placed, index: usize, lane: &Lane) {
        let (letters, small) = placed.measures.label;
        let place = (self.left - 12, placed.lane(index) + letters + 4);
        self.canvas.text(place, letters, Anchor::Before, &lane.label(&self.names));
        let place = (place.0, place.1 + small + 3);
        self.canvas.text(place, small, Anchor::Before, &lane.below());
        let ground = format!("M{} {}H{}", self.left, placed.ground(index), placed.right());
        self.canvas.path(&ground, GROUND);
        for (slot, cell) in lane.cells.iter().enumerate() {
            if let Some(cell) = cell {
                self.put_cell(placed, index, slot, cell);
            }
        }
        self.canvas.path(&placed.stairs(index, |cell| Some(cell.limit())), BOUND);
        let anew = placed.stairs(index, |cell| cell.anew);
        if !anew.is_empty() {
            self.canvas.path(&anew, ANEW);
        }
    }

    /// How a partition stands in a slot: the bar, a box if the slot is its own, and the figure. All that is told stands in the group's attributes.
    fn put_cell(&mut self, placed: &Placed, lane: usize, slot: usize, cell: &Cell) {
        let Measures { slot: width, figures, own, letters, both, .. } = placed.measures;
        let (x, ground) = (placed.left(slot), placed.ground(lane));
        let height = placed.height(lane, cell.shortfall);
        self.canvas.begin(&told(placed.picture, lane, slot, cell));
        let bar = (x as f64 + 4.0, ground - height);
        self.canvas.rectangle(bar, (width as f64 - 8.0, height), BAR);
        if cell.own {
            let size = (width as f64 - 2.0, own as f64 - 2.0);
            self.canvas.rectangle((x as f64 + 1.0, ground + 2.0), size, OWN);
        }
        let figure = match cell.anew {
            Some(anew) if both => format!("{} ({anew})", cell.shortfall),
            _ => cell.shortfall.to_string(),
        };
        let place = (x + width / 2, placed.lane(lane) + figures - 4);
        self.canvas.text(place, letters, Anchor::Around, &figure);
        self.canvas.end();
    }

    /// What the signs mean.
    fn put_legend(&mut self) {
        let top = self.height + 8;
        let sample = |x: usize, line: usize| format!("M{x} {}H{}", top + line - 4, x + 26);
        let corner = |x: usize, line: usize| (x as f64, (top + line - 9) as f64);
        let second = LINE + 4;
        self.canvas.rectangle(corner(20, 0), (26.0, 10.0), BAR);
        self.canvas.path(&sample(370, 0), BOUND);
        self.canvas.rectangle(corner(510, 0), (26.0, 8.0), OWN);
        self.canvas.rectangle(corner(20, second), (26.0, 12.0), TRANSITION);
        self.canvas.path(&sample(130, second), ANEW);
        let anew =
            "if counted anew at the request slot, with room also in brackets: not the deficit";
        let texts = [
            (52, 0, "shortfall (\u{201c}deficit\u{201d}) at the slot\u{2019}s start, in 256ths of a slot"),
            (402, 0, "its bound, 256 R"),
            (542, 0, "its own slot"),
            (52, second, "transition"),
            (162, second, anew),
        ];
        for (x, line, text) in texts {
            self.canvas.text((x, top + line), 11, Anchor::Behind, text);
        }
    }
}

/// What a cell tells, as attributes: the request, slot and id, and the figures.
fn told(picture: &Picture, lane: usize, slot: usize, cell: &Cell) -> String {
    let figures = [
        ("request", picture.ordinal),
        ("slot", picture.slots[slot].number),
        ("id", picture.lanes[lane].id.into()),
        ("shortfall", cell.shortfall.into()),
        ("slices", cell.slices),
        ("bound", cell.bound.into()),
        ("own", cell.own.into()),
        ("anew", cell.anew.unwrap_or(cell.shortfall).into()),
    ];
    figures.map(|(name, figure)| format!("data-{name}='{figure}'")).join(" ")
}
