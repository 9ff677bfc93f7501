//! Shapes and texts of a drawing, in SVG. Everything is black, white or grey.

use std::fmt::Write;

/// How a shape is painted.
#[derive(Clone, Copy)]
pub struct Paint(&'static str);

/// A shortfall.
pub const BAR: Paint = Paint("fill='#bbb' stroke='#000' stroke-width='0.6'");
/// An own slot.
pub const OWN: Paint = Paint("fill='#000'");
/// The ground on which bars stand.
pub const GROUND: Paint = Paint("stroke='#000' stroke-width='0.6'");
/// A bound.
pub const BOUND: Paint =
    Paint("fill='none' stroke='#000' stroke-width='1.2' stroke-dasharray='7 3'");
/// A count begun anew.
pub const ANEW: Paint =
    Paint("fill='none' stroke='#000' stroke-width='2.4' stroke-dasharray='2.4 2.4'");
/// The request slot.
pub const REQUEST: Paint = Paint("stroke='#000' stroke-width='2.5'");
/// The base.
pub const BASE: Paint = Paint("stroke='#000' stroke-width='2' stroke-dasharray='8 4'");
/// The transition.
pub const TRANSITION: Paint = Paint("fill='url(#transition)' opacity='0.6'");

/// Where a text stands, seen from its place.
#[derive(Clone, Copy)]
pub enum Anchor {
    Before,
    Around,
    Behind,
}

/// A drawing's shapes and texts, the later ones over the earlier.
pub struct Canvas {
    body: String,
}

impl Canvas {
    /// A drawing without a shape.
    pub fn empty() -> Canvas {
        Canvas { body: String::new() }
    }

    /// A rectangle.
    pub fn rectangle(&mut self, (x, y): (f64, f64), (width, height): (f64, f64), paint: Paint) {
        let place = format!("x='{x}' y='{y:.1}' width='{width}' height='{height:.1}'");
        let _ = writeln!(self.body, "<rect {place} {}/>", paint.0);
    }

    /// A path, in SVG's words for one.
    pub fn path(&mut self, path: &str, paint: Paint) {
        let _ = writeln!(self.body, "<path d='{path}' {}/>", paint.0);
    }

    /// A text at a place, in letters of a size.
    pub fn text(&mut self, (x, y): (usize, usize), letters: usize, anchor: Anchor, text: &str) {
        let anchor = match anchor {
            Anchor::Before => "end",
            Anchor::Around => "middle",
            Anchor::Behind => "start",
        };
        let text = text.replace('&', "&amp;").replace('<', "&lt;").replace('>', "&gt;");
        let place = format!("x='{x}' y='{y}' font-size='{letters}' text-anchor='{anchor}'");
        let _ = writeln!(self.body, "<text {place}>{text}</text>");
    }

    /// What is drawn up to the end of the group belongs together, and has these attributes.
    pub fn begin(&mut self, attributes: &str) {
        let _ = writeln!(self.body, "<g {attributes}>");
    }

    /// The group ends.
    pub fn end(&mut self) {
        self.body.push_str("</g>\n");
    }

    /// The whole drawing.
    pub fn finish(&self, width: usize, height: usize) -> String {
        format!(
            "<svg xmlns='http://www.w3.org/2000/svg' viewBox='0 0 {width} {height}' width='{width}' height='{height}' role='img' font-family='sans-serif'>\n\
             <title>The slots around each change</title>\n\
             <defs><pattern id='transition' width='7' height='7' patternUnits='userSpaceOnUse' patternTransform='rotate(45)'>\
             <path d='M0 0V7' stroke='#999' stroke-width='1.6'/></pattern></defs>\n\
             <rect width='{width}' height='{height}' fill='#fff'/>\n{}</svg>\n",
            self.body
        )
    }
}
