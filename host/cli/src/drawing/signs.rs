//! The squares of a picture: a colour and a sign for each role and for parts of runs,
//! and marks for what is rare in a group.
//!
//! Each is known by its colour, by its lightness, and by its sign, so that it is told
//! apart in print, on a projector, and by a colour-blind eye.

use std::fmt::Write;

use station::Role;

use super::cells::Cell;
use super::lettering::INK;
use super::shown::Shown;

pub const WHITE: &str = "#ffffff";
const BLUE: &str = "#0b62a4";
const RED: &str = "#c0001f";
const GREY: &str = "#a9a9a4";
const NONE: &str = "none";

/// The colour of a square.
pub fn fill(shown: Shown) -> &'static str {
    match shown {
        Shown::Role(Role::InUse) => BLUE,
        Shown::Part => "#4389c6",
        Shown::Role(Role::Superseded) => "#f0a830",
        Shown::Role(Role::WithoutNumber) => "#cfe8f7",
        Shown::Role(Role::Table) => INK,
        Shown::Role(Role::Link) => "#c6cad0",
        Shown::Role(Role::Unreadable) => "#fbe4e6",
        Shown::Role(Role::Blank) => "#ecebe5",
    }
}

/// The colour of a thin bar, where the square's would be too pale.
pub fn strong(shown: Shown) -> &'static str {
    match shown {
        Shown::Role(Role::WithoutNumber) => "#8cc4ea",
        Shown::Role(Role::Unreadable) => RED,
        Shown::Role(Role::Blank) => GREY,
        _ => fill(shown),
    }
}

/// A path in units of a square.
#[derive(Clone, Copy)]
pub enum Shape {
    /// One for a whole run of squares: from where on, and how many.
    Run(fn(usize, usize, usize) -> String),
    /// In each square, from its upper left corner.
    Each(&'static str),
}

pub const SQUARE: Shape = Shape::Run(|x, y, long| format!("M{x} {y}h{long}v1h-{long}z"));
const BAR: Shape = Shape::Run(|x, y, long| format!("M{x}.2 {y}.5h{}.6", long - 1));
const TAPE: Shape = Shape::Run(|x, y, long| {
    let long = long - 1;
    format!("M{x}.2 {y}.34h{long}.6M{x}.2 {y}.66h{long}.6")
});
const STROKE: Shape = Shape::Each("m.24 .76l.52-.52");
const DOT: Shape = Shape::Each("m.5 .5h.01");
const CROSS: Shape = Shape::Each("m.26 .26l.48 .48m-.48 0l.48-.48");
const UPPER_CORNER: Shape = Shape::Each("h.6l-.6 .6z");
const LOWER_CORNER: Shape = Shape::Each("m1 1h-.6l.6-.6z");

impl Shape {
    /// On so many squares from (x, y) on.
    pub fn on(self, x: usize, y: usize, long: usize) -> String {
        match self {
            Shape::Run(path) => path(x, y, long),
            Shape::Each(path) => (x..x + long).map(|x| format!("M{x} {y}{path}")).collect(),
        }
    }
}

/// What is drawn on the squares that it belongs to.
pub struct Sign {
    pub on: fn(&Cell) -> bool,
    pub shape: Shape,
    fill: &'static str,
    stroke: &'static str,
    wide: f64,
}

impl Sign {
    const fn line(on: fn(&Cell) -> bool, shape: Shape, stroke: &'static str, wide: f64) -> Sign {
        let fill = NONE;
        Sign {
            on,
            shape,
            fill,
            stroke,
            wide,
        }
    }

    const fn corner(on: fn(&Cell) -> bool, shape: Shape, fill: &'static str) -> Sign {
        let (stroke, wide) = (WHITE, 0.07);
        Sign {
            on,
            shape,
            fill,
            stroke,
            wide,
        }
    }

    pub fn look(&self) -> String {
        let Sign {
            fill, stroke, wide, ..
        } = self;
        format!("fill=\"{fill}\" stroke=\"{stroke}\" stroke-width=\"{wide}\"")
    }
}

/// Each over those before it: of what a cell is shown as, then of what else it holds.
/// The cross has a light edge.
pub const SIGNS: [Sign; 8] = [
    Sign::line(
        |cell| cell.has_role(Role::Superseded),
        STROKE,
        "#7a4300",
        0.1,
    ),
    Sign::line(|cell| cell.has_role(Role::WithoutNumber), DOT, BLUE, 0.26),
    Sign::line(|cell| cell.shown == Shown::Part, TAPE, WHITE, 0.1),
    Sign::line(|cell| cell.has_role(Role::Link), BAR, "#6c737d", 0.14),
    Sign::corner(
        |cell| cell.in_use && !cell.has_role(Role::InUse),
        LOWER_CORNER,
        BLUE,
    ),
    Sign::corner(
        |cell| cell.table && !cell.has_role(Role::Table),
        UPPER_CORNER,
        INK,
    ),
    Sign::line(|cell| cell.unreadable, CROSS, WHITE, 0.34),
    Sign::line(|cell| cell.unreadable, CROSS, RED, 0.16),
];

pub fn path(out: &mut String, shapes: &str, look: &str) {
    if !shapes.is_empty() {
        let _ = writeln!(out, "<path d=\"{shapes}\" {look}/>");
    }
}

/// The ends of what is drawn.
pub const ROUND: &str = " stroke-linecap=\"round\"";

/// What follows is in units of a square, up to the end of the group.
pub fn scaled(out: &mut String, (x, y): (f64, f64), size: f64, look: &str) {
    let _ = writeln!(
        out,
        "<g transform=\"translate({x:.1} {y:.1}) scale({size:.3})\"{look}>"
    );
}

/// A square of the legend.
pub fn swatch(out: &mut String, place: (f64, f64), size: f64, cell: &Cell) {
    scaled(out, place, size, ROUND);
    let edge = if cell.has_role(Role::Blank) {
        GREY
    } else {
        NONE
    };
    let look = format!(
        "fill=\"{}\" stroke=\"{edge}\" stroke-width=\".04\"",
        fill(cell.shown)
    );
    path(out, &SQUARE.on(0, 0, 1), &look);
    for sign in SIGNS.iter().filter(|sign| (sign.on)(cell)) {
        path(out, &sign.shape.on(0, 0, 1), &sign.look());
    }
    out.push_str("</g>\n");
}
