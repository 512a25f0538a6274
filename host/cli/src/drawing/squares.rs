//! The disc on the page of a picture: a square for each cell, block numbers at the
//! left of the rows and the saves at their right.
//!
//! The squares of a role are one path, and neighbours in a row one piece of it. What
//! is told under the pointer lies over them, unseen, a path for each stretch.

use std::fmt::Write;
use std::ops::Range;

use station::Role;

use super::cells::{cells, group, Cell};
use super::lettering::{Lettering, INK, QUIET};
use super::pointer::stretches;
use super::shown::Shown;
use super::signs::{fill, path, scaled, Shape, ROUND, SIGNS, SQUARE, WHITE};
use super::{Plan, Save};

/// Where the squares may stand, without the texts beside them.
const LEFT: f64 = 158.0;
const TOP: f64 = 296.0;
const WIDTH: f64 = 950.0;
const HEIGHT: f64 = 740.0;
const LARGEST: f64 = 96.0;
/// From this size on a square has room for its block number.
const TELLING: f64 = 60.0;
/// From this size on a save's square has room for its number of steps back.
const COUNTING: f64 = 17.0;
/// More would be too small to see across a room.
const MOST_CELLS: usize = 3600;

pub struct Squares<'a> {
    plan: &'a Plan<'a>,
    /// How many sectors each stands for.
    pub group: usize,
    cells: Vec<Cell>,
    columns: usize,
    size: f64,
}

impl<'a> Squares<'a> {
    pub fn of(plan: &'a Plan<'a>) -> Squares<'a> {
        let group = group(plan.roles.len(), MOST_CELLS);
        let cells = cells(plan, group);
        let (columns, size) = largest(cells.len());
        Squares {
            plan,
            group,
            cells,
            columns,
            size,
        }
    }

    pub fn drawn(&self) -> String {
        let mut out = String::new();
        scaled(&mut out, (LEFT, TOP), self.size, ROUND);
        for shown in Shown::ALL {
            let squares = self.runs(|cell| cell.shown == shown, SQUARE);
            path(&mut out, &squares, &format!("fill=\"{}\"", fill(shown)));
        }
        for (step, wide) in [(1, 1.2), (10, 3.6)] {
            let wide = (wide / self.size).max(0.07);
            let look = format!("stroke=\"{WHITE}\" stroke-width=\"{wide:.3}\"");
            path(&mut out, &self.lines(step), &look);
        }
        for sign in SIGNS {
            path(&mut out, &self.runs(sign.on, sign.shape), &sign.look());
        }
        out.push_str("</g>\n");
        self.numbers(&mut out);
        self.saves(&mut out);
        self.told(&mut out);
        out
    }

    /// Over all that is drawn, since the pointer meets what is uppermost.
    fn told(&self, out: &mut String) {
        scaled(out, (LEFT, TOP), self.size, " pointer-events=\"all\"");
        for stretch in stretches(self.plan, self.group) {
            let blocks = &stretch.blocks;
            let squares = blocks.start / self.group..blocks.end.div_ceil(self.group);
            let (area, told) = (self.area(squares), stretch.told());
            let _ = writeln!(out, "<path d=\"{area}\"><title>{told}</title></path>");
        }
        out.push_str("</g>\n");
    }

    /// These squares, a piece in each row.
    fn area(&self, squares: Range<usize>) -> String {
        let mut area = String::new();
        let mut from = squares.start;
        while from < squares.end {
            let (x, y) = (from % self.columns, from / self.columns);
            let long = (self.columns - x).min(squares.end - from);
            area += &SQUARE.on(x, y, long);
            from += long;
        }
        area
    }

    /// The shape on all such cells.
    fn runs(&self, such: impl Fn(&Cell) -> bool, shape: Shape) -> String {
        let mut shapes = String::new();
        for (y, row) in self.cells.chunks(self.columns).enumerate() {
            let mut x = 0;
            for run in row.chunk_by(|one, next| such(one) == such(next)) {
                if such(&run[0]) {
                    shapes += &shape.on(x, y, run.len());
                }
                x += run.len();
            }
        }
        shapes
    }

    /// Between the squares, or between tens of columns.
    fn lines(&self, step: usize) -> String {
        let rows = self.cells.len().div_ceil(self.columns);
        let columns = self.columns.min(self.cells.len());
        let across = (0..=rows).filter(|_| step == 1);
        let across = across.map(|y| format!("M0 {y}h{columns}"));
        let down = (0..=columns).step_by(step);
        let down = down.map(|x| format!("M{x} 0v{rows}"));
        across.chain(down).collect()
    }

    /// The first block of each row, and in large squares each square's own.
    fn numbers(&self, out: &mut String) {
        let beside = Lettering::ending((self.size * 0.8).min(19.0), QUIET);
        for row in 0..self.cells.len().div_ceil(self.columns) {
            let block = (row * self.columns * self.group).to_string();
            beside.write_level(out, LEFT - 12.0, self.middle(row), &block);
        }
        if self.group > 1 || self.size < TELLING {
            return;
        }
        for (block, cell) in self.cells.iter().enumerate() {
            let (x, y) = self.place(block);
            let dark = cell.has_role(Role::InUse) || cell.has_role(Role::Table);
            let ink = if dark { WHITE } else { INK };
            let small = Lettering::new(self.size * 0.17, ink);
            let corner = self.size * 0.15;
            small.write_level(out, x + corner / 2.0, y + corner, &block.to_string());
        }
    }

    /// The upper left corner of the square that has a block.
    fn place(&self, block: usize) -> (f64, f64) {
        let (row, column) = (self.row(block), block / self.group % self.columns);
        let length = |squares: usize| squares as f64 * self.size;
        (LEFT + length(column), TOP + length(row))
    }

    fn row(&self, block: usize) -> usize {
        block / self.group / self.columns
    }

    /// How far down the middle of a row is.
    fn middle(&self, row: usize) -> f64 {
        TOP + (row as f64 + 0.5) * self.size
    }

    /// Each in its square, and beside each row all that are in it.
    fn saves(&self, out: &mut String) {
        let on_disc = |save: &&Save| save.block < self.plan.roles.len();
        let saves: Vec<&Save> = self.plan.saves.iter().filter(on_disc).collect();
        let columns = self.columns.min(self.cells.len());
        let right = LEFT + columns as f64 * self.size + 14.0;
        for in_row in saves.chunk_by(|one, next| self.row(one.block) == self.row(next.block)) {
            let (first, last) = (in_row[0].back, in_row[in_row.len() - 1].back);
            let ink = if first == 0 { INK } else { QUIET };
            let beside = Lettering::new((self.size * 0.8).min(16.5), ink);
            let middle = self.middle(self.row(in_row[0].block));
            beside.write_level(out, right, middle, &range(first, last));
            for save in in_row {
                self.save(out, save);
            }
        }
    }

    /// Its number of steps back, where there is room, and a ring around the newest.
    fn save(&self, out: &mut String, save: &Save) {
        let (x, y) = self.place(save.block);
        if self.group == 1 && self.size >= COUNTING {
            let of_square = if save.back > 99 { 0.4 } else { 0.5 };
            let inside = Lettering::centred(self.size * of_square, WHITE);
            let half = self.size / 2.0;
            inside.write_level(out, x + half, y + half, &save.back.to_string());
        }
        if save.back == 0 {
            ring(out, (x, y), self.size);
        }
    }
}

/// How many columns give the largest squares, and their size. Tens are easy to count.
fn largest(cells: usize) -> (usize, f64) {
    let tens = (10..=100).step_by(10).map(|columns| {
        let rows = cells.div_ceil(columns).max(1);
        let size = (WIDTH / columns as f64).min(HEIGHT / rows as f64);
        (columns, size.min(LARGEST))
    });
    let larger = |best: (usize, f64), next: (usize, f64)| if next.1 > best.1 { next } else { best };
    tens.reduce(larger).unwrap_or((10, LARGEST))
}

/// For example `newest`, `3 back`, `3–7 back`.
fn range(first: usize, last: usize) -> String {
    match first {
        0 if last == 0 => "newest".into(),
        0 => format!("newest–{last} back"),
        _ if first == last => format!("{last} back"),
        _ => format!("{first}–{last} back"),
    }
}

/// Around the newest save: light inside, dark outside, to be seen on any colour.
fn ring(out: &mut String, (x, y): (f64, f64), size: f64) {
    for (out_by, wide, ink) in [(0.6, 2.4, WHITE), (3.0, 3.0, INK)] {
        let (x, y, size) = (x - out_by, y - out_by, size + 2.0 * out_by);
        let _ = writeln!(
            out,
            "<rect x=\"{x:.1}\" y=\"{y:.1}\" width=\"{size:.1}\" height=\"{size:.1}\" \
             stroke=\"{ink}\" stroke-width=\"{wide}\"/>"
        );
    }
}
