//! The page of a picture: title, answer, the disc, the legend, and what a cell is. It
//! fits a window of any size, and prints for the wall on an A3 sheet in landscape.

use std::fmt::Write;

use station::Role;

use super::cells::Cell;
use super::lettering::{escaped, Lettering, INK, QUIET};
use super::shown::{Count, Shown};
use super::signs::{strong, swatch, WHITE};
use super::squares::Squares;
use super::words::{answer, balanced, name, notes, share, title};
use super::Plan;
use crate::form::{counted, number};

const LEFT: f64 = 84.0;
const RIGHT: f64 = 1596.0;
/// Where the legend begins, and its texts.
const LEGEND: f64 = 1262.0;
const BESIDE: f64 = LEGEND + 56.0;

const TITLE: Lettering = Lettering::bold(50.0, INK);
const DISC: Lettering = Lettering::ending(26.0, QUIET);
const ANSWER: Lettering = Lettering::new(25.0, INK);
const ROLE: Lettering = Lettering::bold(20.0, INK);
const COUNT: Lettering = Lettering::bold_ending(20.0, INK);
const SHARE: Lettering = Lettering::ending(16.0, QUIET);
const MEANING: Lettering = Lettering::new(15.0, QUIET);
const FOOT: Lettering = Lettering::new(16.5, QUIET);

/// Without a size of its own the page takes that of the window, whole. On paper
/// nobody has a pointer.
const OPENING: &str = "\
<svg xmlns=\"http://www.w3.org/2000/svg\" viewBox=\"0 0 1680 1188\" role=\"img\" fill=\"none\" \
font-family=\"Helvetica, Arial, 'Liberation Sans', 'DejaVu Sans', sans-serif\">
<style>@page{size:A3 landscape;margin:0}@media print{.on-screen{display:none}}</style>
";
const POINTER: &str = "The pointer on a square tells its block, role and number.";

/// XML that needs no other file: no script, no font, no picture.
pub fn svg(plan: &Plan) -> String {
    let count = Count::of(plan.roles, &plan.in_use.parts);
    let answer = answer(&count);
    let squares = Squares::of(plan);
    let mut out = String::from(OPENING);
    let _ = writeln!(out, "<title>{}</title>", escaped(&title(plan)));
    let _ = writeln!(out, "<desc>{}</desc>", escaped(&answer));
    let _ = writeln!(
        out,
        "<rect width=\"1680\" height=\"1188\" fill=\"{WHITE}\"/>"
    );
    head(&mut out, plan, &answer);
    let below = legend(&mut out, &count);
    if squares.group > 1 {
        marks(&mut out, below);
    }
    foot(&mut out, squares.group, &notes(plan).join(" "));
    out.push_str(&squares.drawn());
    out.push_str("</svg>\n");
    out
}

fn head(out: &mut String, plan: &Plan, answer: &str) {
    TITLE.write(out, LEFT, 130.0, "Where the space went");
    let disc = format!("{}, {}", name(plan), counted(plan.roles.len(), "sector"));
    DISC.write(out, RIGHT, 130.0, &disc);
    lines(out, ANSWER, (LEFT, 184.0), 34.0, &balanced(answer, 120));
}

/// One below the other, so far apart.
fn lines(out: &mut String, with: Lettering, (x, y): (f64, f64), apart: f64, lines: &[String]) {
    for (place, words) in lines.iter().enumerate() {
        with.write(out, x, y + place as f64 * apart, words);
    }
}

/// Each role with its count, its share, and a bar of that length, and parts of runs in
/// the same way. Answers where it ends.
fn legend(out: &mut String, count: &Count) -> f64 {
    let mut y = 296.0;
    let sectors = count.roles.sectors();
    for shown in count.legend() {
        let listed = count.listed(shown);
        swatch(out, (LEGEND, y), 40.0, &Cell::only(shown));
        ROLE.write(out, BESIDE, y + 16.0, &shown.to_string());
        COUNT.write(out, RIGHT, y + 16.0, &number(listed));
        SHARE.write(out, RIGHT, y + 37.0, &share(listed, sectors));
        let meaning = balanced(shown.meaning(), 29);
        lines(out, MEANING, (BESIDE, y + 37.0), 18.0, &meaning);
        bar(out, y + 67.0, shown, listed as f64 / sectors.max(1) as f64);
        y += 84.0;
    }
    y
}

/// Some is never shown as none.
fn bar(out: &mut String, y: f64, shown: Shown, share: f64) {
    let fill = strong(shown);
    let whole = RIGHT - LEGEND;
    let long = match share > 0.0 {
        true => (whole * share).max(1.5),
        false => 0.0,
    };
    let _ = writeln!(
        out,
        "<path d=\"M{LEGEND} {y}h{whole}\" stroke=\"#dcdbd6\"/>\
         <path d=\"M{LEGEND} {y}h{long:.1}\" stroke=\"{fill}\" stroke-width=\"7\"/>"
    );
}

/// What a cell for a group of sectors tells beside its role.
fn marks(out: &mut String, y: f64) {
    let among_them = [
        (Role::Table, "a table is among the sectors"),
        (Role::InUse, "a sector in use is among them"),
        (Role::Unreadable, "an unreadable sector is among them"),
    ];
    for (place, (rare, words)) in among_them.into_iter().enumerate() {
        let y = y + place as f64 * 31.0;
        let shown = Shown::Role(Role::Superseded);
        let example = Cell {
            shown,
            ..Cell::only(Shown::Role(rare))
        };
        swatch(out, (LEGEND + 8.0, y), 24.0, &example);
        MEANING.write(out, BESIDE, y + 17.0, words);
    }
}

/// On a screen also what the pointer is good for.
fn foot(out: &mut String, group: usize, notes: &str) {
    let cell_is = match group {
        1 => "One cell is one sector.".into(),
        _ => format!(
            "One cell is {}, in the colour of what most of the recorded ones are.",
            counted(group, "sector")
        ),
    };
    let words = format!(
        "{cell_is} At the left of a row is its first block. At the right are the saves in it, \
         counted back from the newest, which has a ring. {notes}"
    );
    let words = balanced(words.trim_end(), 180);
    lines(out, FOOT, (LEFT, 1094.0), 24.0, &words);
    out.push_str("<g class=\"on-screen\">\n");
    FOOT.write(out, LEFT, 1094.0 + words.len() as f64 * 24.0, POINTER);
    out.push_str("</g>\n");
}
