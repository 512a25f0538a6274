//! The drawing for a terminal or a text file: rows of letters, in tens, the legend,
//! and the saves.

use station::Role;

use super::cells::{cells, group, Cell};
use super::shown::{Count, Shown};
use super::words::{answer, notes, share, title, wrapped};
use super::{Plan, Save};
use crate::form::{counted, number};

/// Below this the lines are no shorter.
const NARROWEST: usize = 40;
/// From here on the legend has room for what each role means.
const TELLING: usize = 76;
/// About what a screen shows.
const MOST_ROWS: usize = 40;
const MOST_SAVES_LISTED: usize = 12;
/// A row's first block number, and the two spaces behind it.
const MARGIN: usize = 8;

/// Plain text, one letter a cell.
pub fn letters(plan: &Plan, width: usize) -> String {
    drawn(plan, width, |letters, _| letters.into())
}

/// The same with ANSI colours.
pub fn colours(plan: &Plan, width: usize) -> String {
    drawn(plan, width, |letters, look| {
        let underlined = if look.marked { ";1;4" } else { "" };
        format!("\x1b[{}{underlined}m{letters}\x1b[0m", colour(look.shown))
    })
}

/// Of 256 colours: far apart in lightness where they are alike to a colour-blind eye,
/// and each with its letter.
fn colour(shown: Shown) -> &'static str {
    match shown {
        Shown::Role(Role::InUse) => "48;5;25;38;5;231",
        Shown::Part => "48;5;68;38;5;16",
        Shown::Role(Role::Superseded) => "48;5;214;38;5;16",
        Shown::Role(Role::WithoutNumber) => "48;5;117;38;5;16",
        Shown::Role(Role::Table) => "48;5;16;38;5;231;1",
        Shown::Role(Role::Link) => "48;5;250;38;5;16",
        Shown::Role(Role::Unreadable) => "48;5;160;38;5;231;1",
        Shown::Role(Role::Blank) => "38;5;245",
    }
}

/// Letters of one look, painted or left plain.
type Paint = fn(&str, Look) -> String;

#[derive(PartialEq)]
struct Look {
    shown: Shown,
    /// A table is among sectors that are shown as something else.
    marked: bool,
}

/// An unreadable sector goes before what is commoner.
fn look(cell: &Cell) -> Look {
    let shown = match cell.unreadable {
        true => Shown::Role(Role::Unreadable),
        false => cell.shown,
    };
    let marked = cell.table && shown != Shown::Role(Role::Table);
    Look { shown, marked }
}

fn letter_of(cell: &Cell) -> char {
    let letter = look(cell).shown.letter();
    match cell.table {
        true => letter.to_ascii_uppercase(),
        false => letter,
    }
}

fn drawn(plan: &Plan, width: usize, paint: Paint) -> String {
    let width = width.max(NARROWEST);
    let columns = (width - MARGIN + 1) / 11 * 10;
    let group = group(plan.roles.len(), columns * MOST_ROWS);
    let count = Count::of(plan.roles, &plan.in_use.parts);
    let mut lines = wrapped(&title(plan), width);
    lines.extend(wrapped(&answer(&count), width));
    lines.push(String::new());
    let cells = cells(plan, group);
    for (place, row) in cells.chunks(columns).enumerate() {
        lines.push(row_of(row, place * columns * group, paint));
    }
    lines.push(String::new());
    lines.extend(legend(&count, width, paint));
    lines.push(String::new());
    lines.extend(wrapped(&cell_in_words(group), width));
    lines.extend(wrapped(&saves_in_words(plan.saves), width));
    for said in notes(plan) {
        lines.extend(wrapped(&said, width));
    }
    lines.join("\n") + "\n"
}

fn row_of(row: &[Cell], first_block: usize, paint: Paint) -> String {
    let tens = row.chunks(10).map(|ten| {
        let alike = ten.chunk_by(|one, next| look(one) == look(next));
        let painted = alike.map(|run| {
            let letters: String = run.iter().map(letter_of).collect();
            paint(&letters, look(&run[0]))
        });
        painted.collect::<String>()
    });
    let tens: Vec<String> = tens.collect();
    format!("{first_block:6}  {}", tens.join(" "))
}

fn legend(count: &Count, width: usize, paint: Paint) -> Vec<String> {
    let mut lines = Vec::new();
    for shown in count.legend() {
        let marked = false;
        let letter = paint(&shown.letter().to_string(), Look { shown, marked });
        let listed = count.listed(shown);
        let share = share(listed, count.roles.sectors());
        let listed = number(listed);
        let line = format!("  {letter}  {shown:16} {listed:>8} {share:>9}");
        if width < TELLING {
            lines.push(line);
            continue;
        }
        let indent = 42;
        let mut meaning = wrapped(shown.meaning(), width - indent).into_iter();
        lines.push(line + "  " + &meaning.next().unwrap_or_default());
        lines.extend(meaning.map(|more| " ".repeat(indent) + &more));
    }
    lines
}

fn cell_in_words(group: usize) -> String {
    match group {
        1 => "One cell is one sector.".into(),
        _ => format!(
            "One cell is {}: its letter is the commonest of those recorded, a capital \
             if a table is among them, and x if an unreadable sector is.",
            counted(group, "sector")
        ),
    }
}

/// Their blocks; of many the newest and the oldest.
fn saves_in_words(saves: &[Save]) -> String {
    let block = |save: &Save| save.block.to_string();
    let blocks: Vec<String> = saves.iter().map(block).collect();
    let (listed, oldest) = match blocks.split_last() {
        None => return "No save.".into(),
        Some((oldest, newer)) if blocks.len() > MOST_SAVES_LISTED => {
            (&newer[..MOST_SAVES_LISTED - 1], format!(", ..., {oldest}"))
        }
        Some(_) => (&blocks[..], String::new()),
    };
    let plural = if saves.len() == 1 { "" } else { "s" };
    let count = number(saves.len());
    format!(
        "{count} save{plural}, newest first, at block {}{oldest}.",
        listed.join(", ")
    )
}
