//! What is told under the pointer: block, role and number of a square, or of a
//! stretch of squares that are alike.

use std::ops::Range;

use station::Role;

use super::shown::{Count, Shown};
use super::{Own, Plan};
use crate::form::number;
use crate::ledger::in_words;

/// Neighbours that are told of together.
pub struct Stretch {
    pub blocks: Range<usize>,
    words: String,
    /// Whether all sectors are shown alike, and so the next ones may belong to it.
    alike: bool,
}

impl Stretch {
    /// For example `block 46: table, the newest save`, `blocks 12 to 18: link`.
    pub fn told(&self) -> String {
        let (first, last) = (self.blocks.start, self.blocks.end - 1);
        match first == last {
            true => format!("block {first}: {}", self.words),
            false => format!("blocks {first} to {last}: {}", self.words),
        }
    }
}

/// From block 0 on, where a square stands for so many sectors.
pub fn stretches(plan: &Plan, group: usize) -> Vec<Stretch> {
    let mut stretches: Vec<Stretch> = Vec::new();
    let sectors = plan.roles.len();
    for first in (0..sectors).step_by(group) {
        let square = of_square(plan, first..sectors.min(first + group));
        match stretches.last_mut() {
            Some(before) if before.alike && square.alike && before.words == square.words => {
                before.blocks.end = square.blocks.end;
            }
            _ => stretches.push(square),
        }
    }
    stretches
}

/// What the pointer tells apart: what is shown of a sector, and of table sectors a save's
/// table from an own sector of one.
#[derive(Clone, Copy, PartialEq)]
enum Held {
    Shown(Shown),
    Own,
}

fn of_square(plan: &Plan, blocks: Range<usize>) -> Stretch {
    let parts = &plan.in_use.parts[blocks.clone()];
    let count = Count::of(&plan.roles[blocks.clone()], parts);
    let held = held(&count, own(plan, &blocks).len());
    let alike = held.len() == 1;
    let words = held.into_iter().map(|(what, sectors)| {
        let more = more(plan, &blocks, what);
        match alike {
            true => alone(what, more, &count),
            false => among_others(sectors, what, more),
        }
    });
    let words = words.collect::<Vec<String>>().join(", ");
    Stretch {
        blocks,
        words,
        alike,
    }
}

/// What is among sectors of which so many are own sectors, and how many there are of each.
fn held(count: &Count, own: usize) -> Vec<(Held, usize)> {
    let mut held = Vec::new();
    for shown in Shown::ALL {
        let own = match shown {
            Shown::Role(Role::Table) => own,
            _ => 0,
        };
        held.push((Held::Shown(shown), count.drawn(shown) - own));
        held.push((Held::Own, own));
    }
    held.retain(|(_, sectors)| *sectors > 0);
    held
}

/// The own sectors among these blocks.
fn own<'a>(plan: &'a Plan, blocks: &Range<usize>) -> &'a [Own] {
    let before = |end: usize| plan.own.partition_point(|own| own.block < end);
    &plan.own[before(blocks.start)..before(blocks.end)]
}

/// Of a part its role is told too, if all have the same.
fn alone(what: Held, more: Option<String>, count: &Count) -> String {
    let parts = count.drawn(Shown::Part);
    let role = Role::ALL
        .into_iter()
        .find(|role| count.parts.count(*role) == parts);
    let Held::Shown(shown) = what else {
        return format!("table's own sector, {}", more.unwrap_or_default());
    };
    match (shown, more, role) {
        (Shown::Part, Some(run), Some(role)) => format!("part of {run} ({role})"),
        (Shown::Part, Some(run), None) => format!("part of {run}"),
        (_, Some(more), _) => format!("{shown}, {more}"),
        (_, None, _) => shown.to_string(),
    }
}

fn among_others(count: usize, what: Held, more: Option<String>) -> String {
    let plural = if count == 1 { "" } else { "s" };
    let count = number(count);
    let Held::Shown(shown) = what else {
        let saves = more.unwrap_or_default();
        return format!("{count} own sector{plural} of tables ({saves})");
    };
    match (shown, more) {
        (Shown::Part, Some(run)) => format!("{count} part{plural} of {run}"),
        (Shown::Part, None) => format!("{count} part{plural} of runs"),
        (Shown::Role(Role::Link), _) => format!("{count} link{plural}"),
        (Shown::Role(Role::Table), None) => format!("{count} table{plural}"),
        (Shown::Role(Role::Table), Some(saves)) => format!("{count} table{plural} ({saves})"),
        (_, Some(more)) => format!("{count} {shown} ({more})"),
        (_, None) => format!("{count} {shown}"),
    }
}

/// What else is known of those of the sectors that are shown so.
fn more(plan: &Plan, blocks: &Range<usize>, what: Held) -> Option<String> {
    match what {
        Held::Shown(Shown::Role(Role::InUse)) => numbers(plan, blocks),
        Held::Shown(Shown::Role(Role::Table)) => saves(plan, blocks),
        Held::Shown(Shown::Part) => run(plan, blocks),
        Held::Own => owners(plan, blocks),
        _ => None,
    }
}

/// The numbers of the blocks. A single one may be a run's.
fn numbers(plan: &Plan, blocks: &Range<usize>) -> Option<String> {
    let all = &plan.in_use.numbers;
    let before = |end: usize| all.partition_point(|number| number.block < end);
    let numbers = &all[before(blocks.start)..before(blocks.end)];
    let mut named: Vec<u32> = numbers.iter().map(|number| number.v).collect();
    named.sort_unstable();
    match numbers {
        [] => None,
        [one] if one.run => Some(format!("number {}, the entry of a run", one.v)),
        [one] => Some(format!("number {}", one.v)),
        _ => Some(format!("numbers {}", in_words(&named))),
    }
}

/// The saves of the tables, which lie newest last. A table that counting back does
/// not reach has none.
fn saves(plan: &Plan, blocks: &Range<usize>) -> Option<String> {
    let from = |block: usize| plan.saves.partition_point(|save| save.block >= block);
    let saves = &plan.saves[from(blocks.end)..from(blocks.start)];
    Some(saves_back(saves.first()?.back, saves.last()?.back))
}

/// The saves whose tables' own sectors these are.
fn owners(plan: &Plan, blocks: &Range<usize>) -> Option<String> {
    let own = own(plan, blocks).iter();
    let (newest, oldest) = (own.clone().map(|own| own.newest), own.map(|own| own.oldest));
    Some(saves_back(newest.min()?, oldest.max()?))
}

fn saves_back(newest: usize, oldest: usize) -> String {
    match newest {
        0 if oldest == 0 => "the newest save".into(),
        0 => format!("the newest save to {oldest} back"),
        _ if newest == oldest => format!("the save {newest} back"),
        _ => format!("the saves {newest} to {oldest} back"),
    }
}

/// The run that all parts among the blocks belong to, if it is one.
fn run(plan: &Plan, blocks: &Range<usize>) -> Option<String> {
    let mut parts = plan.in_use.parts[blocks.clone()].iter().flatten();
    let first = parts.next()?;
    parts.all(|v| v == first).then(|| format!("run {first}"))
}
