//! What is said beside the cells: the answer in one sentence, counts, shares, and
//! what a cell is.

use station::Role;

use super::shown::{Count, Shown};
use super::Plan;
use crate::form::{counted, number};
use crate::names::shown;

/// Where the space went, in one sentence: how full the disc is, how much of that is
/// in use or a part of what is, and what took the most of the rest, with the reason.
/// No sector is told twice.
pub fn answer(count: &Count) -> String {
    let (sectors, recorded) = (count.roles.sectors(), count.roles.recorded());
    if recorded == 0 {
        return format!(
            "Nothing is recorded: the disc is blank, {}.",
            counted(sectors, "sector")
        );
    }
    let verb = if recorded == 1 { "is" } else { "are" };
    let full = format!(
        "{} of {} {verb} recorded",
        number(recorded),
        counted(sectors, "sector")
    );
    let in_use = in_use(count);
    match (rest(count), count.drawn(Shown::Part)) {
        (None, 0) => format!("{full}, all in use."),
        (None, _) => format!("{full}, {in_use}."),
        (Some(rest), _) if in_use.is_empty() => {
            format!("{full}, none of them in use; the space {rest}.")
        }
        (Some(rest), _) => format!("{full}, {in_use}; the rest {rest}."),
    }
}

/// What numbers name, and what they lead to behind an entry. Without a number in use
/// there is neither.
fn in_use(count: &Count) -> String {
    let named = match count.drawn(Shown::Role(Role::InUse)) {
        0 => return String::new(),
        some => format!("{} of them in use", number(some)),
    };
    let of_parts = |role| count.parts.count(role) > 0;
    let counted_as = match (of_parts(Role::Superseded), of_parts(Role::WithoutNumber)) {
        (false, false) => return named,
        (true, false) => "superseded, since only a run's entry has a number",
        (false, true) => "without a number, since only a run's entry has one",
        (true, true) => "superseded or without a number, since only a run's entry has one",
    };
    let parts = match count.drawn(Shown::Part) {
        1 => "1 as a part of a run in use".into(),
        some => format!("{} as parts of runs in use", number(some)),
    };
    format!("{named} and {parts} (counted as {counted_as})")
}

/// What took the most of what is not in use, if anything is not.
fn rest(count: &Count) -> Option<String> {
    let is_loss = |shown| {
        let kept = [
            Shown::Role(Role::InUse),
            Shown::Part,
            Shown::Role(Role::Blank),
        ];
        !kept.contains(&shown)
    };
    let most = count.commonest(is_loss)?;
    let reason = match most {
        Shown::Role(Role::WithoutNumber) => "parts of runs that are not in use, or of a closing",
        _ => most.meaning(),
    };
    let taken = number(count.drawn(most));
    Some(format!(
        "went above all into {} ({taken}): {reason}",
        noun(most)
    ))
}

fn noun(shown: Shown) -> &'static str {
    match shown {
        Shown::Role(Role::InUse) => "data in use",
        Shown::Part => "parts of runs in use",
        Shown::Role(Role::Superseded) => "superseded data",
        Shown::Role(Role::WithoutNumber) => "data without a number",
        Shown::Role(Role::Table) => "tables",
        Shown::Role(Role::Link) => "links",
        Shown::Role(Role::Unreadable) => "unreadable sectors",
        Shown::Role(Role::Blank) => "blank sectors",
    }
}

pub fn title(plan: &Plan) -> String {
    format!("Where the space of {} went", name(plan))
}

/// What is told of the whole beside the cells: how many of the table sectors are own
/// sectors, if some are, and the plan's own note.
pub fn notes(plan: &Plan) -> Vec<String> {
    let own = match plan.own.len() {
        0 => String::new(),
        1 => "1 of the table sectors is a table's own sector; list --long tells whose.".into(),
        own => format!(
            "{} of the table sectors are tables' own sectors; list --long tells whose.",
            number(own)
        ),
    };
    let notes = [own, plan.note.into()].into_iter();
    notes.filter(|note| !note.is_empty()).collect()
}

/// The disc's name, fit for a line of a terminal or of XML; the middle of a long one
/// is left out.
pub fn name(plan: &Plan) -> String {
    const MOST: usize = 40;
    let letters: Vec<char> = shown(plan.name).chars().collect();
    if letters.len() <= MOST {
        return letters.iter().collect();
    }
    let (head, tail) = letters.split_at(MOST / 2);
    let tail = &tail[tail.len() - (MOST / 2 - 1)..];
    head.iter().chain(&['…']).chain(tail).collect()
}

/// For example `10.3 %`. Some is never told as none, nor a part as the whole.
pub fn share(part: usize, whole: usize) -> String {
    let tenths = match whole {
        0 => 0,
        _ => (part * 1000 + whole / 2) / whole,
    };
    match tenths {
        0 if part > 0 => "< 0.1 %".into(),
        1000 if part < whole => "> 99.9 %".into(),
        _ => format!("{}.{} %", tenths / 10, tenths % 10),
    }
}

/// As few lines as `wrapped` gives, and these about equally long.
pub fn balanced(text: &str, width: usize) -> Vec<String> {
    let lines = wrapped(text, width);
    let mut narrower = (1..width).map(|width| wrapped(text, width));
    let as_few = |narrow: &Vec<String>| narrow.len() == lines.len();
    narrower.find(as_few).unwrap_or(lines)
}

/// The words of a text in lines of at most so many letters; a longer word has a line
/// of its own.
pub fn wrapped(text: &str, width: usize) -> Vec<String> {
    let mut lines: Vec<String> = Vec::new();
    for word in text.split(' ') {
        match lines.last_mut() {
            Some(line) if line.chars().count() + 1 + word.chars().count() <= width => {
                line.push(' ');
                line.push_str(word);
            }
            _ => lines.push(word.into()),
        }
    }
    lines
}
