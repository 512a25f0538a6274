//! Where the space of a disc went: counted, and drawn.

use std::path::Path;

use station::{Refusal, Role};

use crate::arguments::Arguments;
use crate::drawing::{self, Count, Own, Plan, Save};
use crate::failure::{Done, Failure};
use crate::first_save::no_save;
use crate::form::{counted, number};
use crate::icb;
use crate::ledger::Map;
use crate::looking;
use crate::making::make;
use crate::reasons::{refused, Asked};
use crate::runs::InUse;
use crate::saves::each_save;
use crate::session::Session;
use crate::surroundings::{say, say_done, Surroundings};

/// A line for each role, and the answer in words.
pub fn space(given: &Arguments, around: &mut Surroundings) -> Done {
    let session = open(given, around)?;
    let in_use = in_use(&session);
    let text = in_words(&session.roles, &in_use);
    let note = looking_at(&session);
    drop(session);
    match note.is_empty() {
        true => say(around, text),
        false => say(around, format!("{text}{note}\n")),
    }
}

/// The disc drawn for the terminal, or as a picture in a file.
pub fn map(given: &Arguments, around: &mut Surroundings) -> Done {
    let session = open(given, around)?;
    let file = given.file("--svg");
    if file.is_some_and(|file| session.place.has(file)) {
        return Err(given.wrong("--svg names the disc, its ledger or its roles".into()));
    }
    let saves = saves(&session)?;
    let own = own_sectors(&session, &saves);
    let in_use = in_use(&session);
    let note = looking_at(&session);
    let roles = session.roles.clone();
    drop(session);
    let name = given.path(0).file_name().unwrap_or_default();
    let plan = Plan {
        name: Path::new(name),
        roles: &roles,
        in_use: &in_use,
        saves: &saves,
        own: &own,
        note: &note,
    };
    match (given.has("--svg"), file) {
        (true, Some(file)) => draw_into(file, &plan, around),
        (true, None) => say(around, drawing::svg(&plan)),
        _ => {
            let screen = around.screen;
            let drawn = match screen.colours {
                true => drawing::colours(&plan, screen.width),
                false => drawing::letters(&plan, screen.width),
            };
            say(around, drawn)
        }
    }
}

fn draw_into(file: &Path, plan: &Plan, around: &mut Surroundings) -> Done {
    let picture = drawing::svg(plan);
    make(file, picture.len() as u64, |part| {
        part.write_at(0, picture.as_bytes())
    })?;
    let sectors = counted(plan.roles.len(), "sector");
    say_done(around, format!("drawn, {sectors}\n"))
}

/// The disc with its roles, if these are known.
fn open(given: &Arguments, around: &mut Surroundings) -> Result<Session, Failure> {
    let session = looking::open(given, around)?;
    if session.knows_roles() {
        return Ok(session);
    }
    let saves = saves(&session)?;
    let todo = saves.is_empty().then(|| no_save(&session));
    Err(Failure::RolesUnknown(given.path(0).to_path_buf(), todo))
}

/// What the numbers of the ledger's map lead to.
fn in_use(session: &Session) -> InUse {
    InUse::of(&session.disc, &session.ledger, &session.roles)
}

/// A line for each role: its name, how many sectors have it, and their share of the
/// disc; and behind them what is in use, and what took the most of the rest.
fn in_words(roles: &[u8], in_use: &InUse) -> String {
    let count = Count::of(roles, &in_use.parts);
    let space = &count.roles;
    let line = |role: Role| {
        let count = space.count(role);
        let share = drawing::share(count, space.sectors());
        let count = number(count);
        format!("{role:16} {count:>8} {share:>9}\n")
    };
    let lines: String = Role::ALL.map(line).concat();
    format!("{lines}{}\n", drawing::answer(&count))
}

/// What is told while looking back; else nothing.
fn looking_at(session: &Session) -> String {
    let map = Map::of(&session.ledger);
    match map.looking {
        true => format!(
            "Looking only: in use is what the save at block {} names.",
            map.table
        ),
        false => String::new(),
    }
}

/// Every save that counting back reaches, newest first. A disc may have none yet.
fn saves(session: &Session) -> Result<Vec<Save>, Failure> {
    let mut saves = Vec::new();
    let told = each_save(&session.disc, |map| {
        saves.push(Save {
            block: map.table as usize,
            back: saves.len(),
        });
    });
    match told {
        Ok(_) | Err(Refusal::NoVat) => Ok(saves),
        Err(refusal) => Err(refused(refusal, &Asked::WholeDisc, session)),
    }
}

/// The own sectors of their tables. A save's table that is an own sector of another, as a
/// foreign deck may have it, is told as a table.
fn own_sectors(session: &Session, saves: &[Save]) -> Vec<Own> {
    let (image, _) = session.disc.lent();
    let mut named = Vec::new();
    for save in saves {
        let own = icb::own_sectors(image, save.block as u32).into_iter();
        named.extend(own.map(|block| (block as usize, save.back)));
    }
    named.sort_unstable();
    let same = named.chunk_by(|one, next| one.0 == next.0);
    let own = same.map(|named| Own {
        block: named[0].0,
        newest: named[0].1,
        oldest: named[named.len() - 1].1,
    });
    let is_table = |own: &Own| session.roles.get(own.block) == Some(&Role::Table.number());
    let is_save = |own: &Own| {
        let place = saves.partition_point(|save| save.block > own.block);
        saves.get(place).is_some_and(|save| save.block == own.block)
    };
    own.filter(|own| is_table(own) && !is_save(own)).collect()
}
