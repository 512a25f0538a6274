//! How a disc stands: what it is ready for, what is on it, what is not saved yet, and how
//! much room is left. Nothing is changed.

use station::{Refusal, SECTOR};

use crate::arguments::Arguments;
use crate::closing;
use crate::failure::{Done, Failure};
use crate::form::{bytes, counted, number};
use crate::ledger::{in_words, recorded, Map};
use crate::older;
use crate::reasons::{refused, Asked};
use crate::room::Room;
use crate::saves::newest;
use crate::session::{LedgerFile, Lent, Session};
use crate::surroundings::{say, Surroundings};
use crate::times::Time;
use crate::unsaved::Unsaved;

pub fn status(given: &Arguments, around: &mut Surroundings) -> Done {
    let session = Session::open(given.path(0), Lent::Kept, around)?;
    let text = in_lines(&session)?;
    drop(session);
    say(around, text)
}

fn in_lines(session: &Session) -> Result<String, Failure> {
    let save = newest(&session.disc);
    let own = Map::of(&session.ledger);
    let fits = fits(session)?;
    // Of a ledger that does not fit, nothing is told: a mount would show the newest save.
    let shown = if fits { Some(&own) } else { save.as_ref() };
    let mut text = state(session, fits.then_some(&own), save.is_some());
    if let Some(map) = shown {
        text += &format!("{map}\n");
    }
    if fits {
        text += &not_saved(&Unsaved::of(&session.disc, &own));
    } else if let Some(older) = older::told(session) {
        text += &format!("{older}\n");
    }
    text += &newest_save(session, save.as_ref());
    let recorded_from = shown.filter(|map| !map.looking).or(save.as_ref());
    text += &room(session, recorded_from);
    Ok(text)
}

/// The core is asked for a number that no disc has: it tests the ledger first.
fn fits(session: &Session) -> Result<bool, Failure> {
    let (image, kinds) = session.disc.lent();
    match station::read(image, kinds, &session.ledger, u32::MAX, &mut [0; SECTOR]) {
        Err(Refusal::LedgerUnfit) => Ok(false),
        Ok(()) | Err(Refusal::NotInUse) => Ok(true),
        Err(refusal) => Err(refused(refusal, &Asked::WholeDisc, session)),
    }
}

/// Not begun, not mounted, open, looking or closed.
fn state(session: &Session, own: Option<&Map>, saved: bool) -> String {
    let closed = closing::told(&session.disc);
    match own {
        _ if !closed.is_empty() => closed.into(),
        Some(own) if own.looking => format!(
            "looking only, at the save with its table at block {}: mount it to record again\n",
            own.table
        ),
        Some(own) if own.packet_open => "open, with a packet open\n".into(),
        Some(_) => "open, with no packet open\n".into(),
        None if saved => format!("not mounted: {}\n", why_not_mounted(session)),
        None => "not begun\n".into(),
    }
}

fn why_not_mounted(session: &Session) -> String {
    let (_, kinds) = session.disc.lent();
    let behind = station::recorded(kinds).saturating_sub(recorded(&session.ledger));
    match session.ledger_file {
        LedgerFile::Older => "the ledger beside it was kept by an older edition".into(),
        LedgerFile::Missing => "it has no ledger".into(),
        LedgerFile::Foreign => "the ledger beside it belongs to another disc file".into(),
        LedgerFile::Right => format!(
            "{} more than its ledger knows, as after a power cut",
            counted(behind, "sector")
        ),
    }
}

fn not_saved(unsaved: &Unsaved) -> String {
    let told = |numbers: &[u32], what: &str| match numbers.is_empty() {
        true => String::new(),
        false => format!("not saved yet, {what}: {}\n", in_words(numbers)),
    };
    match unsaved.is_empty() {
        true => "nothing waits to be saved\n".into(),
        false => told(&unsaved.written, "written") + &told(&unsaved.released, "released"),
    }
}

fn newest_save(session: &Session, save: Option<&Map>) -> String {
    let Some(save) = save else {
        return "no save yet\n".into();
    };
    let (image, kinds) = session.disc.lent();
    let time = match station::time_of(image, kinds, &session.ledger, 0) {
        Ok(told) => Time::of(&session.disc, save.table, told).to_string(),
        Err(_) => "without a time".into(),
    };
    format!("newest save: table at block {}, {time}\n", save.table)
}

/// Of a disc that is not begun or mounted, or only looked at, what there would be then.
fn room(session: &Session, map: Option<&Map>) -> String {
    let (image, kinds) = session.disc.lent();
    if station::is_closed(image, kinds) == Ok(true) {
        return String::new();
    }
    let room = Room::of(&session.disc, map);
    let run = bytes(room.writes().saturating_sub(1) * SECTOR);
    let all = counted(kinds.len(), "sector");
    let recorded = number(station::recorded(kinds));
    let writes = counted(room.writes(), "more block");
    let save = save_in_words(&room);
    format!("{recorded} of {all} recorded; room for {writes}, or for a run of {run}\n{save}")
}

/// What the next save takes, where its table has own sectors; else it is one sector, and
/// nothing is told.
fn save_in_words(room: &Room) -> String {
    let links = match room.links {
        0 => String::new(),
        links => format!("{}, ", counted(links, "link")),
    };
    match room.own {
        0 => String::new(),
        own => format!(
            "a save takes {} now: {links}{} and the table\n",
            counted(room.links + room.save(), "sector"),
            counted(own, "own sector")
        ),
    }
}
