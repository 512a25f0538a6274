//! A ledger that an older edition of the program kept. No call of the core can be lent it,
//! so what waits in it to be saved can be saved by that edition alone.

use crate::ledger::{recorded, Map};
use crate::names::shown;
use crate::saves::newest;
use crate::session::{LedgerFile, Session};
use crate::unsaved::Unsaved;

/// Whether there is one, with what waits in it and what to do, in a sentence or two.
pub fn told(session: &Session) -> Option<String> {
    let (LedgerFile::Older, Some(ledger)) = session.ledger_beside() else {
        return None;
    };
    let (save, before) = (newest(&session.disc), Map::of(&ledger));
    let unsaved = Unsaved::of(&session.disc, &before);
    let (unsaved, anew) = match &save {
        Some(save) => (unsaved.not_in(&before, save), "mount"),
        None => (unsaved, "begin"),
    };
    let disc = shown(&session.name);
    let kept = format!("The ledger beside {disc} was kept by an older edition of this program");
    let waits = unsaved.in_words();
    Some(if unsaved.is_empty() {
        format!("{kept}, and nothing waits in it to be saved: {anew} the disc.")
    } else if recorded(&ledger) != session.disc.used() {
        format!(
            "{kept}, and is behind the disc, as after a power cut: {anew} it. What waits in that \
             ledger is then left out: {waits}."
        )
    } else {
        format!(
            "{kept}, and only that edition can save what waits in it: {waits}. Commit with that \
             edition first; a {anew} here leaves it out."
        )
    })
}
