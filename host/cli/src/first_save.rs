//! What leads to the first save of a disc that has none, in an operator's words.

use crate::form::counted;
use crate::ledger::{in_words, recorded, Map};
use crate::names::shown;
use crate::older;
use crate::session::{LedgerFile, Session};

/// Why no save is found, and what to do: nothing that loses what a commit would save.
pub fn no_save(session: &Session) -> String {
    let (disc, used) = (shown(&session.name), session.disc.used());
    let (file, kept) = session.ledger_beside();
    let written = kept.filter(|kept| recorded(kept) == used);
    let written = written.map(|kept| Map::of(&kept).used);
    let found = match used {
        0 => format!("{disc} is blank"),
        _ => format!(
            "No finished save is found among the {} of {disc}",
            counted(used, "recorded sector")
        ),
    };
    if let Some(older) = older::told(session) {
        return format!("{found}. {older}");
    }
    match (used, file, written.as_deref()) {
        (_, LedgerFile::Foreign, _) => format!(
            "{found}, and the ledger beside it was kept for another disc file, or is damaged. If a \
             wrong file was put here, put the right one back; if not, begin it."
        ),
        (0, ..) => format!("{found}: begin it."),
        (_, _, Some([])) => format!(
            "{found}. It is begun, and nothing waits to be saved; a commit makes its first save."
        ),
        (_, _, Some(written)) => format!(
            "{found}. Nothing is saved yet; commit saves what is written here: {}.",
            in_words(written)
        ),
        (_, _, None) => format!(
            "{found}. If the power failed before the first save, begin it with --anyway; leave \
             another deck's disc as it is."
        ),
    }
}
