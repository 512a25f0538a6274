//! Beginning a disc on which something is recorded: it is asked for by another word,
//! since a save there hides what another deck has recorded.

use crate::arguments::Arguments;
use crate::failure::{Done, Failure};
use crate::finding::seems_another_decks;
use crate::form::counted;
use crate::names::shown;
use crate::older;
use crate::session::Session;

/// Of a disc that the core would begin. Where it is begun, and nothing written since,
/// nothing changes.
pub fn check(given: &Arguments, session: &Session) -> Done {
    let recorded = session.disc.used();
    let is_begun = session.is_kept_up() && session.kept_map().is_some_and(|map| map.size == 0);
    if recorded == 0 || is_begun || given.has("--anyway") {
        return Ok(());
    }
    let name = shown(given.path(0));
    let sectors = counted(recorded, "recorded sector");
    let anyway = format!("type 'station begin {name} --anyway'");
    let hides = "our first save would hide the deck's files from every reader";
    let (image, kinds) = session.disc.lent();
    Err(Failure::Unsure(if let Some(older) = older::told(session) {
        format!("{name} has {sectors} and no save. {older} To begin it here, {anyway}.")
    } else if session.is_kept_up() {
        format!(
            "{name} has {sectors} and no save; commit saves what is written here. \
             To leave it out, {anyway}."
        )
    } else if seems_another_decks(image, kinds) {
        format!(
            "{name} has {sectors} and no save, and seems to be another deck's. \
             Leave it as it is: {hides}. If nobody needs these, {anyway}."
        )
    } else {
        format!(
            "{name} has {sectors} and no save. If the power failed before the first one, {anyway}; \
             what is recorded then only takes room. If another deck recorded it, \
             leave it as it is: {hides}."
        )
    }))
}
