//! What is on a disc: every number in use, where it lies, and whether a save names it.

use station::{Refusal, SECTOR};

use crate::arguments::Arguments;
use crate::failure::{Done, Failure};
use crate::ledger::Map;
use crate::looking;
use crate::reasons::{refused, Asked};
use crate::runs;
use crate::session::Session;
use crate::surroundings::{say, Surroundings};

const HEADING: &str = "number   block  kind         bytes  saved\n";

pub fn contents(given: &Arguments, around: &mut Surroundings) -> Done {
    let session = looking::open(given, around)?;
    let text = table(&session)?;
    drop(session);
    say(around, text)
}

/// A row for each number in use. The core is asked for a number that no disc has, so that
/// a ledger that does not fit is told as for a read.
fn table(session: &Session) -> Result<String, Failure> {
    let (image, kinds) = session.disc.lent();
    let nobody = station::read(image, kinds, &session.ledger, u32::MAX, &mut [0; SECTOR]);
    match nobody {
        Ok(()) | Err(Refusal::NotInUse) => {}
        Err(refusal) => return Err(refused(refusal, &Asked::Read(u32::MAX), session)),
    }
    let map = Map::of(&session.ledger);
    if map.used.is_empty() {
        return Ok("no number is in use\n".into());
    }
    let unsaved = map.written_since();
    let rows = map.used.iter().map(|v| {
        let block = map.block(*v).unwrap_or_default();
        let (kind, bytes) = match runs::length(&session.disc, &session.ledger, *v) {
            Ok(length) => ("run", length.to_string()),
            Err(Refusal::NotARun) => ("block", SECTOR.to_string()),
            Err(_) => ("unreadable", "-".into()),
        };
        let saved = if unsaved.contains(v) { "no" } else { "yes" };
        format!("{v:6}{block:8}  {kind:10}{bytes:>8}  {saved}\n")
    });
    Ok(HEADING.to_string() + &rows.collect::<String>())
}
