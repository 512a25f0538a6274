//! The listing of document 01: every save, newest first; and if that is asked for, when
//! each was made, and which own sectors its table has.

use station::{Refusal, LEDGER, SECTOR, UNUSED};

use crate::arguments::Arguments;
use crate::closing;
use crate::failure::{Done, Failure};
use crate::form::Disc;
use crate::icb;
use crate::ledger::in_words;
use crate::reasons::{self, Asked};
use crate::saves::{each_save, Counted};
use crate::session::{Lent, Session};
use crate::surroundings::{say, say_aside, Surroundings};
use crate::times::Time;

const HEADING: &str = "   k   block  size  used";

/// What follows it if times are asked for, and if own sectors are.
const HEADING_OF_TIMES: &str = "  local time                UTC";
const HEADING_OF_OWN: &str = "   own   new again  own sectors at block";

/// How wide the first of them are.
const WIDTH_OF_TIMES: usize = 44;

/// The columns that stand behind document 01's.
#[derive(Clone, Copy, Default)]
pub struct Columns {
    pub times: bool,
    pub own: bool,
}

impl Columns {
    /// Of a row those that are asked for.
    fn joined(self, times: impl FnOnce() -> String, own: impl FnOnce() -> String) -> String {
        match (self.times, self.own) {
            (false, false) => String::new(),
            (true, false) => times(),
            (false, true) => own(),
            (true, true) => format!("{:WIDTH_OF_TIMES$}{}", times(), own()),
        }
    }
}

/// "prints only the line `refused` and the number in 4 columns"
fn refused(number: u32) -> String {
    format!("refused{number:4}\n")
}

/// Prints the listing, and ends with the refusal that it tells, if any. That a disc is closed is told
/// beside the listing, since document 01 has every line of it, down to the last one.
pub fn list(given: &Arguments, around: &mut Surroundings) -> Done {
    let session = match Session::open(given.path(0), Lent::Own, around) {
        // "(1 for the form)"
        Err(failure @ Failure::NoDisc(..)) => {
            say(around, refused(1))?;
            return Err(failure);
        }
        opened => opened?,
    };
    let columns = Columns {
        times: given.has("--times"),
        own: given.has("--long"),
    };
    let (text, refusal) = listing(&session.disc, columns);
    let failure = refusal.map(|refusal| reasons::refused(refusal, &Asked::WholeDisc, &session));
    let closed = closing::told(&session.disc);
    drop(session);
    match say(around, text) {
        // Who has seen enough of the rows is still told how they end.
        Err(told) if !told.is_closed_pipe() => return Err(told),
        _ => say_aside(around, closed)?,
    }
    failure.map_or(Ok(()), Err)
}

/// The text, and the refusal if mount is refused or the saves are broken.
pub fn listing(disc: &Disc, columns: Columns) -> (String, Option<Refusal>) {
    let behind = columns.joined(|| HEADING_OF_TIMES.into(), || HEADING_OF_OWN.into());
    let mut text = format!("{HEADING}{behind}\n");
    let mut k = 0;
    let counted = each_save(disc, |map| {
        let (block, size, used) = (map.table, map.size, map.used.len());
        let behind = columns.joined(|| time_columns(disc, block), || own_columns(disc, block));
        text += &format!("{k:4}{block:8}{size:6}{used:6}{behind}\n");
        k += 1;
    });
    match counted {
        Err(refusal) => return (refused(refusal.number()), Some(refusal)),
        Ok(Counted { broken, .. }) if broken.is_some() => return (text + "broken\n", broken),
        Ok(Counted { clean, .. }) => text += if clean { "clean\n" } else { "dirty\n" },
    }
    (text, None)
}

/// How many own sectors the table at this block has, how many of them were recorded with
/// it and how many named again, and their blocks, by their places. What lies behind the
/// table before was recorded since.
fn own_columns(disc: &Disc, table: u32) -> String {
    let (image, _) = disc.lent();
    let own = icb::own_sectors(image, table);
    let before = icb::previous(image, table).filter(|previous| *previous != UNUSED);
    let new = own.iter().filter(|block| Some(**block) > before).count();
    let blocks = match own.is_empty() {
        true => "-".into(),
        false => in_words(&own),
    };
    let (all, again) = (own.len(), own.len() - new);
    format!("{all:6}{new:6}{again:6}  {blocks}")
}

/// When the save was made whose table stands at this block: the newest one of the
/// disc that ends with it.
fn time_columns(disc: &Disc, table: u32) -> String {
    let sectors = table as usize + 1;
    let (image, kinds) = disc.lent();
    let (image, kinds) = (&image[..sectors * SECTOR], &kinds[..sectors]);
    match station::time_of(image, kinds, &[0; LEDGER], 0) {
        Ok(told) => {
            let time = Time::of(disc, table, told);
            format!("  {:24}  {}", time.local(), time.utc())
        }
        // 16: a plain commit, or a time that breaks the limits.
        Err(_) => "  no time".into(),
    }
}
