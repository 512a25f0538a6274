//! Closing a session: the word before it, the call, and what is told of a disc that
//! is closed.

use std::path::Path;

use station::Extent;

use crate::arguments::Arguments;
use crate::failure::{Done, Failure};
use crate::form::Disc;
use crate::names::shown;
use crate::reasons::{refused, Asked};
use crate::session::Session;
use crate::surroundings::{say_aside, Surroundings};

const CLOSED: &str = "closed: nothing can be recorded on this disc any more\n";

/// "an Anchor Volume Descriptor Pointer, 255 zero sectors and the table sector"
const BEFORE_TABLE: u32 = 256;

/// What the pointer names.
pub struct Closing {
    main: Extent,
    reserve: Extent,
    partition_start: u32,
}

impl Closing {
    pub fn of(given: &Arguments) -> Result<Closing, Failure> {
        Ok(Closing {
            main: given.needed_extent("--main")?,
            reserve: given.needed_extent("--reserve")?,
            partition_start: given.needed_number("--start")?,
        })
    }

    /// The table's block.
    pub fn record(&self, session: &mut Session) -> Result<u32, Failure> {
        let (image, kinds, roles, ledger) = session.lent_to_record();
        let (main, reserve, start) = (self.main, self.reserve, self.partition_start);
        let table = station::close_session(image, kinds, roles, ledger, main, reserve, start);
        table.map_err(|refusal| refused(refusal, &Asked::CloseSession(start), session))
    }
}

/// The block of the pointer that belongs to the table at this one.
pub fn pointer_before(table: u32) -> u32 {
    table - BEFORE_TABLE
}

/// The word before a closing is kept. It is no part of the answer, and no question
/// either: a script goes on. Where it cannot be told, the disc stays as it is, since
/// nobody can take a closing back.
pub fn announce(disc: &Path, around: &mut Surroundings) -> Done {
    let disc = shown(disc);
    let text =
        format!("station: closing {disc}: after this nothing can be recorded on it any more\n");
    say_aside(around, text)
}

/// The line that is told of a closed disc; of another one nothing.
pub fn told(disc: &Disc) -> &'static str {
    let (image, kinds) = disc.lent();
    match station::is_closed(image, kinds) {
        Ok(true) => CLOSED,
        _ => "",
    }
}
