//! What a number shows: its block, or the bytes of its run.

use std::path::Path;

use station::{MOST_VIEWED, SECTOR};

use crate::arguments::Arguments;
use crate::failure::{Done, Failure};
use crate::form::Disc;
use crate::looking;
use crate::making::put;
use crate::reasons::{refused, Asked};
use crate::session::Session;
use crate::surroundings::{say, Surroundings};

pub fn read(given: &Arguments, around: &mut Surroundings) -> Done {
    let v = given.number_on_disc(1)?;
    let session = looking::open(given, around)?;
    let to = destination(given, &session)?;
    let mut block = [0; SECTOR];
    let (image, kinds) = session.disc.lent();
    let read = station::read(image, kinds, &session.ledger, v, &mut block);
    read.map_err(|refusal| refused(refusal, &Asked::Read(v), &session))?;
    drop(session);
    let replaces = given.has("--replace");
    match to {
        Some(file) => put(file, replaces, |out| out(&block)),
        None => say(around, block),
    }
}

/// The files are free for the next command before the bytes go out: their reader may
/// take its time. What is recorded stays as it is meanwhile.
pub fn view(given: &Arguments, around: &mut Surroundings) -> Done {
    let v = given.number_on_disc(1)?;
    let offset = given.option_long("--offset")?.unwrap_or(0);
    let length = given.option_long("--length")?.unwrap_or(u64::MAX);
    let session = looking::open(given, around)?;
    let to = destination(given, &session)?;
    // A refusal comes before a file is made for the bytes.
    let (image, kinds) = session.disc.lent();
    let shown = station::view(image, kinds, &session.ledger, v, offset, &mut []);
    shown.map_err(|refusal| refused(refusal, &Asked::View { v, offset }, &session))?;
    let (disc, ledger) = session.free()?;
    let run = Run { disc, ledger, v };
    let replaces = given.has("--replace");
    match to {
        Some(file) => put(file, replaces, |out| run.give(offset, length, out)),
        None => run.give(offset, length, &mut |bytes| say(around, bytes)),
    }
}

/// The file for the bytes, if they are to go into one: never one of the disc's own.
fn destination<'a>(given: &'a Arguments, session: &Session) -> Result<Option<&'a Path>, Failure> {
    let to = given.file("--to");
    if to.is_none() && given.has("--replace") {
        return Err(given.wrong("--replace belongs to --to and a file".into()));
    }
    match to.is_some_and(|file| session.place.has(file)) {
        true => Err(given.wrong("--to names the disc, its ledger or its roles".into())),
        false => Ok(to),
    }
}

/// The run whose entry the number names.
struct Run {
    disc: Disc,
    ledger: Vec<u8>,
    v: u32,
}

impl Run {
    /// Its bytes from an offset on, as far as it goes; how many there are.
    fn fill(&self, offset: u64, buffer: &mut [u8]) -> Result<usize, Failure> {
        let (image, kinds) = self.disc.lent();
        let filled = station::view(image, kinds, &self.ledger, self.v, offset, buffer);
        // It was shown before, and what is recorded stays; its disk may fail.
        let lost = |refusal| Failure::Refused(refusal, "The run cannot be read any more.".into());
        Ok(filled.map_err(lost)? as usize)
    }

    /// Gives at most so many out, piece by piece: a run may be longer than the memory.
    fn give(&self, offset: u64, length: u64, out: &mut dyn FnMut(&[u8]) -> Done) -> Done {
        let mut buffer = vec![0; MOST_VIEWED];
        let (mut offset, mut left) = (offset, length);
        loop {
            let wanted = left.min(MOST_VIEWED as u64) as usize;
            let filled = self.fill(offset, &mut buffer[..wanted])?;
            if filled == 0 {
                return Ok(());
            }
            out(&buffer[..filled])?;
            offset += filled as u64;
            left -= filled as u64;
        }
    }
}
