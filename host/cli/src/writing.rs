//! Write and commit, up to what is to be kept of them: all, or what a cut leaves.

use std::fs::{self, File};
use std::path::Path;

use station::{Timestamp, SECTOR};

use crate::arguments::Arguments;
use crate::clock;
use crate::failure::Failure;
use crate::files::read_at_most;
use crate::reasons::{refused, Asked};
use crate::session::Session;
use crate::stamps;
use crate::surroundings::{ask_for, Surroundings};

/// The block for a write, and where it is to go.
pub struct Writing {
    v: u32,
    block: Vec<u8>,
}

impl Writing {
    /// Reads the block. One byte too many says that it is longer, and the core
    /// then answers 2 as it does for one that is shorter.
    pub fn of(given: &Arguments, around: &mut Surroundings) -> Result<Writing, Failure> {
        let v = given.number_on_disc(1)?;
        // Nobody is to type a block for a disc that is not there.
        let disc = given.path(0);
        fs::metadata(disc).map_err(|error| Failure::unreadable(disc, error))?;
        let from = given.file("--from");
        let name = from.unwrap_or(Path::new("standard input"));
        let read = match from {
            Some(file) => File::open(file).and_then(|mut file| read_at_most(&mut file, SECTOR + 1)),
            None => {
                ask_for("the block", around)?;
                read_at_most(around.input, SECTOR + 1)
            }
        };
        let mut block = read.map_err(|error| Failure::unreadable(name, error))?;
        // A measuring command that failed gives nothing, and zeros would pass for a run.
        if block.is_empty() {
            return Err(Failure::NoRun(name.to_path_buf(), "it is empty".into()));
        }
        if given.has("--pad") && block.len() < SECTOR {
            block.resize(SECTOR, 0);
        }
        Ok(Writing { v, block })
    }

    /// The block recorded.
    pub fn record(&self, session: &mut Session) -> Result<u32, Failure> {
        let (image, kinds, roles, ledger) = session.lent_to_record();
        let (v, bytes) = (self.v, self.block.len());
        let recorded = station::write(image, kinds, roles, ledger, v, &self.block);
        recorded.map_err(|refusal| refused(refusal, &Asked::Write { v, bytes }, session))
    }
}

/// Which time a save carries.
pub enum Saving {
    Without,
    /// As it was typed, too.
    At(Timestamp, String),
    Now,
}

impl Saving {
    pub fn of(given: &Arguments) -> Result<Saving, Failure> {
        match (given.option_time("--at")?, given.has("--now")) {
            (None, false) => Ok(Saving::Without),
            (Some(time), false) => {
                let typed = given.value("--at").unwrap_or_default();
                Ok(Saving::At(time, typed.to_string_lossy().into()))
            }
            (None, true) => Ok(Saving::Now),
            (Some(_), true) => {
                let fault = "a save has one time: give --at or --now, not both";
                Err(given.wrong(fault.into()))
            }
        }
    }

    /// The clock is asked in the session, where no other command can save between
    /// its answer and this save.
    fn stamp(&self) -> Option<Timestamp> {
        match self {
            Saving::Without => None,
            Saving::At(time, _) => Some(*time),
            Saving::Now => Some(stamps::of_clock(&clock::now())),
        }
    }

    /// The table's block.
    pub fn record(&self, session: &mut Session) -> Result<u32, Failure> {
        let (image, kinds, roles, ledger) = session.lent_to_record();
        let table = match self.stamp() {
            None => station::commit(image, kinds, roles, ledger),
            Some(stamp) => station::commit_at(image, kinds, roles, ledger, &stamp.to_bytes()),
        };
        let typed = match self {
            Saving::At(_, typed) => Some(typed.as_str()),
            Saving::Without | Saving::Now => None,
        };
        table.map_err(|refusal| refused(refusal, &Asked::Commit(typed), session))
    }
}
