//! A store, up to what is to be kept of it: a run's blocks without a number, one
//! behind the other, and behind them its entry.

use std::fs::{self, File};
use std::io::{self, Read};
use std::path::{Path, PathBuf};

use station::{Extent, Refusal, SECTOR};

use crate::arguments::Arguments;
use crate::failure::{Done, Failure};
use crate::files::not_whole;
use crate::form::{bytes, counted};
use crate::names::shown;
use crate::progress::Progress;
use crate::reasons::{refused, Asked, Blocks};
use crate::session::{Lent, Session};
use crate::streaming::{buffered, put_aside, Run};
use crate::surroundings::{ask_for, say_aside, Surroundings};

/// A run of so many blocks takes long enough to be told of: 32 MiB.
const LONG: usize = 16_384;

/// The run for a store, and the number that is to name it.
pub struct Storing {
    v: u32,
    name: PathBuf,
    bytes: Box<dyn Read>,
    length: usize,
    /// Whether the run ends there. Of a stream that the disc has no room for, the end is
    /// not read.
    ends: bool,
}

impl Storing {
    /// A file is read while the disc is locked, piece by piece. A stream is read
    /// before: it may come slowly, and other commands may use the disc meanwhile.
    pub fn of(given: &Arguments, around: &mut Surroundings) -> Result<Storing, Failure> {
        let v = given.number_on_disc(1)?;
        let from = given.file("--from");
        let name = from.unwrap_or(Path::new("standard input"));
        let ((bytes, length), ends) = match from.map(file_of_known_length) {
            Some(Ok(Some(run))) => (run, true),
            Some(Err(error)) => return Err(Failure::unreadable(name, error)),
            _ => streamed(given, v, around)?,
        };
        let name = name.to_path_buf();
        match length {
            0 => Err(Failure::NoRun(name, "it is empty".into())),
            _ => Ok(Storing {
                v,
                name,
                bytes,
                length,
                ends,
            }),
        }
    }

    /// How many sectors the run itself takes.
    fn blocks(&self) -> usize {
        self.length.div_ceil(SECTOR)
    }

    /// The same, as far as it is known.
    fn known_blocks(&self) -> Blocks {
        match self.ends {
            true => Blocks::Exactly(self.blocks()),
            false => Blocks::AtLeast(self.blocks()),
        }
    }

    /// Whether the run can be recorded, before any of a long file is read.
    pub fn admit(&self, session: &mut Session) -> Done {
        admit(session, self.v, self.known_blocks())
    }

    /// The word before a long run, for somebody who waits.
    pub fn announce(&self, around: &mut Surroundings) -> Done {
        if !around.watched || self.blocks() < LONG {
            return Ok(());
        }
        let (name, told) = (shown(&self.name), self.told());
        say_aside(around, format!("station: storing {name}, {told}\n"))
    }

    /// The block of the entry. A run fits in one extent: a disc has fewer bytes than
    /// an extent may have, and behind the first block no links come.
    pub fn record(&mut self, session: &mut Session, watched: bool) -> Result<u32, Failure> {
        let blocks = self.blocks();
        let mut progress = self.progress(watched);
        let mut next = 0;
        for number in 0..blocks {
            let block = self.block(number)?;
            progress.tell((number * SECTOR) as u64, "read");
            let (image, kinds, roles, ledger) = session.lent_to_record();
            let recorded = station::write_unnumbered(image, kinds, roles, ledger, &block);
            next = recorded.map_err(|refusal| self.refused(refusal, session))? + 1;
        }
        // What waited in a file gives its room back before the disc's file takes it.
        self.bytes = Box::new(io::empty());
        let extent = Extent {
            length: self.length as u32,
            location: next - blocks as u32,
        };
        let entry = station::file_entry(&[extent], next);
        let (image, kinds, roles, ledger) = session.lent_to_record();
        let written = station::write(image, kinds, roles, ledger, self.v, &entry);
        written.map_err(|refusal| self.refused(refusal, session))
    }

    fn refused(&self, refusal: Refusal, session: &mut Session) -> Failure {
        store_refused(refusal, self.v, self.known_blocks(), session)
    }

    /// The next block of the run, whose number this is; behind its end zeros.
    fn block(&mut self, number: usize) -> Result<[u8; SECTOR], Failure> {
        let left = self.length - number * SECTOR;
        let mut block = [0; SECTOR];
        let filled = &mut block[..left.min(SECTOR)];
        let read = self.bytes.read_exact(filled);
        read.map_err(|error| not_whole(&self.name, error))?;
        Ok(block)
    }

    /// What tells how far it is.
    pub fn progress(&self, watched: bool) -> Progress {
        Progress::of(Some(self.length as u64), watched)
    }

    /// How long the run is, in words.
    pub fn told(&self) -> String {
        let bytes = bytes(self.length);
        format!("{bytes} in {}", counted(self.blocks(), "block"))
    }
}

/// Told of the disc as it was before the store.
fn store_refused(refusal: Refusal, v: u32, blocks: Blocks, session: &mut Session) -> Failure {
    session.take_back();
    refused(refusal, &Asked::Store { v, blocks }, session)
}

/// Whether the number and a run of so many blocks can be recorded. The core is asked for
/// a block of zeros on a disc that is shorter by the run: where that one has room, so
/// has the entry behind the run. The block is then taken back. The calls themselves have
/// the last word: a disc that has 1,000 sectors only with the run keeps more room free.
fn admit(session: &mut Session, v: u32, blocks: Blocks) -> Done {
    let used = session.disc.used();
    let (image, kinds) = session.disc.lent_to_record();
    let sectors = kinds.len().saturating_sub(blocks.count());
    let sectors = sectors.max(used).max(1);
    let (image, kinds) = (&mut image[..sectors * SECTOR], &mut kinds[..sectors]);
    let (roles, ledger) = (&mut vec![0; sectors], &mut session.ledger.clone());
    let written = station::write(image, kinds, roles, ledger, v, &[0; SECTOR]);
    session.disc.take_back();
    written.map_err(|refusal| store_refused(refusal, v, blocks, session))?;
    Ok(())
}

/// A file's bytes, if it is one and tells its length; what does not is a stream.
fn file_of_known_length(name: &Path) -> io::Result<Option<Run>> {
    let about = fs::metadata(name)?;
    match about.is_file() && about.len() > 0 {
        true => Ok(Some((buffered(File::open(name)?), about.len() as usize))),
        false => Ok(None),
    }
}

/// The run of a stream, and whether it ends there: one byte more than the file of the
/// disc has says that it does not fit. Nobody is to type a run, nor wait for one, that
/// the disc refuses by what is known before.
fn streamed(given: &Arguments, v: u32, around: &mut Surroundings) -> Result<(Run, bool), Failure> {
    let from = given.file("--from");
    let known = around.input_length.filter(|_| from.is_none());
    let blocks = match known {
        Some(length) => Blocks::Exactly(length.div_ceil(SECTOR)),
        None => Blocks::AtLeast(1),
    };
    let mut session = Session::open(given.path(0), Lent::Kept, around)?;
    admit(&mut session, v, blocks)?;
    let most = session.disc.length() as usize + 1;
    let place = session.place.clone();
    drop(session);
    let mut progress = Progress::of(None, around.watched);
    let run = match from {
        Some(name) => {
            let opened = File::open(name);
            let mut file = opened.map_err(|error| Failure::unreadable(name, error))?;
            put_aside(&mut file, name, most, &place, &mut progress)?
        }
        None => {
            ask_for("the run", around)?;
            let name = Path::new("standard input");
            put_aside(around.input, name, most, &place, &mut progress)?
        }
    };
    let ends = run.1 < most;
    Ok((run, ends))
}

#[cfg(test)]
mod tests {
    use std::io;

    use super::{Storing, LONG};
    use crate::screen::Screen;
    use crate::surroundings::Surroundings;
    use station::SECTOR;

    /// What is told before a run of so many bytes, to somebody who sees it or not.
    fn announced(length: usize, watched: bool) -> String {
        let storing = Storing {
            v: 0,
            name: "lap.bin".into(),
            bytes: Box::new(io::empty()),
            length,
            ends: true,
        };
        let mut aside = Vec::new();
        let mut around = Surroundings {
            input: &mut io::empty(),
            input_length: None,
            typed: false,
            output: &mut io::sink(),
            screen: Screen::PLAIN,
            aside: &mut aside,
            watched,
            disk: &|files| Box::new(files),
        };
        assert!(storing.announce(&mut around).is_ok());
        String::from_utf8(aside).expect("text")
    }

    #[test]
    fn the_word_before_a_long_run() {
        let long = LONG * SECTOR;
        let told = "station: storing lap.bin, 33554432 bytes in 16,384 blocks\n";
        assert_eq!(announced(long, true), told);
        assert_eq!(announced(long, false), "");
        assert_eq!(announced(long - SECTOR, true), "");
    }
}
