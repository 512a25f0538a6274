//! Files: where ledger and roles lie, one command at a time on a disc, and what may be
//! opened.

use std::ffi::OsString;
use std::fs::{self, File};
use std::io::{self, ErrorKind, Read, Seek};
use std::os::fd::BorrowedFd;
use std::path::{Path, PathBuf};

use crate::failure::{system_words, Done, Failure};
use crate::lock;
use crate::names::folder_of;

/// A disc file, its ledger and its roles, by their real names: a link to a disc file
/// stays a link, and the others are the same whichever name the operator types.
#[derive(Clone)]
pub struct Place {
    pub disc: PathBuf,
    pub ledger: PathBuf,
    pub roles: PathBuf,
    /// Where a run that comes as a stream waits; no file keeps this name.
    pub run: PathBuf,
}

impl Place {
    pub fn of(disc: &Path) -> Result<Place, Failure> {
        let real = fs::canonicalize(disc).map_err(|error| Failure::unreadable(disc, error))?;
        Ok(Place::named(real))
    }

    /// The disc file's name, and that with `.ledger` and with `.roles`.
    pub fn named(disc: PathBuf) -> Place {
        Place {
            ledger: with_suffix(&disc, ".ledger"),
            roles: with_suffix(&disc, ".roles"),
            run: with_suffix(&disc, ".run"),
            disc,
        }
    }

    /// Whether a file is one of the three, by whatever name, or would be if it were
    /// there.
    pub fn has(&self, file: &Path) -> bool {
        let real = fs::canonicalize(file).or_else(|_| {
            let folder = fs::canonicalize(folder_of(file));
            folder.map(|folder| folder.join(file.file_name().unwrap_or_default()))
        });
        real.is_ok_and(|real| [&self.disc, &self.ledger, &self.roles].contains(&&real))
    }
}

pub fn with_suffix(path: &Path, suffix: &str) -> PathBuf {
    let mut name = OsString::from(path);
    name.push(suffix);
    name.into()
}

/// Waits until no other command works in the folder, and keeps others out until
/// the answer is dropped. Without this, two commands at once could leave the
/// disc of one with the ledger of the other, and the two might even fit. The
/// folder is locked since a ledger is replaced, and a new disc is not there yet.
/// `tell` is called if the waiting lasts.
pub fn lock_folder(folder: &Path, tell: &mut dyn FnMut()) -> Result<File, Failure> {
    let file = File::open(folder).map_err(|error| Failure::unreadable(folder, error))?;
    lock(&file, folder, tell)?;
    Ok(file)
}

/// The same of an open file, which may have names in several folders.
pub fn lock(file: &File, name: &Path, tell: &mut dyn FnMut()) -> Done {
    let locked = lock::exclusive(file, tell);
    locked.map_err(|error| Failure::unwritable(name, format!("no lock: {}", system_words(&error))))
}

/// Gives the lock back, while the file is open or in memory.
pub fn unlock(file: &File, name: &Path) -> Done {
    let unlocked = lock::release(file);
    unlocked
        .map_err(|error| Failure::unwritable(name, format!("no lock: {}", system_words(&error))))
}

/// Opens a file to be read; the name is for the message, and so is `no_file`, if it
/// is none. What it is, is asked before: opening a pipe would wait for a writer.
pub fn open(
    path: &Path,
    name: &Path,
    no_file: fn(PathBuf, String) -> Failure,
) -> Result<File, Failure> {
    let unreadable = |error| Failure::unreadable(name, error);
    let about = fs::metadata(path).map_err(unreadable)?;
    if !about.is_file() {
        return Err(no_file(name.to_path_buf(), "it is not a file".into()));
    }
    File::open(path).map_err(unreadable)
}

/// How many bytes are left to read, if this is a file that tells its length.
pub fn left_in(input: BorrowedFd) -> Option<usize> {
    let mut input = File::from(input.try_clone_to_owned().ok()?);
    let about = input.metadata().ok()?;
    let left = about.len().checked_sub(input.stream_position().ok()?)?;
    (about.is_file() && left > 0).then_some(left as usize)
}

/// Why a file cannot be read to the length that it had.
pub fn not_whole(name: &Path, error: io::Error) -> Failure {
    let error = match error.kind() {
        ErrorKind::UnexpectedEof => io::Error::other("it became shorter meanwhile"),
        _ => error,
    };
    Failure::unreadable(name, error)
}

/// At most so many bytes of a file or of another source.
pub fn read_at_most(source: &mut dyn Read, bytes: usize) -> io::Result<Vec<u8>> {
    let mut read = Vec::new();
    source.take(bytes as u64).read_to_end(&mut read)?;
    Ok(read)
}

/// Removes a file that may be missing.
pub fn remove(path: &Path) -> Done {
    match fs::remove_file(path) {
        Err(error) if error.kind() == ErrorKind::NotFound => Ok(()),
        done => done.map_err(|error| Failure::unwritable(path, error)),
    }
}

/// The names in a file's folder are on the disk too.
pub fn flush_folder(path: &Path) -> Done {
    let flushed = File::open(folder_of(path)).and_then(|folder| folder.sync_all());
    flushed.map_err(|error| Failure::unwritable(path, error))
}
