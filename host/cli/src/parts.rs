//! Files in the making. A file is made under another name and then takes its own, so
//! that whenever the program or the computer stops, there is the old file or the new
//! one, whole.
//!
//! The other name is the file's own and `.station-part`, and the command that makes the
//! file has it locked. So a file of such a name that nobody has locked was left by a
//! command that was killed, and the next one removes it.

use std::fs::{self, File, OpenOptions, Permissions};
use std::io::{self, ErrorKind, Write};
use std::os::unix::ffi::OsStrExt;
use std::os::unix::fs::{FileExt, MetadataExt, OpenOptionsExt, PermissionsExt};
use std::path::{Path, PathBuf};

use crate::failure::{system_words, Done, Failure, THERE_ALREADY};
use crate::files::{flush_folder, with_suffix, Place};
use crate::lock;
use crate::names::shown;

/// What the name of a file in the making ends in.
pub const SUFFIX: &str = ".station-part";

/// A file in the making, without its name yet.
pub struct Part {
    path: PathBuf,
    part: PathBuf,
    /// Locked.
    file: File,
    named: bool,
}

impl Part {
    /// Makes the file that is to stand at the path, with the permissions of the
    /// one that is there.
    pub fn make(path: &Path, fill: impl FnOnce(&Part) -> Done) -> Result<Part, Failure> {
        let unwritable = |error: io::Error| Failure::unwritable(path, error);
        let kept = permissions(path).map_err(unwritable)?;
        let (part, file) = new_part(path, kept.as_ref())?;
        let made = Part {
            path: path.to_path_buf(),
            part,
            file,
            named: false,
        };
        fill(&made)?;
        if let Some(kept) = kept {
            made.file.set_permissions(kept).map_err(unwritable)?;
        }
        Ok(made)
    }

    /// Bytes behind those that are there.
    pub fn write(&self, bytes: &[u8]) -> Done {
        self.told((&self.file).write_all(bytes))
    }

    /// All of it zeros, in a hole: it takes no space and no time.
    pub fn set_length(&self, length: u64) -> Done {
        self.told(self.file.set_len(length))
    }

    /// Bytes at their place in a file that has its length: zeros are there already.
    pub fn write_at(&self, place: u64, bytes: &[u8]) -> Done {
        // Without leaving at the first other byte: zeros are told much faster so.
        match bytes.iter().fold(0, |all, byte| all | byte) {
            0 => Ok(()),
            _ => self.told(self.file.write_all_at(bytes, place)),
        }
    }

    /// All of it is on the disk, and it may have its name.
    pub fn flush(&self) -> Done {
        self.told(self.file.sync_all())
    }

    /// Gives the file its name, in place of the one that has it.
    pub fn put_in_place(mut self) -> Done {
        self.told(fs::rename(&self.part, &self.path))?;
        self.named = true;
        Ok(())
    }

    /// Gives the file its name if no other has it, in one step: a second name, and
    /// then the first one goes.
    pub fn take_free_name(self) -> Done {
        match fs::hard_link(&self.part, &self.path) {
            Ok(()) => Ok(()),
            Err(error) if error.kind() == ErrorKind::AlreadyExists => {
                Err(Failure::unwritable(&self.path, THERE_ALREADY))
            }
            Err(_) => self.take_name_from_an_empty_file(),
        }
    }

    /// Where a file has only one name, as on a memory stick, an empty file takes it
    /// first, and this one its place.
    fn take_name_from_an_empty_file(self) -> Done {
        let path = self.path.clone();
        self.told(File::create_new(&path).map(drop))?;
        let named = self.put_in_place();
        if named.is_err() {
            // The first error is the one to tell.
            let _ = fs::remove_file(&path);
        }
        named
    }

    /// The file without any name: it goes when it is closed, also by the end of a
    /// program that is killed.
    pub fn without_a_name(mut self) -> Result<File, Failure> {
        self.told(fs::remove_file(&self.part))?;
        self.named = true;
        let file = self.file.try_clone();
        file.map_err(|error| Failure::unwritable(&self.path, error))
    }

    /// An error by the name that the file is to have.
    fn told(&self, done: io::Result<()>) -> Done {
        done.map_err(|error| Failure::unwritable(&self.path, error))
    }
}

impl Drop for Part {
    fn drop(&mut self) {
        if !self.named {
            // The first error is the one to tell.
            let _ = fs::remove_file(&self.part);
        }
    }
}

/// Makes or replaces one file in one step.
pub fn replace(path: &Path, fill: impl FnOnce(&Part) -> Done) -> Done {
    let part = Part::make(path, fill)?;
    part.flush()?;
    part.put_in_place()?;
    flush_folder(path)
}

/// Removes what a killed command left of the disc's files, and of a run for it. What
/// cannot be removed, as in a folder that is protected, does no harm.
pub fn clear_left(place: &Place) {
    for file in [&place.disc, &place.ledger, &place.roles, &place.run] {
        remove_left(&with_suffix(file, SUFFIX));
    }
}

/// The same of one file that is to be made; whether there was something.
pub fn was_left(path: &Path) -> bool {
    remove_left(&with_suffix(path, SUFFIX))
}

/// A new empty file beside the one that it is to replace: a rename is one step
/// only within a folder. From the start nobody may read it who may not read the
/// other.
fn new_part(path: &Path, kept: Option<&Permissions>) -> Result<(PathBuf, File), Failure> {
    let refused = |reason: String| Err(Failure::unwritable(path, reason));
    if is_part(path) {
        return refused(format!("a name that ends in {SUFFIX} is for the program"));
    }
    let mut options = OpenOptions::new();
    options.read(true).write(true).create_new(true);
    if let Some(kept) = kept {
        options.mode(kept.mode());
    }
    let part = with_suffix(path, SUFFIX);
    loop {
        let file = match options.open(&part) {
            Ok(file) => file,
            Err(error) if error.kind() != ErrorKind::AlreadyExists => {
                return Err(Failure::unwritable(path, error));
            }
            Err(_) if remove_left(&part) => continue,
            Err(_) => {
                let part = shown(&part);
                return refused(format!("another command is making it, in {part}"));
            }
        };
        match is_held(&file, &part) {
            Ok(true) => return Ok((part, file)),
            // Not yet locked, it was taken for one that was left.
            Ok(false) => continue,
            Err(error) => {
                gone(&part);
                return refused(format!("no lock: {}", system_words(&error)));
            }
        }
    }
}

/// Whether a name is one for a file in the making.
pub fn is_part(path: &Path) -> bool {
    path.as_os_str().as_bytes().ends_with(SUFFIX.as_bytes())
}

/// Takes the lock if it is free; whether this file, and no other by now, has the name
/// and the lock.
fn is_held(file: &File, part: &Path) -> io::Result<bool> {
    let same = || {
        let (open, named) = (file.metadata().ok()?, fs::symlink_metadata(part).ok()?);
        Some((open.dev(), open.ino()) == (named.dev(), named.ino()))
    };
    Ok(lock::take_if_free(file)? && same().unwrap_or(false))
}

/// Removes a file in the making that nobody has locked; whether there was one. What is
/// no file is not ours, and is not opened: a pipe would wait.
fn remove_left(part: &Path) -> bool {
    let is_file = fs::symlink_metadata(part).is_ok_and(|about| about.is_file());
    let removed = |file: File| is_held(&file, part).unwrap_or(false) && gone(part);
    is_file && File::open(part).is_ok_and(removed)
}

fn gone(part: &Path) -> bool {
    fs::remove_file(part).is_ok()
}

/// Of the file at the path, if there is one.
fn permissions(path: &Path) -> io::Result<Option<Permissions>> {
    match fs::metadata(path) {
        Ok(about) => Ok(Some(about.permissions())),
        Err(error) if error.kind() == ErrorKind::NotFound => Ok(None),
        Err(error) => Err(error),
    }
}
