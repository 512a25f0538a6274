//! The disk under a command: the steps that change what a crash of the program
//! or of the computer can leave there.

use std::fs::{File, OpenOptions};
use std::os::unix::fs::{FileExt, MetadataExt};
use std::path::PathBuf;

use crate::failure::{Done, Failure};
use crate::files::{flush_folder, remove, Place};
use crate::parts::Part;
use crate::progress::Progress;

/// A file of a disc that is changed in place.
#[derive(Clone, Copy, Debug, PartialEq, Eq)]
pub enum InPlace {
    Disc,
    Roles,
}

/// A file beside a disc, which a new one may replace as a whole.
#[derive(Clone, Copy, Debug, PartialEq, Eq)]
pub enum Beside {
    Ledger,
    Roles,
}

/// Until a flush, what was written may be on the disk or not, each piece of 512
/// bytes by itself, and so may a file's new name or its removal.
pub trait Disk {
    /// Says whether the file can be written, and changes nothing.
    fn open(&mut self, file: InPlace) -> Done;
    /// Bytes of the file, at their place.
    fn write(&mut self, file: InPlace, place: u64, bytes: &[u8]) -> Done;
    fn flush(&mut self, file: InPlace) -> Done;
    /// A new file, beside the one that it is to replace.
    fn make(&mut self, file: Beside, bytes: &[u8]) -> Done;
    fn flush_made(&mut self, file: Beside) -> Done;
    /// The new file takes the name of the old one.
    fn name(&mut self, file: Beside) -> Done;
    fn remove(&mut self, file: Beside) -> Done;
    fn flush_folder(&mut self) -> Done;
    /// Tells from now on how much of the disc file is written.
    fn tell(&mut self, progress: Progress);
}

/// A file that was loaded, and the length that it had.
pub struct Loaded {
    path: PathBuf,
    file: File,
    length: u64,
    /// The same, once it is open for writing.
    opened: Option<File>,
}

impl Loaded {
    pub fn of(path: PathBuf, file: File, length: u64) -> Loaded {
        let opened = None;
        Loaded {
            path,
            file,
            length,
            opened,
        }
    }

    /// A file that its owner protected is not to change, even where the system would
    /// allow it; and what is written belongs to the file that was loaded, of the
    /// length that it had.
    fn open(&mut self) -> Done {
        let path = &self.path;
        let unwritable = |error| Failure::unwritable(path, error);
        let loaded = self.file.metadata().map_err(unwritable)?;
        if loaded.permissions().readonly() {
            return Err(Failure::unwritable(path, "it is write-protected"));
        }
        let file = OpenOptions::new().write(true).open(path);
        let file = file.map_err(unwritable)?;
        let about = file.metadata().map_err(unwritable)?;
        if (about.dev(), about.ino()) != (loaded.dev(), loaded.ino()) {
            let reason = "another file took its place meanwhile";
            return Err(Failure::unwritable(path, reason));
        }
        if about.len() != self.length {
            return Err(Failure::unwritable(path, "its length changed meanwhile"));
        }
        self.opened = Some(file);
        Ok(())
    }

    fn opened(&self) -> Result<&File, Failure> {
        let closed = || Failure::unwritable(&self.path, "it is not open");
        self.opened.as_ref().ok_or_else(closed)
    }

    fn write(&self, place: u64, bytes: &[u8]) -> Done {
        let written = self.opened()?.write_all_at(bytes, place);
        written.map_err(|error| Failure::unwritable(&self.path, error))
    }

    fn flush(&self) -> Done {
        let flushed = self.opened()?.sync_data();
        flushed.map_err(|error| Failure::unwritable(&self.path, error))
    }
}

/// The files of one disc, in their folder.
pub struct Files {
    place: Place,
    /// Locked.
    disc: Loaded,
    /// If there is one.
    roles: Option<Loaded>,
    new_ledger: Option<Part>,
    new_roles: Option<Part>,
    /// Bytes written to the disc file.
    written: u64,
    progress: Progress,
}

impl Files {
    pub fn of(place: Place, disc: Loaded, roles: Option<Loaded>) -> Files {
        Files {
            place,
            disc,
            roles,
            new_ledger: None,
            new_roles: None,
            written: 0,
            progress: Progress::unseen(),
        }
    }

    fn loaded(&mut self, file: InPlace) -> Result<&mut Loaded, Failure> {
        let missing = Failure::unwritable(&self.place.roles, "it was not loaded");
        match file {
            InPlace::Disc => Ok(&mut self.disc),
            InPlace::Roles => self.roles.as_mut().ok_or(missing),
        }
    }

    /// The file's path, and the new one without a name yet.
    fn beside(&mut self, file: Beside) -> (&PathBuf, &mut Option<Part>) {
        match file {
            Beside::Ledger => (&self.place.ledger, &mut self.new_ledger),
            Beside::Roles => (&self.place.roles, &mut self.new_roles),
        }
    }
}

impl Disk for Files {
    fn open(&mut self, file: InPlace) -> Done {
        self.loaded(file)?.open()
    }

    fn write(&mut self, file: InPlace, place: u64, bytes: &[u8]) -> Done {
        self.loaded(file)?.write(place, bytes)?;
        self.written += bytes.len() as u64;
        self.progress.tell(self.written, "written");
        Ok(())
    }

    fn flush(&mut self, file: InPlace) -> Done {
        self.progress.tell_waiting("waiting for the disk");
        self.loaded(file)?.flush()
    }

    fn make(&mut self, file: Beside, bytes: &[u8]) -> Done {
        let (path, new) = self.beside(file);
        *new = Some(Part::make(path, |part| part.write(bytes))?);
        Ok(())
    }

    fn flush_made(&mut self, file: Beside) -> Done {
        let (_, new) = self.beside(file);
        new.as_ref().map_or(Ok(()), Part::flush)
    }

    fn name(&mut self, file: Beside) -> Done {
        let (_, new) = self.beside(file);
        new.take().map_or(Ok(()), Part::put_in_place)
    }

    fn remove(&mut self, file: Beside) -> Done {
        remove(self.beside(file).0)
    }

    fn flush_folder(&mut self) -> Done {
        flush_folder(&self.place.ledger)
    }

    fn tell(&mut self, progress: Progress) {
        self.progress = progress;
    }
}

#[cfg(test)]
mod tests {
    use std::env;
    use std::fs::{self, File};
    use std::process;

    use super::{Disk, Files, InPlace, Loaded};
    use crate::files::Place;

    /// A disc file that changed since it was loaded is not written.
    #[test]
    fn a_file_that_is_another_one() {
        let disc = env::temp_dir().join(format!("station-another-{}", process::id()));
        let new = disc.with_extension("new");
        let loaded = |length| {
            let place = Place::named(disc.clone());
            let file = File::open(&disc).expect("the file");
            Files::of(place, Loaded::of(disc.clone(), file, length), None)
        };
        let told = |mut files: Files| files.open(InPlace::Disc).err().map(|told| told.to_string());
        fs::write(&disc, "disc").expect("a file");
        assert!(told(loaded(4)).is_none());
        let longer = told(loaded(3)).expect("refused");
        assert!(longer.contains("its length changed meanwhile"), "{longer}");
        let old = loaded(4);
        fs::write(&new, "disc").expect("a file");
        fs::rename(&new, &disc).expect("another file");
        let replaced = told(old).expect("refused");
        assert!(replaced.contains("another file took its place"));
        fs::remove_file(&disc).expect("the file");
    }
}
