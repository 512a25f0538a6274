//! Disc, roles and ledger of one command: lent from their files, and kept.

use std::fs::{self, File};
use std::io::ErrorKind;
use std::path::{Path, PathBuf};

use station::LEDGER;

use crate::disk::{Disk, Files, Loaded};
use crate::failure::{Done, Failure};
use crate::files::{lock, lock_folder, open, read_at_most, unlock, Place};
use crate::form::Disc;
use crate::keeping::{self, Recording, Roles};
use crate::ledger::{recorded, Map};
use crate::mark::{belonging, marked, older, unmarked, MARKED};
use crate::names::folder_of;
use crate::parts::clear_left;
use crate::progress::Progress;
use crate::roles;
use crate::surroundings::{waiting, Surroundings};

/// Which ledger and which roles a call is lent.
pub enum Lent {
    /// Those in the files. A ledger that is not this disc's is not lent, but zeros, and
    /// roles that are not believed are not lent, but others, which no call reads and
    /// which are not kept.
    Kept,
    /// New ones, for begin, mount and look back, which do not read them: so they
    /// are done whatever a power cut left of the files.
    New,
    /// The command's own, which are kept nowhere: it only looks, and reads no file but
    /// the disc's.
    Own,
}

/// What is known of the ledger file.
#[derive(Clone, Copy, Debug, PartialEq, Eq)]
pub enum LedgerFile {
    /// It belongs to this disc, now or when fewer sectors were recorded.
    Right,
    /// It does, but an older edition kept it: it is lent to no call.
    Older,
    Missing,
    /// It belongs to another disc, or is damaged.
    Foreign,
}

/// What is known of the role file.
enum RoleFile {
    /// It does not matter: there are new roles.
    Replaced,
    /// Nor does it to a command that only looks and has its own.
    Own,
    /// These roles are in it, and are right.
    Right(Vec<u8>),
    Stale,
    Missing,
}

/// The files are locked until the session ends.
pub struct Session {
    /// The name that was typed.
    pub name: PathBuf,
    pub place: Place,
    pub disc: Disc,
    pub ledger_file: LedgerFile,
    /// The ledger in the file, if it belongs to this disc.
    kept: Option<Vec<u8>>,
    /// As many as the disc has sectors.
    pub roles: Vec<u8>,
    pub ledger: Vec<u8>,
    role_file: RoleFile,
    disk: Box<dyn Disk>,
    /// The disc file, by which its lock can be given back.
    file: File,
    _lock: File,
}

impl Session {
    /// A disc that cannot be loaded is told of by the name that was typed.
    pub fn open(name: &Path, lent: Lent, around: &mut Surroundings) -> Result<Session, Failure> {
        let place = Place::of(name)?;
        let mut tell = waiting(name, around);
        let folder = lock_folder(folder_of(&place.disc), &mut tell)?;
        let file = open(&place.disc, name, Failure::NoDisc)?;
        lock(&file, name, &mut tell)?;
        drop(tell);
        let disc = Disc::load(&file, name)?;
        clear_left(&place);
        let same = file.try_clone();
        let same = same.map_err(|error| Failure::unreadable(name, error))?;
        let (_, kinds) = disc.lent();
        let (ledger_file, bytes) = match lent {
            Lent::Own => (LedgerFile::Missing, Vec::new()),
            Lent::Kept | Lent::New => kept_ledger(&place.ledger, &disc)?,
        };
        let (ledger, role_file, opened) = match (lent, ledger_file) {
            (Lent::Kept, LedgerFile::Right) => {
                let (role_file, opened) = kept_roles(&place.roles, &bytes, kinds);
                (unmarked(&bytes).to_vec(), role_file, opened)
            }
            (Lent::Kept, _) => (vec![0; LEDGER], unknown_roles(&place.roles), None),
            (Lent::New, _) => (vec![0; LEDGER], RoleFile::Replaced, None),
            (Lent::Own, _) => (vec![0; LEDGER], RoleFile::Own, None),
        };
        let roles = match &role_file {
            RoleFile::Right(roles) => roles.clone(),
            _ => vec![0; kinds.len()],
        };
        let loaded = Loaded::of(place.disc.clone(), file, disc.length());
        let files = Files::of(place.clone(), loaded, opened);
        Ok(Session {
            name: name.to_path_buf(),
            place,
            disc,
            ledger_file,
            kept: ledger_in(ledger_file, &bytes),
            roles,
            ledger,
            role_file,
            disk: (around.disk)(files),
            file: same,
            _lock: folder,
        })
    }

    /// Disc and ledger without the files, which are free for the next command. What
    /// is recorded on the disc stays as it is; the lock would last as long as the
    /// disc is in memory.
    pub fn free(self) -> Result<(Disc, Vec<u8>), Failure> {
        unlock(&self.file, &self.place.disc)?;
        Ok((self.disc, self.ledger))
    }

    /// Image, kinds, roles and ledger, for a call that records.
    pub fn lent_to_record(&mut self) -> (&mut [u8], &mut [u8], &mut [u8], &mut [u8]) {
        let (image, kinds) = self.disc.lent_to_record();
        (image, kinds, &mut self.roles, &mut self.ledger)
    }

    /// The same, for a call that alters only the last two.
    pub fn lent(&mut self) -> (&[u8], &[u8], &mut [u8], &mut [u8]) {
        let (image, kinds) = self.disc.lent();
        (image, kinds, &mut self.roles, &mut self.ledger)
    }

    /// Whether the roles are those that the call before left, or that this command's own
    /// look back has made.
    pub fn knows_roles(&self) -> bool {
        matches!(self.role_file, RoleFile::Right(_) | RoleFile::Own)
    }

    /// The map in the ledger file, if it belongs to this disc: what the call before
    /// left, whatever this command has done since.
    pub fn kept_map(&self) -> Option<Map> {
        self.kept.as_ref().map(|kept| Map::of(kept))
    }

    /// What is known of the ledger file, and the ledger in it if it belongs to this disc:
    /// also for what is said by a command that only looks, and has not read it.
    pub fn ledger_beside(&self) -> (LedgerFile, Option<Vec<u8>>) {
        match self.role_file {
            RoleFile::Own => match kept_ledger(&self.place.ledger, &self.disc) {
                Ok((file, bytes)) => (file, ledger_in(file, &bytes)),
                Err(_) => (LedgerFile::Missing, None),
            },
            _ => (self.ledger_file, self.kept.clone()),
        }
    }

    /// Whether the ledger file belongs to the disc as it is: a commit is then not
    /// refused for it.
    pub fn is_kept_up(&self) -> bool {
        let kept = self.right_ledger();
        kept.is_some_and(|kept| recorded(kept) == self.disc.used())
    }

    /// The ledger in the file, if it is one that calls are lent.
    fn right_ledger(&self) -> Option<&Vec<u8>> {
        let kept = self.kept.as_ref();
        kept.filter(|_| self.ledger_file == LedgerFile::Right)
    }

    /// As the files have it, after a call of several was refused.
    pub fn take_back(&mut self) {
        self.disc.take_back();
        if let Some(kept) = self.right_ledger().cloned() {
            self.ledger = kept;
        }
    }

    /// Tells how much is written while it is kept.
    pub fn tell(&mut self, progress: Progress) {
        self.disk.tell(progress);
    }

    /// After a call that records nothing.
    pub fn keep_ledger(mut self) -> Done {
        let roles = kept(&self.role_file, &self.roles);
        let ledger = marked(&self.disc, &self.ledger);
        keeping::keep_ledger(&mut *self.disk, &ledger, &roles)
    }

    /// After a call that recorded.
    pub fn keep_both(mut self) -> Done {
        let recording = Recording::whole(&self.disc);
        let roles = kept(&self.role_file, &self.roles);
        let ledger = marked(&self.disc, &self.ledger);
        keeping::keep_both(&mut *self.disk, &recording, &ledger, &roles)
    }

    /// After a call that recorded: so many of its sectors are kept, and perhaps
    /// the next one with another kind and so many of its bytes.
    pub fn keep_cut(mut self, kept: usize, torn: Option<(u8, usize)>) -> Done {
        let mut recording = Recording::first(&self.disc, kept);
        let next = self.disc.newly_recorded().nth(kept);
        if let (Some((kind, bytes)), Some(next)) = (torn, next) {
            recording = recording.torn(&self.disc, &next, kind, bytes);
        }
        keeping::keep_cut(&mut *self.disk, &recording)
    }
}

/// What is known of the ledger file, and its bytes. Of one that is longer than a ledger
/// file is, one byte too many says so.
fn kept_ledger(path: &Path, disc: &Disc) -> Result<(LedgerFile, Vec<u8>), Failure> {
    let opened = File::open(path).and_then(|mut file| read_at_most(&mut file, MARKED + 1));
    let bytes = match opened {
        Err(error) if error.kind() == ErrorKind::NotFound => {
            return Ok((LedgerFile::Missing, Vec::new()))
        }
        read => read.map_err(|error| Failure::unreadable(path, error))?,
    };
    let file = if belonging(disc, &bytes).is_some() {
        LedgerFile::Right
    } else if older(disc, &bytes).is_some() {
        LedgerFile::Older
    } else {
        LedgerFile::Foreign
    };
    Ok((file, bytes))
}

/// The ledger in a file that belongs to the disc.
fn ledger_in(file: LedgerFile, bytes: &[u8]) -> Option<Vec<u8>> {
    let belongs = matches!(file, LedgerFile::Right | LedgerFile::Older);
    belongs.then(|| unmarked(bytes).to_vec())
}

/// Of a disc whose ledger is not known.
fn unknown_roles(path: &Path) -> RoleFile {
    match fs::symlink_metadata(path) {
        Err(error) if error.kind() == ErrorKind::NotFound => RoleFile::Missing,
        _ => RoleFile::Stale,
    }
}

/// What is known of the roles in the file, and the file if they are right. One that
/// cannot be read is not believed: no command needs the roles to read or record. Of a
/// file that is longer, one byte too many says so.
fn kept_roles(path: &Path, ledger: &[u8], kinds: &[u8]) -> (RoleFile, Option<Loaded>) {
    let length = roles::whole_length(kinds.len());
    let read = File::open(path).and_then(|mut file| {
        let bytes = read_at_most(&mut file, length + 1)?;
        Ok((file, bytes))
    });
    let (file, bytes) = match read {
        Err(error) if error.kind() == ErrorKind::NotFound => return (RoleFile::Missing, None),
        Err(_) => return (RoleFile::Stale, None),
        Ok(read) => read,
    };
    match roles::known(&bytes, ledger, kinds) {
        None => (RoleFile::Stale, None),
        Some(right) => {
            let loaded = Loaded::of(path.to_path_buf(), file, length as u64);
            (RoleFile::Right(right.to_vec()), Some(loaded))
        }
    }
}

/// What is to become of the file, now that these are the roles.
fn kept<'a>(file: &RoleFile, now: &'a [u8]) -> Roles<'a> {
    match file {
        RoleFile::Replaced => Roles::Anew(now),
        RoleFile::Right(before) => Roles::Changed(roles::changed(before, now)),
        RoleFile::Stale => Roles::Stale,
        RoleFile::Missing | RoleFile::Own => Roles::Missing,
    }
}
