//! How a command's files are kept: the order of the medium.
//!
//! A call records sectors, and document 01 says what a power cut may leave of
//! them: the first ones, and no ledger. A crash of the program or of the
//! computer is made to leave just that:
//!
//! - The bytes of data sectors come first, and a flush. The sectors are still
//!   blank then: "Bytes of a sector whose kind is not 1 mean nothing."
//! - Then the digits of the kinds, ascending. A sector is recorded when its digit
//!   is. Digits within one piece of 512 bytes of the file are written together,
//!   since the disk takes such a piece whole or not at all; the next piece waits
//!   for a flush. So there is never a recorded sector after a blank one.
//! - Then, after a flush, the new ledger takes its name. A crash before that
//!   leaves a ledger that is behind the disc. The core answers 4 to every call
//!   that reads it, since its recorded differs from the disc's, until a begin,
//!   mount or look back is done.
//!
//! A ledger that is ahead of its disc would be refused with 4 as well, but as soon
//! as other sectors were recorded there, it might fit and name them for what they
//! are not. One that is behind never fits again: a disc's recorded only grows.
//!
//! The roles are on the disk, with a copy of the new ledger, before that ledger takes
//! its name; what they are until then is believed by no command:
//!
//! - Of a call that recorded, the few bytes that changed are written in place, since
//!   a whole file would cost a byte for each sector of the disc. They wait until the
//!   sectors are recorded: from then on the old ledger is behind its disc, and only
//!   begin, mount and look back are done, which make the roles anew.
//! - Of a release or a closed packet, whose old ledger still fits, the copy is written
//!   first, and a flush. From then on the file belongs to no ledger that is there.
//! - Begin, mount and look back make a whole new file, which takes its name first.
//! - A file that is not believed already is removed first: half written, it might
//!   belong to a ledger that comes later.

use station::Sector;

use crate::disk::{Beside, Disk, InPlace};
use crate::failure::Done;
use crate::form::{digit, Disc};

/// A write that stays within one such piece of a file is whole or absent.
const PIECE: u64 = 512;

/// Digits of kinds and bytes of data sectors, placed in the disc file.
pub struct Recording<'a> {
    digits_place: u64,
    digits: Vec<u8>,
    data: Vec<(u64, &'a [u8])>,
}

impl<'a> Recording<'a> {
    /// Of so many of the sectors that a call has just recorded.
    pub fn first(disc: &'a Disc, sectors: usize) -> Recording<'a> {
        let mut recording = Recording {
            digits_place: disc.new_digits_place(),
            digits: Vec::new(),
            data: Vec::new(),
        };
        for sector in disc.newly_recorded().take(sectors) {
            let bytes = sector.bytes.map(|bytes| &bytes[..]);
            recording.push(disc, sector.block, sector.kind, bytes);
        }
        recording
    }

    pub fn whole(disc: &'a Disc) -> Recording<'a> {
        Recording::first(disc, usize::MAX)
    }

    /// One more sector, of another kind than the call gave it, and of its bytes
    /// only these.
    pub fn torn(mut self, disc: &'a Disc, sector: &Sector<'a>, kind: u8, bytes: usize) -> Self {
        let bytes = sector.bytes.map(|whole| &whole[..bytes]);
        self.push(disc, sector.block, kind, bytes);
        self
    }

    fn push(&mut self, disc: &Disc, block: u32, kind: u8, bytes: Option<&'a [u8]>) {
        self.digits.push(digit(kind));
        let place = disc.sector_place(block);
        self.data.extend(bytes.map(|bytes| (place, bytes)));
    }

    fn keep(&self, disk: &mut dyn Disk) -> Done {
        for (place, bytes) in &self.data {
            disk.write(InPlace::Disc, *place, bytes)?;
        }
        if !self.data.is_empty() {
            disk.flush(InPlace::Disc)?;
        }
        let mut place = self.digits_place;
        let mut left = &self.digits[..];
        while !left.is_empty() {
            let room = (PIECE - place % PIECE) as usize;
            let (digits, behind) = left.split_at(room.min(left.len()));
            disk.write(InPlace::Disc, place, digits)?;
            disk.flush(InPlace::Disc)?;
            place += digits.len() as u64;
            left = behind;
        }
        Ok(())
    }
}

/// What is to become of the role file.
pub enum Roles<'a> {
    /// A new one, with these roles.
    Anew(&'a [u8]),
    /// The one that is there is right but for these stretches, each at its place.
    Changed(Vec<(u64, &'a [u8])>),
    /// The one that is there is not believed, and the roles stay unknown.
    Stale,
    /// There is none, and the roles stay unknown.
    Missing,
}

impl Roles<'_> {
    /// Says whether the file can be written, and changes nothing.
    fn open(&self, disk: &mut dyn Disk) -> Done {
        match self {
            Roles::Changed(_) => disk.open(InPlace::Roles),
            _ => Ok(()),
        }
    }

    /// Before the ledger takes its name. `behind` says that the old one does not fit
    /// any more.
    fn keep(&self, disk: &mut dyn Disk, ledger: &[u8], behind: bool) -> Done {
        match self {
            Roles::Anew(roles) => {
                disk.make(Beside::Roles, &[ledger, roles].concat())?;
                disk.flush_made(Beside::Roles)?;
                disk.name(Beside::Roles)?;
                disk.flush_folder()
            }
            Roles::Changed(stretches) => {
                disk.write(InPlace::Roles, 0, ledger)?;
                if !behind && !stretches.is_empty() {
                    disk.flush(InPlace::Roles)?;
                }
                for (place, roles) in stretches {
                    disk.write(InPlace::Roles, *place, roles)?;
                }
                disk.flush(InPlace::Roles)
            }
            Roles::Stale => {
                disk.remove(Beside::Roles)?;
                disk.flush_folder()
            }
            Roles::Missing => Ok(()),
        }
    }
}

/// After a call that records nothing: the disc file is left alone.
pub fn keep_ledger(disk: &mut dyn Disk, ledger: &[u8], roles: &Roles) -> Done {
    roles.open(disk)?;
    disk.make(Beside::Ledger, ledger)?;
    disk.flush_made(Beside::Ledger)?;
    roles.keep(disk, ledger, false)?;
    disk.name(Beside::Ledger)?;
    disk.flush_folder()
}

/// After a call that recorded. The ledger is whole before the first sector is
/// recorded, so that a full disk is met while nothing is changed.
pub fn keep_both(disk: &mut dyn Disk, recording: &Recording, ledger: &[u8], roles: &Roles) -> Done {
    disk.open(InPlace::Disc)?;
    roles.open(disk)?;
    disk.make(Beside::Ledger, ledger)?;
    disk.flush_made(Beside::Ledger)?;
    recording.keep(disk)?;
    roles.keep(disk, ledger, true)?;
    disk.name(Beside::Ledger)?;
    disk.flush_folder()
}

/// After a cut. Ledger and roles go first: a crash between them and the disc leaves
/// what a cut before the first sector leaves.
pub fn keep_cut(disk: &mut dyn Disk, recording: &Recording) -> Done {
    disk.open(InPlace::Disc)?;
    disk.remove(Beside::Ledger)?;
    disk.remove(Beside::Roles)?;
    disk.flush_folder()?;
    recording.keep(disk)
}
