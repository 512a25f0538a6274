//! Raw images: the sectors of a disc, 2048 bytes each, and nothing else, as other
//! decks and readers have them.

use std::fs::File;
use std::os::unix::fs::FileExt;
use std::path::Path;

use station::{MOST_SECTORS, SECTOR};

use crate::arguments::Arguments;
use crate::failure::{Done, Failure};
use crate::files::{not_whole, open};
use crate::finding;
use crate::form::{counted, number, sector_place, Disc};
use crate::kinds::DATA;
use crate::making::{make, make_disc};
use crate::mapping;
use crate::session::{Lent, Session};
use crate::surroundings::{say, say_aside, say_done, waiting, Surroundings};

/// Sectors that are copied at a time: a full disc is 737 MB, and is not held in
/// memory.
const PIECE: usize = 32;

/// The partition of another deck's disc as a disc file. It has no ledger, as
/// after a power cut.
pub fn import(given: &Arguments, around: &mut Surroundings) -> Done {
    given.needed("--start")?;
    let wanted = given.option_sectors("--sectors")?;
    let image = Image::open(given)?;
    let (data, start) = (image.sectors, image.start);
    let sectors = wanted.unwrap_or(data);
    if sectors < data {
        let has = counted(data, "sector");
        return Err(given.wrong(format!(
            "--sectors {sectors} is too few: the image has {has} from block {start} on"
        )));
    }
    let disc = given.path(1);
    make_disc(disc, data, sectors, &mut waiting(disc, around), |part| {
        let first = sector_place(sectors, 0);
        let read = |block, bytes: &mut [u8]| image.read(block, bytes);
        copy(data, read, |place, bytes| {
            part.write_at(first + place, bytes)
        })
    })?;
    let blank = number(sectors - data);
    let found = image.found(disc)?;
    let data = counted(data, "sector");
    say_done(around, format!("{data} imported, {blank} blank\n{found}"))
}

/// What an image has from its partition's first sector on.
struct Image<'a> {
    name: &'a Path,
    file: File,
    start: usize,
    sectors: usize,
}

impl Image<'_> {
    fn open(given: &Arguments) -> Result<Image<'_>, Failure> {
        let name = given.path(0);
        let file = open(name, name, Failure::NoImage)?;
        let about = file.metadata();
        let bytes = about
            .map_err(|error| Failure::unreadable(name, error))?
            .len() as usize;
        let no_image = |reason| Err(Failure::NoImage(name.to_path_buf(), reason));
        if bytes == 0 {
            return no_image("it is empty".into());
        }
        if bytes % SECTOR != 0 {
            return no_image(format!("it has {bytes} bytes, and a sector has {SECTOR}"));
        }
        let all = bytes / SECTOR;
        let start = given.needed_below("--start", all)?;
        let sectors = all - start;
        if sectors > MOST_SECTORS {
            let (has, most) = (counted(sectors, "sector"), number(MOST_SECTORS));
            return no_image(format!(
                "it has {has} from block {start} on, and a disc has {most} at most"
            ));
        }
        Ok(Image {
            name,
            file,
            start,
            sectors,
        })
    }

    /// What a mount of the disc made of it will find, in words.
    fn found(&self, disc: &Path) -> Result<String, Failure> {
        let bytes = mapping::looked_at(&self.file, self.name);
        let bytes = bytes.map_err(|error| Failure::unreadable(self.name, error))?;
        Ok(finding::told(&bytes, self.start, disc))
    }

    /// The bytes from a block of the partition on.
    fn read(&self, block: usize, bytes: &mut [u8]) -> Done {
        let place = (self.start + block) * SECTOR;
        let read = self.file.read_exact_at(bytes, place as u64);
        read.map_err(|error| not_whole(self.name, error))
    }
}

/// The sectors of a disc file as a raw image. Other readers look for the table at
/// an image's end, so it ends with the last recorded sector. Where that one stands
/// after a blank one, which no recorder leaves (refusal 3), it is given all the
/// same: nothing recorded is lost, and every sector keeps its block number.
pub fn export(given: &Arguments, around: &mut Surroundings) -> Done {
    let path = given.path(1);
    let session = Session::open(given.path(0), Lent::Own, around)?;
    if path == Path::new("-") {
        return export_as_stream(session, around);
    }
    if session.place.has(path) {
        return Err(given.wrong("IMAGE names the disc, its ledger or its roles".into()));
    }
    let disc = &session.disc;
    // The image's folder is not locked: its name is taken in one step, and two
    // exports, each into the other's folder, would wait for each other.
    make(path, (disc.used() * SECTOR) as u64, |part| {
        let read = |block, bytes: &mut [u8]| read_data(disc, block, bytes);
        copy(disc.used(), read, |place, bytes| {
            part.write_at(place, bytes)
        })
    })?;
    let told = exported(disc);
    drop(session);
    say_done(around, told)
}

/// To standard output, so that the words go aside. As of a view, the files are free
/// before the bytes go out.
fn export_as_stream(session: Session, around: &mut Surroundings) -> Done {
    let (disc, _) = session.free()?;
    let read = |block, bytes: &mut [u8]| read_data(&disc, block, bytes);
    copy(disc.used(), read, |_, bytes| say(around, bytes))?;
    say_aside(around, exported(&disc))
}

fn exported(disc: &Disc) -> String {
    let (_, kinds) = disc.lent();
    let sectors = disc.used();
    let without = kinds[..sectors].iter().filter(|kind| **kind != DATA);
    let zeros = match without.count() {
        0 => String::new(),
        without => format!(", {} without data, as zeros", number(without)),
    };
    format!("{} exported{zeros}\n", counted(sectors, "sector"))
}

/// The bytes of the sectors from a block on. "Bytes of a sector whose kind is not
/// 1 mean nothing": zeros stand for them.
fn read_data(disc: &Disc, first: usize, bytes: &mut [u8]) -> Done {
    let (image, kinds) = disc.lent();
    for (block, sector) in (first..).zip(bytes.chunks_exact_mut(SECTOR)) {
        match kinds[block] {
            DATA => sector.copy_from_slice(&image[block * SECTOR..][..SECTOR]),
            _ => sector.fill(0),
        }
    }
    Ok(())
}

/// Copies so many sectors piece by piece: `read` is given the block of a piece's first
/// sector, and `write` its place.
fn copy(
    sectors: usize,
    read: impl Fn(usize, &mut [u8]) -> Done,
    mut write: impl FnMut(u64, &[u8]) -> Done,
) -> Done {
    let mut piece = vec![0; PIECE * SECTOR];
    for block in (0..sectors).step_by(PIECE) {
        let bytes = &mut piece[..PIECE.min(sectors - block) * SECTOR];
        read(block, bytes)?;
        write((block * SECTOR) as u64, bytes)?;
    }
    Ok(())
}
