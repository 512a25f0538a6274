//! "A disc is two lent buffers: the image, 2048 bytes a sector, and the kinds,
//! one byte a sector."
//!
//! What a disc shows ([`Disc`]) and how sectors are recorded on it
//! ([`record`], and [`fail_power`] for a cut).

use crate::anchor::has_pointer_tag;
use crate::answer::Refusal;
use crate::extent::Extent;
use crate::run::{self, Run};
use crate::table::{recognise, Vat, NONE, SECTOR};

/// "0 blank, 1 data, 2 link, 3 unreadable"
pub const BLANK: u8 = 0;
pub const DATA: u8 = 1;
pub const LINK: u8 = 2;
pub const UNREADABLE: u8 = 3;

/// "It has 1 to 360,000 sectors."
pub const MOST_SECTORS: usize = 360_000;

/// A closing's pointer stands so many sectors before its table: itself and the 255
/// behind it (document 02).
pub const BEFORE_TABLE: u32 = 256;

/// A disc of right size, not yet known to be sound.
#[derive(Clone, Copy)]
pub struct Disc<'a> {
    image: &'a [u8],
    kinds: &'a [u8],
}

/// A table sector and its block.
#[derive(Clone, Debug, PartialEq, Eq)]
pub struct Found {
    pub block: u32,
    pub vat: Vat,
}

impl<'a> Disc<'a> {
    /// Refusal 1: "no sectors, more than 360,000, or image length is not
    /// 2048 × kinds length".
    pub fn lent(image: &'a [u8], kinds: &'a [u8]) -> Result<Disc<'a>, Refusal> {
        let right_size =
            (1..=MOST_SECTORS).contains(&kinds.len()) && image.len() == SECTOR * kinds.len();
        if right_size {
            Ok(Disc { image, kinds })
        } else {
            Err(Refusal::DiscSize)
        }
    }

    /// Refusal 3 is the contrary: "a kind above 3, or a recorded sector after
    /// a blank one". Where there is such a sector, one directly follows a blank.
    pub fn is_sound(&self) -> bool {
        let recorded_after_blank = |pair: &[u8]| pair[0] == BLANK && pair[1] != BLANK;
        self.kinds.iter().all(|kind| *kind <= UNREADABLE)
            && !self.kinds.windows(2).any(recorded_after_blank)
    }

    /// "All sectors that are not blank form a beginning of the disc. Their
    /// count is called *recorded*."
    pub fn recorded(&self) -> u32 {
        recorded(self.kinds) as u32
    }

    /// All sectors, recorded and blank.
    pub fn sectors(&self) -> u32 {
        self.kinds.len() as u32
    }

    /// Blank sectors that are left.
    pub fn blank(&self) -> u32 {
        self.sectors() - self.recorded()
    }

    /// The kind of a block, if the disc has it.
    pub fn kind(&self, block: u32) -> Option<u8> {
        self.kinds.get(block as usize).copied()
    }

    /// The bytes of a block of kind 1: "Bytes of a sector whose kind is not 1
    /// mean nothing."
    pub fn data(&self, block: u32) -> Option<&'a [u8; SECTOR]> {
        if self.kind(block) == Some(DATA) {
            self.image[block as usize * SECTOR..].first_chunk()
        } else {
            None
        }
    }

    /// What the block tells if it is a table sector.
    pub fn vat_at(&self, block: u32) -> Option<Vat> {
        self.vat_if(self.data(block)?, block)
    }

    /// What the block would tell if it held these bytes: of a table in own sectors
    /// they name these, and the disc has them.
    pub fn vat_if(&self, sector: &[u8; SECTOR], block: u32) -> Option<Vat> {
        recognise(sector, block, |own| self.data(own))
    }

    /// Each table sector, and "each sector that a table names" as its own (document
    /// 02); some more than once.
    pub fn vat_blocks(&self) -> Vec<u32> {
        let mut blocks = Vec::new();
        for block in 0..self.recorded() {
            if let Some(vat) = self.vat_at(block) {
                blocks.push(block);
                blocks.extend(vat.own);
            }
        }
        blocks
    }

    /// What the block shows if it holds a run's entry.
    pub fn run_at(&self, block: u32) -> Option<Run<'a>> {
        let named = run::recognise(self.data(block)?, block)?;
        let extents = named.iter().map(|extent| self.data_below(block, extent));
        let extents = extents.collect::<Option<_>>()?;
        Some(Run { extents })
    }

    /// The bytes of an extent that is "recorded data below the entry's block"
    /// (document 02): each of its sectors has kind 1.
    fn data_below(&self, block: u32, extent: &Extent) -> Option<&'a [u8]> {
        let first = extent.location as usize;
        let below = self.kinds.get(..block as usize)?;
        let kinds = below.get(first..first + extent.sectors())?;
        let is_data = kinds.iter().all(|kind| *kind == DATA);
        is_data.then(|| &self.image[first * SECTOR..][..extent.bytes()])
    }

    /// "starts at the last recorded sector and goes towards block 0. The first
    /// table sector met ends the search."
    pub fn newest_vat(&self) -> Option<Found> {
        (0..self.recorded()).rev().find_map(|block| {
            let vat = self.vat_at(block)?;
            Some(Found { block, vat })
        })
    }

    /// "from the table that mount would find, follows the previous entry k
    /// times; k 0 is that table". "Look back stops at its first failing step."
    pub fn walk_back(&self, k: u32) -> Result<Found, Refusal> {
        let mut found = self.newest_vat().ok_or(Refusal::NoVat)?;
        for _ in 0..k {
            found = self.step_back(&found)?;
        }
        Ok(found)
    }

    /// "A disc is closed exactly if its last recorded sector is a table, the 256
    /// before it have kind 1, and the first of these has tag identifier 2, a right
    /// tag checksum and a tag location from its block to its block + 400,000"
    /// (document 02). The table's CRC is the dearest test and comes last.
    pub fn is_closed(&self) -> bool {
        let Some(pointer) = self.recorded().checked_sub(BEFORE_TABLE + 1) else {
            return false;
        };
        let table = pointer + BEFORE_TABLE;
        let tagged = self.data(pointer);
        tagged.is_some_and(|sector| has_pointer_tag(sector, pointer))
            && (pointer..table).all(|block| self.kind(block) == Some(DATA))
            && self.vat_at(table).is_some()
    }

    fn step_back(&self, found: &Found) -> Result<Found, Refusal> {
        let block = found.vat.previous;
        if block == NONE {
            return Err(Refusal::ChainEnded);
        }
        let vat = self.vat_at(block).ok_or(Refusal::ChainBroken)?;
        Ok(Found { block, vat })
    }
}

fn recorded(kinds: &[u8]) -> usize {
    kinds.iter().filter(|kind| **kind != BLANK).count()
}

/// One sector that a call records.
#[derive(Clone, Debug, PartialEq, Eq)]
pub enum Sector {
    Link,
    Data(Box<[u8; SECTOR]>),
}

impl Sector {
    /// A data sector with these bytes.
    pub fn data(bytes: [u8; SECTOR]) -> Sector {
        Sector::Data(Box::new(bytes))
    }
}

/// "A call's sectors are recorded one after another", from the first blank on,
/// as many as the disc has blank sectors for.
pub fn record(image: &mut [u8], kinds: &mut [u8], sectors: &[Sector]) {
    let first = recorded(kinds);
    let places = image.chunks_exact_mut(SECTOR).zip(kinds);
    for ((bytes, kind), sector) in places.skip(first).zip(sectors) {
        match sector {
            // "For a link sector only its kind changes, to 2; its image bytes stay."
            Sector::Link => *kind = LINK,
            Sector::Data(data) => {
                *kind = DATA;
                bytes.copy_from_slice(&**data);
            }
        }
    }
}

/// "A cut keeps the first j of them, for any j from 0 to all; the call's next
/// sector, if there is one, stays blank or has kind 3 with arbitrary bytes":
/// the torn sector's bytes, if it is not blank.
pub fn fail_power(
    image: &mut [u8],
    kinds: &mut [u8],
    sectors: &[Sector],
    j: usize,
    torn: Option<&[u8; SECTOR]>,
) {
    let kept = j.min(sectors.len());
    record(image, kinds, &sectors[..kept]);
    if let (true, Some(bytes)) = (kept < sectors.len(), torn) {
        tear(image, kinds, bytes);
    }
}

fn tear(image: &mut [u8], kinds: &mut [u8], torn: &[u8; SECTOR]) {
    let next = recorded(kinds);
    let mut places = image.chunks_exact_mut(SECTOR).zip(kinds);
    if let Some((bytes, kind)) = places.nth(next) {
        *kind = UNREADABLE;
        bytes.copy_from_slice(torn);
    }
}
