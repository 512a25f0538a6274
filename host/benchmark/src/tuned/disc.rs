//! "A disc is two lent buffers: the image, 2048 bytes a sector, and the kinds,
//! one byte a sector."

use core::ops::Range;

use super::anchor::has_pointer_tag;
use super::answer::{refuse, Refusal};
use super::table::{is_tagged, recognise, Sector, Vat, NONE, SECTOR};

/// "0 blank, 1 data, 2 link, 3 unreadable"
const BLANK: u8 = 0;
pub const DATA: u8 = 1;
pub const LINK: u8 = 2;
const UNREADABLE: u8 = 3;

/// "It has 1 to 360,000 sectors."
const MOST_SECTORS: usize = 360_000;

/// A closing's pointer stands so many sectors before its table.
pub const BEFORE_TABLE: usize = 256;

/// Sectors that a search passes over at a time.
pub const GROUP: usize = 8;

/// Kinds that are tested at a time.
const LANE: usize = 32;

#[derive(Clone, Copy)]
pub struct Disc<'a> {
    pub sectors: &'a [Sector],
    pub kinds: &'a [u8],
}

/// A table sector and its block.
#[derive(Clone, Copy)]
pub struct Found<'a> {
    pub block: u32,
    pub vat: Vat<'a>,
}

impl<'a> Disc<'a> {
    /// Refusal 1: "no sectors, more than 360,000, or image length is not
    /// 2048 × kinds length".
    #[inline(always)]
    pub fn lent(image: &'a [u8], kinds: &'a [u8]) -> Result<Disc<'a>, Refusal> {
        let sectors = image.as_chunks::<SECTOR>().0;
        let right_size =
            (1..=MOST_SECTORS).contains(&kinds.len()) && image.len() == SECTOR * kinds.len();
        refuse(!right_size, Refusal::DiscSize)?;
        Ok(Disc { sectors, kinds })
    }

    /// Refusal 3, or the count of recorded sectors.
    #[inline(always)]
    pub fn recorded(&self) -> Result<usize, Refusal> {
        let recorded = self.kinds.partition_point(|kind| *kind != BLANK);
        refuse(!is_boundary(self.kinds, recorded), Refusal::DiscUnsound)?;
        Ok(recorded)
    }

    /// The same where a count is likely right: if it is, the search is spared.
    #[inline(always)]
    pub fn recorded_likely(&self, likely: usize) -> Result<usize, Refusal> {
        if likely <= self.kinds.len() && is_boundary(self.kinds, likely) {
            return Ok(likely);
        }
        self.recorded()
    }

    /// The bytes of a block of kind 1: "Bytes of a sector whose kind is not 1
    /// mean nothing."
    #[inline(always)]
    pub fn data(&self, block: u32) -> Option<&'a Sector> {
        let sector = self.sectors.get(block as usize)?;
        (self.kinds.get(block as usize) == Some(&DATA)).then_some(sector)
    }

    /// Whether a block below b, which is one of the disc's, has kind 1.
    #[inline(always)]
    pub fn is_data_below(&self, block: u32, b: u32) -> bool {
        block < b && self.kinds[block as usize] == DATA
    }

    /// Whether all of these recorded blocks have kind 1, without an exit.
    #[inline(always)]
    pub fn is_data(&self, blocks: Range<usize>) -> bool {
        let kinds = self.kinds[blocks].iter();
        kinds.fold(0, |other, kind| other | (kind ^ DATA)) == 0
    }

    /// What the block holds if it is a table sector.
    #[inline(always)]
    pub fn vat_at(&self, block: u32) -> Option<Found<'a>> {
        let vat = recognise(self.data(block)?, block, self)?;
        Some(Found { block, vat })
    }

    /// "starts at the last recorded sector and goes towards block 0. The first
    /// table sector met ends the search." The last sectors are looked at one by
    /// one, since a table is likely there, and the others in groups.
    #[inline(always)]
    pub fn newest_vat(&self, recorded: usize) -> Option<Found<'a>> {
        let grouped = recorded.saturating_sub(1) / GROUP * GROUP;
        self.newest_in(grouped..recorded)
            .or_else(|| self.newest_in_groups(grouped))
    }

    /// The newest below a multiple of the group. A group of data sectors of
    /// which none starts as a table does is passed over at one test.
    fn newest_in_groups(&self, end: usize) -> Option<Found<'a>> {
        let groups = self.groups(end).enumerate().rev();
        for (group, _) in groups.filter(|(_, may_have_vat)| *may_have_vat) {
            let blocks = GROUP * group..GROUP * (group + 1);
            if let Some(found) = self.newest_in(blocks) {
                return Some(found);
            }
        }
        None
    }

    /// The groups below a multiple of the group: whether a table may be there.
    #[inline(always)]
    pub fn groups(
        &self,
        end: usize,
    ) -> impl DoubleEndedIterator<Item = bool> + ExactSizeIterator + use<'a> {
        let sectors = self.sectors[..end].as_chunks::<GROUP>().0;
        let kinds = self.kinds[..end].as_chunks::<GROUP>().0;
        let may_have_vat = |(sectors, kinds): (&[Sector; GROUP], &[u8; GROUP])| {
            *kinds != [DATA; GROUP] || any_tagged(sectors)
        };
        sectors.iter().zip(kinds).map(may_have_vat)
    }

    /// The newest in some blocks, one by one.
    #[inline(always)]
    fn newest_in(&self, blocks: Range<usize>) -> Option<Found<'a>> {
        blocks.rev().find_map(|block| self.vat_at(block as u32))
    }

    /// "follows the previous entry k times"; "Look back stops at its first
    /// failing step."
    #[inline(always)]
    pub fn walk_back(&self, newest: Found<'a>, k: u32) -> Result<Found<'a>, Refusal> {
        let mut found = newest;
        for _ in 0..k {
            let previous = found.vat.previous;
            refuse(previous == NONE, Refusal::ChainEnded)?;
            found = self.vat_at(previous).ok_or(Refusal::ChainBroken)?;
        }
        Ok(found)
    }

    /// "A disc is closed exactly if its last recorded sector is a table, the 256
    /// before it have kind 1, and the first of these has" a pointer's tag (document
    /// 02). On nearly every other disc that tag alone is looked at: one line of the
    /// cache. The table's CRC comes last.
    #[inline(always)]
    pub fn is_closed(&self, recorded: usize) -> bool {
        match recorded.checked_sub(BEFORE_TABLE + 1) {
            Some(pointer) if has_pointer_tag(&self.sectors[pointer], pointer as u32) => {
                self.ends_a_session(pointer)
            }
            _ => false,
        }
    }

    #[inline(never)]
    fn ends_a_session(&self, pointer: usize) -> bool {
        let table = pointer + BEFORE_TABLE;
        self.is_data(pointer..table) && self.vat_at(table as u32).is_some()
    }
}

/// Whether a sector of the group starts as a table does, without an exit.
#[inline(always)]
fn any_tagged(sectors: &[Sector; GROUP]) -> bool {
    let tagged = sectors.iter().map(is_tagged);
    tagged.fold(false, |any, tagged| any | tagged)
}

/// Kinds 1 to 3 before the boundary and only 0 behind it: against "a kind above
/// 3, or a recorded sector after a blank one". One place in the program for all
/// calls.
#[inline(never)]
fn is_boundary(kinds: &[u8], at: usize) -> bool {
    let (recorded, blank) = kinds.split_at(at);
    highest(recorded, |kind| kind.wrapping_sub(1)) < UNREADABLE
        && highest(blank, |kind| kind) == BLANK
}

/// The highest of the numbers that the bytes become, without an exit, so that
/// the compiler takes sixteen at a time. The last lane may cover bytes twice.
#[inline(always)]
fn highest(bytes: &[u8], number: impl Fn(u8) -> u8 + Copy) -> u8 {
    let Some(last) = bytes.last_chunk::<LANE>() else {
        return bytes.iter().fold(0, |most, byte| most.max(number(*byte)));
    };
    let mut most = [0; LANE];
    raise(&mut most, last, number);
    for lane in bytes.as_chunks::<LANE>().0 {
        raise(&mut most, lane, number);
    }
    most.iter().fold(0, |most, other| most.max(*other))
}

/// Each place becomes the higher of two.
#[inline(always)]
fn raise(most: &mut [u8; LANE], lane: &[u8; LANE], number: impl Fn(u8) -> u8) {
    for (most, byte) in most.iter_mut().zip(lane) {
        *most = number(*byte).max(*most);
    }
}
