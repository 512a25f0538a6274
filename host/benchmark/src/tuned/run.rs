//! Runs longer than a block (document 02): the entry at block b recognised, and a
//! part of its run copied.

use super::disc::Disc;
use super::extent::{Descriptor, Extent};
use super::fields::{u16_at, u32_at, u64_at};
use super::table::{has_tag, is_summed, is_tagged, Sector, HEAD, SECTOR};

/// "at most 65,536 bytes, else 2"
pub const MOST_VIEWED: usize = 65_536;

/// "with 1 to 100 short allocation descriptors"
const MOST_EXTENTS: usize = 100;

/// The high two bits of a descriptor's first word are its type.
const TYPE: u32 = 3 << 30;

/// A run's descriptors, all of which hold, and its length.
pub struct Run<'a> {
    descriptors: &'a [Descriptor],
    pub length: u64,
}

/// The run that the sector at block b names, if it is such an entry. The kinds of its
/// extents come last, as they are the only test that grows with the run.
pub fn recognise<'a>(sector: &'a Sector, b: u32, disc: &Disc) -> Option<Run<'a>> {
    if !is_tagged(sector) || !has_tag(sector, b) || !is_ordinary_file(sector) {
        return None;
    }
    let run = Run::named_in(sector)?;
    let holds = is_summed(sector, HEAD + 8 * run.descriptors.len())
        && run.extents().all(|extent| is_data_below(extent, b, disc));
    holds.then_some(run)
}

/// "file type 5, [...] strategy 4, no attributes, allocation type 0"
fn is_ordinary_file(sector: &Sector) -> bool {
    u16_at(sector, 20) == 4 && sector[27] == 5 && sector[34] & 7 == 0 && u32_at(sector, 168) == 0
}

/// "recorded data below the entry's block", without an exit over the kinds, so that
/// the compiler takes sixteen at a time.
#[inline(always)]
fn is_data_below(extent: Extent, b: u32, disc: &Disc) -> bool {
    let start = extent.location as usize;
    let end = start + (extent.length as usize).div_ceil(SECTOR);
    end <= b as usize && disc.is_data(start..end)
}

impl<'a> Run<'a> {
    /// The descriptors, if they are "of extent type 0, [...] whole sectors but the last,
    /// none empty", and "The information length is their total".
    #[inline(always)]
    fn named_in(sector: &'a Sector) -> Option<Run<'a>> {
        let bytes = u32_at(sector, 172) as usize;
        let (descriptors, rest) = sector.get(HEAD..HEAD + bytes)?.as_chunks();
        let crc_length = usize::from(u16_at(sector, 10));
        let agree = (1..=MOST_EXTENTS).contains(&descriptors.len())
            && rest.is_empty()
            && crc_length == HEAD - 16 + bytes;
        let (last, before) = descriptors.split_last()?;
        let mut bits = u32_at(last, 0) & TYPE;
        let mut least = u32_at(last, 0);
        let mut length = u64::from(least);
        for descriptor in before {
            let word = u32_at(descriptor, 0);
            bits |= word & (TYPE | (SECTOR as u32 - 1));
            least = least.min(word);
            length += u64::from(word);
        }
        let holds = agree && bits == 0 && least > 0 && length == u64_at(sector, 56);
        holds.then_some(Run {
            descriptors,
            length,
        })
    }

    #[inline(always)]
    fn extents(&self) -> impl Iterator<Item = Extent> + 'a {
        self.descriptors.iter().map(Extent::of)
    }

    /// "fills the lent buffer [...] as far as the run goes": from an offset in it, how
    /// many bytes.
    pub fn fill(&self, image: &[u8], offset: u64, buffer: &mut [u8]) -> usize {
        let mut offset = offset;
        let mut filled = 0;
        for extent in self.extents() {
            let length = u64::from(extent.length);
            if offset >= length {
                offset -= length;
                continue;
            }
            let start = SECTOR * extent.location as usize + offset as usize;
            let count = (buffer.len() - filled).min((length - offset) as usize);
            buffer[filled..filled + count].copy_from_slice(&image[start..start + count]);
            filled += count;
            offset = 0;
            if filled == buffer.len() {
                break;
            }
        }
        filled
    }
}
