//! A table at block b, recognised where it lies: behind the head of its ICB, or in
//! sectors of its own below it.

use std::ops::Range;

use super::crc::crc;
use super::disc::Disc;
use super::extent::{Descriptor, Extent};
use super::fields::{field, u16_at, u32_at, u64_at};
use super::time::Stamp;
use super::words::joined;

/// "the image, 2048 bytes a sector"
pub const SECTOR: usize = 2048;
pub type Sector = [u8; SECTOR];

/// "hex FFFFFFFF": an unused entry or a missing table.
pub const NONE: u32 = 0xFFFF_FFFF;

/// "The limit becomes 4,087 numbers" (document 02): what eight sectors hold.
pub const LIMIT: usize = 4087;

/// "1 to 8 sectors of its own" (document 02)
pub const MOST_OWN: usize = 8;

/// Bytes 0 to 3 as one field: "tag identifier 261; descriptor version 2".
const TAG: u32 = 261 | 2 << 16;

/// Byte 16: where the CRC starts, behind the tag.
pub const BODY: usize = 16;

/// The modification time.
pub const MODIFIED: usize = 84;

/// Bytes 0 to 175: the head. Behind it the attributes, if any, and then the table or
/// the descriptors of its own sectors.
pub const HEAD: usize = 176;

/// Behind the entries: "a 32-byte regid, the previous table's block (32 bits)".
pub const TAIL: usize = 36;
pub type Tail = [u8; TAIL];

/// "Regid bytes 1 to 23 hold the text `*UDF Virtual Alloc Tbl` and one zero."
pub const VAT_NAME: [u8; 23] = *b"*UDF Virtual Alloc Tbl\0";

/// What a table holds: how many numbers, where their entries lie, and the previous
/// table's block; and its ICB, for its time.
#[derive(Clone, Copy)]
pub struct Vat<'a> {
    pub numbers: usize,
    pub previous: u32,
    icb: &'a Sector,
    bytes: Bytes<'a>,
}

/// Where a table's bytes lie.
#[derive(Clone, Copy)]
enum Bytes<'a> {
    Embedded(&'a [u8]),
    Own(Own<'a>),
}

/// Sectors of a table's own, named by descriptors, among those below its ICB.
#[derive(Clone, Copy)]
struct Own<'a> {
    descriptors: &'a [Descriptor],
    below: &'a [Sector],
}

impl<'a> Vat<'a> {
    /// Its "modification time", whatever it is.
    #[inline(always)]
    pub fn modified(&self) -> Stamp {
        field(self.icb, MODIFIED)
    }

    /// Its own sectors with their blocks, by their place.
    #[inline(always)]
    pub fn own(&self) -> impl Iterator<Item = (u32, &'a Sector)> + use<'a> {
        let own = match self.bytes {
            Bytes::Embedded(_) => Own::NONE,
            Bytes::Own(own) => own,
        };
        own.sectors()
    }

    /// Copies its entries, four bytes each.
    #[inline(always)]
    pub fn copy_entries(&self, entries: &mut [u8]) {
        match self.bytes {
            Bytes::Embedded(table) => entries.copy_from_slice(&table[..4 * self.numbers]),
            Bytes::Own(own) => {
                for (part, (_, sector)) in entries.chunks_mut(SECTOR).zip(own.sectors()) {
                    part.copy_from_slice(&sector[..part.len()]);
                }
            }
        }
    }
}

/// "A sector of kind 1 is a table sector exactly if all of this holds". Nearly
/// every other sector fails at its first four bytes; the entries come late and
/// the CRC last.
#[inline(always)]
pub fn recognise<'a>(icb: &'a Sector, b: u32, disc: &Disc<'a>) -> Option<Vat<'a>> {
    if is_tagged(icb) {
        recognise_tagged(icb, b, disc)
    } else {
        None
    }
}

/// Bytes 0 and 2 in one test.
#[inline(always)]
pub fn is_tagged(sector: &Sector) -> bool {
    u32_at(sector, 0) == TAG
}

#[inline(never)]
fn recognise_tagged<'a>(icb: &'a Sector, b: u32, disc: &Disc<'a>) -> Option<Vat<'a>> {
    if !has_tag(icb, b) || !is_unlinked_file(icb) {
        return None;
    }
    let described = described(icb)?;
    let bytes = Bytes::described_by(icb, &icb[described.clone()], b, disc)?;
    let numbers = numbers(bytes.len(), u64_at(icb, 56))?;
    let previous = bytes.previous_if_below(numbers, b)?;
    is_summed(icb, described.end).then_some(Vat {
        numbers,
        previous,
        icb,
        bytes,
    })
}

/// Bytes 4, 5 and 12: "sum of bytes 0 to 3 and 5 to 15, modulo 256; zero",
/// "tag location = b".
pub fn has_tag(sector: &Sector, b: u32) -> bool {
    u32_at(sector, 12) == b && sector[5] == 0 && sector[4] == tag_sum(sector)
}

/// Byte 8: the CRC "from byte 16" to where the described bytes end.
#[inline(always)]
pub fn is_summed(sector: &Sector, end: usize) -> bool {
    u16_at(sector, 8) == crc(&sector[BODY..end])
}

pub fn tag_sum(sector: &Sector) -> u8 {
    let add = |sum: u8, byte: &u8| sum.wrapping_add(*byte);
    sector[..BODY].iter().fold(0, add).wrapping_sub(sector[4])
}

/// Bytes 20, 27 and 48: "strategy 4", "file type 0", "link count 0".
fn is_unlinked_file(icb: &Sector) -> bool {
    u16_at(icb, 20) == 4 && icb[27] == 0 && u16_at(icb, 48) == 0
}

/// "176 + attribute length (a multiple of 4)" to the end of what the descriptor length
/// tells of, which must "stay below one sector", if bytes 10, 168 and 172 agree on it.
fn described(icb: &Sector) -> Option<Range<usize>> {
    let start = HEAD + u32_at(icb, 168) as usize;
    let end = start + u32_at(icb, 172) as usize;
    let agree =
        end < SECTOR && start.is_multiple_of(4) && usize::from(u16_at(icb, 10)) == end - BODY;
    agree.then_some(start..end)
}

/// "The table length is 4 × N + 36 exactly", and so is the information length.
#[inline(always)]
fn numbers(length: usize, information: u64) -> Option<usize> {
    let entries = length.checked_sub(TAIL)?;
    let agree = entries.is_multiple_of(4) && information == length as u64;
    agree.then_some(entries / 4)
}

impl<'a> Bytes<'a> {
    /// "flags: low three bits 3, embedded", or 0 and each own sector "named by a short
    /// allocation descriptor" (document 02).
    #[inline(always)]
    fn described_by(
        icb: &Sector,
        described: &'a [u8],
        b: u32,
        disc: &Disc<'a>,
    ) -> Option<Bytes<'a>> {
        match icb[34] & 7 {
            3 => Some(Bytes::Embedded(described)),
            0 => Own::named_by(described, b, disc).map(Bytes::Own),
            _ => None,
        }
    }

    #[inline(always)]
    fn len(&self) -> usize {
        match self {
            Bytes::Embedded(table) => table.len(),
            Bytes::Own(own) => own.len(),
        }
    }

    /// The previous table's block, if the regid, this block and all entries hold.
    #[inline(always)]
    fn previous_if_below(&self, numbers: usize, b: u32) -> Option<u32> {
        match self {
            Bytes::Embedded(table) => {
                let (entries, tail) = table.split_at(4 * numbers);
                let previous = previous_in(tail, b)?;
                all_none_or_below(entries, b).then_some(previous)
            }
            Bytes::Own(own) => {
                let previous = previous_in(&own.tail(4 * numbers), b)?;
                own.all_none_or_below(numbers, b).then_some(previous)
            }
        }
    }
}

impl<'a> Own<'a> {
    const NONE: Own<'static> = Own {
        descriptors: &[],
        below: &[],
    };

    /// "1 to 8 sectors of its own [...] (allocation and extent type 0, blocks below the
    /// ICB, kind 1, full but the last, none empty)" (document 02). A length with a type
    /// is no length of a sector.
    fn named_by(described: &'a [u8], b: u32, disc: &Disc<'a>) -> Option<Own<'a>> {
        let (descriptors, rest) = described.as_chunks();
        let (last, full) = descriptors.split_last()?;
        let lies = |x: &Descriptor| disc.is_data_below(Extent::of(x).location, b);
        let holds = rest.is_empty()
            && descriptors.len() <= MOST_OWN
            && full.iter().all(|x| Extent::of(x).length == SECTOR as u32)
            && (1..=SECTOR as u32).contains(&Extent::of(last).length)
            && descriptors.iter().all(lies);
        holds.then_some(Own {
            descriptors,
            below: &disc.sectors[..b as usize],
        })
    }

    #[inline(always)]
    fn len(&self) -> usize {
        let lengths = self.descriptors.iter().map(|x| Extent::of(x).length);
        lengths.sum::<u32>() as usize
    }

    #[inline(always)]
    fn sectors(self) -> impl Iterator<Item = (u32, &'a Sector)> {
        let sector = move |x| {
            let block = Extent::of(x).location;
            (block, &self.below[block as usize])
        };
        self.descriptors.iter().map(sector)
    }

    #[inline(always)]
    fn sector(&self, place: usize) -> &'a Sector {
        &self.below[Extent::of(&self.descriptors[place]).location as usize]
    }

    /// What stands behind the entries, which may lie across two sectors.
    fn tail(&self, at: usize) -> Tail {
        let start = &self.sector(at / SECTOR)[at % SECTOR..];
        let mut tail = [0; TAIL];
        let (front, back) = tail.split_at_mut(start.len().min(TAIL));
        front.copy_from_slice(&start[..front.len()]);
        if !back.is_empty() {
            back.copy_from_slice(&self.sector(at / SECTOR + 1)[..back.len()]);
        }
        tail
    }

    fn all_none_or_below(&self, numbers: usize, b: u32) -> bool {
        let mut left = 4 * numbers;
        let mut ok = true;
        for (_, sector) in self.sectors() {
            let count = left.min(SECTOR);
            ok &= all_none_or_below(&sector[..count], b);
            left -= count;
        }
        ok
    }
}

/// The previous table's block behind the regid, if both hold.
#[inline(always)]
fn previous_in(tail: &[u8], b: u32) -> Option<u32> {
    let previous = u32_at(tail, 32);
    (tail[1..24] == VAT_NAME && is_none_or_below(previous, b)).then_some(previous)
}

/// "is FFFFFFFF or less than b": one more, which makes the former 0, is at most b. Plain
/// x86-64 compares signed words alone four at a time, so both are moved by 2^31.
#[inline(always)]
fn is_none_or_below(block: u32, b: u32) -> bool {
    const MOVED: u32 = 1 << 31;
    block.wrapping_add(MOVED + 1) as i32 <= b.wrapping_add(MOVED) as i32
}

/// All entries. A comparison of four words gives all bits or none of each.
#[inline(always)]
pub fn all_none_or_below(entries: &[u8], b: u32) -> bool {
    let fails = |block| match is_none_or_below(block, b) {
        true => 0,
        false => u32::MAX,
    };
    joined(entries, fails, |one, other| one | other) == 0
}
