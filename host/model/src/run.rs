//! "Runs longer than a block" (document 02): the file entry (ECMA-167 4/14.9) at
//! block b that names a run's extents by short allocation descriptors (4/14.14.1).
//!
//! [`recognise`] says which extents a sector names, if it is such an entry but for
//! the sectors that they lie on, which the disc knows; [`entry_sector`] is an entry
//! to record; a [`Run`] is what an entry shows.

use crate::extent::Extent;
use crate::fields::{put, u16_at, u64_at};
use crate::table::{file_entry, seal, tagged_lengths, Lengths, BEHIND_HEAD, SECTOR};

/// "with 1 to 100 short allocation descriptors"
pub const MOST_EXTENTS: usize = 100;

/// "the lent buffer (at most 65,536 bytes, else 2)"
pub const MOST_VIEWED: usize = 65_536;

/// "file type 5"
const ORDINARY: u8 = 5;

/// A descriptor's low 30 bits are a length in bytes, and its high two the extent's
/// type.
const LENGTH_BITS: u32 = 30;

/// Everyone may read: of the owner's, the group's and the others' five bits that
/// of reading (ECMA-167 4/14.9.5).
const READ_BY_ALL: u32 = 0x1084;

/// The extents that the sector names at block b, if all holds that its bytes alone
/// decide.
pub fn recognise(sector: &[u8; SECTOR], b: u32) -> Option<Vec<Extent>> {
    if !is_ordinary_file(sector) {
        return None;
    }
    let extents = named(sector, tagged_lengths(sector, b)?)?;
    let holds = extents.iter().all(|extent| extent.is_of_type_0())
        && are_whole_but_the_last(&extents)
        && extents.iter().all(|extent| extent.length > 0)
        && u64_at(sector, 56) == total(&extents);
    holds.then_some(extents)
}

/// Bytes 20, 27 and 34: "file type 5, [...] strategy 4, [...] allocation type 0",
/// which is in the flags' low three bits.
fn is_ordinary_file(sector: &[u8; SECTOR]) -> bool {
    u16_at(sector, 20) == 4 && sector[27] == ORDINARY && u16_at(sector, 34) & 7 == 0
}

/// "no attributes", and "1 to 100 short allocation descriptors" right behind the
/// head.
fn named(sector: &[u8; SECTOR], lengths: Lengths) -> Option<Vec<Extent>> {
    let each = Extent::BYTES as u64;
    let count = lengths.descriptors / each;
    let agree = lengths.attributes == 0
        && lengths.descriptors == each * count
        && (1..=MOST_EXTENTS as u64).contains(&count);
    let place = |m| BEHIND_HEAD + Extent::BYTES * m as usize;
    agree.then(|| (0..count).map(|m| Extent::at(sector, place(m))).collect())
}

/// "whole sectors but the last"
fn are_whole_but_the_last(extents: &[Extent]) -> bool {
    let before_the_last = extents.iter().rev().skip(1);
    before_the_last
        .map(|extent| extent.length as usize)
        .all(|length| length % SECTOR == 0)
}

/// "The information length is their total."
fn total(extents: &[Extent]) -> u64 {
    extents.iter().map(|extent| extent.bytes() as u64).sum()
}

impl Extent {
    /// "of extent type 0"
    fn is_of_type_0(self) -> bool {
        self.length >> LENGTH_BITS == 0
    }

    /// Its length, whatever its type.
    pub fn bytes(self) -> usize {
        self.length as usize % (1 << LENGTH_BITS)
    }

    /// The sectors that it lies on, the last as a rule in part.
    pub fn sectors(self) -> usize {
        self.bytes().div_ceil(SECTOR)
    }
}

/// An entry at block b: the rows above, and beside them what a commit records in a
/// table sector's head, one link, read permission for everyone, and the sectors as
/// logical blocks recorded. Extents may be given that no run has, and as many as
/// the sector has room for.
pub fn entry_sector(b: u32, extents: &[Extent]) -> [u8; SECTOR] {
    let mut sector = file_entry(Extent::BYTES * extents.len(), total(extents));
    sector[27] = ORDINARY;
    put(&mut sector, 44, &READ_BY_ALL.to_le_bytes());
    put(&mut sector, 48, &1u16.to_le_bytes());
    let blocks: usize = extents.iter().map(|extent| extent.sectors()).sum();
    put(&mut sector, 64, &(blocks as u64).to_le_bytes());
    for (m, extent) in extents.iter().enumerate() {
        extent.put(&mut sector, BEHIND_HEAD + Extent::BYTES * m);
    }
    seal(&mut sector, b);
    sector
}

/// What an entry shows: the bytes of its extents, one after another.
#[derive(Clone, Debug, PartialEq, Eq)]
pub struct Run<'a> {
    pub extents: Vec<&'a [u8]>,
}

impl Run<'_> {
    pub fn length(&self) -> u64 {
        self.extents.iter().map(|bytes| bytes.len() as u64).sum()
    }

    /// "From a 64-bit offset [...] as far as the run goes", and at most so many.
    pub fn bytes_from(&self, offset: u64, most: usize) -> Vec<u8> {
        let all = self.extents.iter().flat_map(|bytes| bytes.iter());
        all.skip(offset as usize).take(most).copied().collect()
    }
}
