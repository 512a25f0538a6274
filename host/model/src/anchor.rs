//! The Anchor Volume Descriptor Pointer (ECMA-167 3/10.2) that a closing
//! records, by document 02, and the tag by which a block passes for one.
//!
//! [`pointer_sector`] is the sector that a closing records; [`has_pointer_tag`]
//! says whether a block has "such a tag".

use crate::extent::Extent;
use crate::fields::{put, u16_at, u32_at};
use crate::table::{has_tag_sum, seal, SECTOR};

/// "the partition start exceeds 400,000"; a tag location is "from its block to
/// its block + 400,000".
pub const MOST_START: u32 = 400_000;

/// "tag identifier 2"
const POINTER: u16 = 2;

/// "the extents at bytes 16 and 24 (length, location, 32 bits each)"
const MAIN: usize = 16;
const RESERVE: usize = 24;

/// "The host gives the two extents and the partition's start as 32-bit numbers."
#[derive(Clone, Copy, Debug, PartialEq, Eq)]
pub struct Anchor {
    pub main: Extent,
    pub reserve: Extent,
    pub partition_start: u32,
}

/// What a closing records at block b, for a start of at most 400,000: "The
/// pointer has tag identifier 2, version 2, right sums, CRC length 496, the
/// extents at bytes 16 and 24 [...], and zeros elsewhere"; its "tag location is
/// that start plus its block".
pub fn pointer_sector(b: u32, anchor: &Anchor) -> [u8; SECTOR] {
    let mut sector = [0; SECTOR];
    put(&mut sector, 0, &POINTER.to_le_bytes());
    put(&mut sector, 2, &2u16.to_le_bytes());
    put(&mut sector, 10, &496u16.to_le_bytes());
    anchor.main.put(&mut sector, MAIN);
    anchor.reserve.put(&mut sector, RESERVE);
    seal(&mut sector, anchor.partition_start + b);
    sector
}

/// "tag identifier 2, a right tag checksum and a tag location from its block to
/// its block + 400,000": nothing else is asked, not even the CRC.
pub fn has_pointer_tag(sector: &[u8; SECTOR], b: u32) -> bool {
    u16_at(sector, 0) == POINTER
        && has_tag_sum(sector)
        && (b..=b + MOST_START).contains(&u32_at(sector, 12))
}
