//! The Anchor Volume Descriptor Pointer that a closing records (document 02): its
//! tag recognised, and the sector made in its place on the disc.

use super::crc::crc;
use super::extent::Extent;
use super::fields::{put, u16_at, u32_at};
use super::table::{tag_sum, Sector, BODY};

/// "the partition start exceeds 400,000"; "from its block to its block + 400,000".
pub const MOST_START: u32 = 400_000;

/// "tag identifier 2"
const POINTER: u16 = 2;

/// "CRC length 496"
const CRC_LENGTH: usize = 496;

/// "The host gives the two extents and the partition's start as 32-bit numbers."
pub struct Anchor {
    pub main: Extent,
    pub reserve: Extent,
    pub partition_start: u32,
}

/// "tag identifier 2, a right tag checksum and a tag location from its block to its
/// block + 400,000": nearly every sector fails at its first two bytes.
#[inline(always)]
pub fn has_pointer_tag(sector: &Sector, b: u32) -> bool {
    u16_at(sector, 0) == POINTER
        && u32_at(sector, 12).wrapping_sub(b) <= MOST_START
        && sector[4] == tag_sum(sector)
}

/// Makes the pointer of block b in a sector of zeros.
pub fn put_pointer(sector: &mut Sector, b: u32, anchor: &Anchor) {
    sector[0] = POINTER as u8;
    sector[2] = 2;
    put(sector, 10, &(CRC_LENGTH as u16).to_le_bytes());
    put(sector, 12, &(anchor.partition_start + b).to_le_bytes());
    put(sector, 16, &anchor.main.to_bytes());
    put(sector, 24, &anchor.reserve.to_bytes());
    let sum = crc(&sector[BODY..BODY + CRC_LENGTH]);
    put(sector, 8, &sum.to_le_bytes());
    sector[4] = tag_sum(sector);
}
