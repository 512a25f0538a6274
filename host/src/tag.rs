//! The tag of a descriptor (ECMA-167 3/7.2) and its two sums.

use crate::SECTOR;

/// Where the CRC starts, behind the tag.
const BODY: usize = 16;

/// The version of a descriptor that follows the standard's second edition.
const VERSION: u16 = 2;

/// Gives a descriptor, whose other bytes are all in place, its tag.
pub(crate) fn put_tag(sector: &mut [u8; SECTOR], identifier: u16, crc_length: u16, location: u32) {
    let sum = crc(&sector[BODY..][..usize::from(crc_length)]);
    sector[0..2].copy_from_slice(&identifier.to_le_bytes());
    sector[2..4].copy_from_slice(&VERSION.to_le_bytes());
    sector[8..10].copy_from_slice(&sum.to_le_bytes());
    sector[10..12].copy_from_slice(&crc_length.to_le_bytes());
    sector[12..16].copy_from_slice(&location.to_le_bytes());
    sector[4] = tag_checksum(sector);
}

/// The tag checksum that a descriptor's byte 4 should have: the sum of bytes 0 to 3 and
/// 5 to 15, modulo 256 (ECMA-167 3/7.2.3).
pub fn tag_checksum(sector: &[u8; SECTOR]) -> u8 {
    let summed = sector[..4].iter().chain(&sector[5..BODY]);
    summed.fold(0, |sum, byte| sum.wrapping_add(*byte))
}

/// "CRC: 16 bits, polynomial hex 1021, start 0, high bit first"
fn crc(bytes: &[u8]) -> u16 {
    bytes.iter().fold(0, |crc, byte| crc_byte(crc, *byte))
}

fn crc_byte(crc: u16, byte: u8) -> u16 {
    let crc = crc ^ (u16::from(byte) << 8);
    (0..8).fold(crc, |crc, _| (crc << 1) ^ ((crc >> 15) * 0x1021))
}

#[cfg(test)]
mod tests {
    use super::crc;

    /// "ECMA-167 gives hex 3299 for hex 70 6A 77."
    #[test]
    fn the_standards_crc() {
        assert_eq!(crc(&[0x70, 0x6A, 0x77]), 0x3299);
    }
}
