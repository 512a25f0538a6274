//! Table sectors that commit would not record, and sums laid by hand.

use station_model::fields::{put, u32_at};
use station_model::table::{crc, seal, table_length, vat_sector, SECTOR};

/// "176 + 4 × N + 36 < 2048, so N is at most 458": the most entries of a table that is
/// embedded.
pub const MOST_EMBEDDED: usize = 458;

/// Byte 176, where extended attributes start, and behind them the table or its
/// descriptors.
pub const ATTRIBUTES: usize = 176;

/// Bytes of an ICB, up to its attribute length, whose value matters beyond the sums: tag,
/// strategy, file type, the low flags, links and information length.
pub fn is_tested_in_header(at: usize) -> bool {
    let fields = [0..6, 10..16, 20..22, 27..28, 34..35, 48..50, 56..64];
    fields.iter().any(|field| field.contains(&at))
}

/// A table sector as commit records it, but behind these extended attributes:
/// "The table [...] starts at 176 + attribute length" (document 02). What would
/// reach beyond the sector is cut off.
pub fn vat_behind(attributes: &[u8], block: u32, map: &[u32], previous: u32) -> [u8; SECTOR] {
    let mut sector = vat_sector(block, map, previous);
    put_attributes(&mut sector, attributes);
    seal(&mut sector, block);
    sector
}

/// Puts extended attributes into a table sector that has none; its sums are then to be
/// laid again.
pub fn put_attributes(sector: &mut [u8; SECTOR], attributes: &[u8]) {
    let behind = ATTRIBUTES + attributes.len();
    sector.copy_within(ATTRIBUTES..SECTOR - attributes.len(), behind);
    put(sector, ATTRIBUTES, attributes);
    let descriptors = u32_at(sector, 172);
    put_described(sector, attributes.len() as u32, descriptors);
}

/// Puts attribute length and descriptor length, and an information length that agrees
/// with them as that of an embedded table does.
pub fn put_lengths(sector: &mut [u8; SECTOR], attributes: u32, descriptors: u32) {
    put_described(sector, attributes, descriptors);
    put(sector, 56, &u64::from(descriptors).to_le_bytes());
}

/// Puts attribute length and descriptor length, and a CRC length that agrees with
/// them, modulo 2 to the 16 where they are larger.
pub fn put_described(sector: &mut [u8; SECTOR], attributes: u32, descriptors: u32) {
    let crc_length = 160u32.wrapping_add(attributes).wrapping_add(descriptors);
    put(sector, 10, &(crc_length as u16).to_le_bytes());
    put(sector, 168, &attributes.to_le_bytes());
    put(sector, 172, &descriptors.to_le_bytes());
}

/// Seals the sector for the block with a CRC over so many bytes, whatever its
/// CRC length says.
pub fn seal_over(sector: &mut [u8; SECTOR], block: u32, length: usize) {
    let sum = crc(&sector[16..16 + length]);
    put(sector, 8, &sum.to_le_bytes());
    put(sector, 12, &block.to_le_bytes());
    put_sum(sector);
}

/// Puts the right checksum of a tag: "sum of bytes 0 to 3 and 5 to 15, modulo 256".
pub fn put_sum(sector: &mut [u8; SECTOR]) {
    sector[4] = 0;
    let all = sector[..16].iter().map(|byte| u32::from(*byte));
    sector[4] = all.sum::<u32>() as u8;
}

/// The most bytes of attributes before a table of so many entries: "the whole
/// must stay below one sector" (document 02), and all its lengths are multiples
/// of 4.
pub fn most_attributes(size: usize) -> usize {
    SECTOR - 4 - ATTRIBUTES - table_length(size)
}
