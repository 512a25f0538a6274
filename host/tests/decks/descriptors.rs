//! ECMA-167 descriptors, as far as these tests look into them or alter them.
//!
//! Written from ECMA-167 and documents 01 and 02 for these tests alone: neither
//! the core nor the model has a part in it.

use std::ops::Range;

use station::{Extent, SECTOR};

/// An unused entry, or no previous table.
pub const NONE: u32 = 0xFFFF_FFFF;

/// Tag identifiers (ECMA-167 3/7.2.1 and 4/7.2.1).
const ANCHOR: u16 = 2;
const PARTITION: u16 = 5;
const LOGICAL_VOLUME: u16 = 6;
const FILE_ENTRY: u16 = 261;
const EXTENDED_FILE_ENTRY: u16 = 266;

/// File types of a table: 0 in UDF 1.50, 248 from UDF 2.00 on.
const VAT_TYPES: [u8; 2] = [0, 248];

pub fn u16_at(bytes: &[u8], at: usize) -> u16 {
    u16::from_le_bytes(bytes[at..at + 2].try_into().expect("two bytes"))
}

pub fn u32_at(bytes: &[u8], at: usize) -> u32 {
    u32::from_le_bytes(bytes[at..at + 4].try_into().expect("four bytes"))
}

fn u64_at(bytes: &[u8], at: usize) -> u64 {
    u64::from_le_bytes(bytes[at..at + 8].try_into().expect("eight bytes"))
}

pub fn put(bytes: &mut [u8], at: usize, field: &[u8]) {
    bytes[at..at + field.len()].copy_from_slice(field);
}

/// The descriptor CRC (ECMA-167 3/7.2.6), by long division of the bits.
fn crc(bytes: &[u8]) -> u16 {
    let mut rest: u32 = 0;
    for byte in bytes {
        rest ^= u32::from(*byte) << 8;
        for _ in 0..8 {
            rest <<= 1;
            if rest > 0xFFFF {
                rest ^= 0x1_1021;
            }
        }
    }
    rest as u16
}

/// Sum of the tag's bytes without its own place (ECMA-167 3/7.2.3).
fn tag_sum(sector: &[u8]) -> u8 {
    let all: u32 = sector[..16].iter().map(|byte| u32::from(*byte)).sum();
    (all - u32::from(sector[4])) as u8
}

/// Puts the right sums: the CRC over CRC-length bytes, and then the tag's.
pub fn seal(sector: &mut [u8]) {
    seal_over(sector, usize::from(u16_at(sector, 10)));
}

/// The same with a CRC over so many bytes, whatever the tag says of them.
pub fn seal_over(sector: &mut [u8], length: usize) {
    let sum = crc(&sector[16..16 + length]);
    put(sector, 8, &sum.to_le_bytes());
    sector[4] = tag_sum(sector);
}

/// Whether a tag with one of these identifiers and this location stands here.
/// Its sum tells a tag from other bytes.
fn is_tagged(sector: &[u8], identifiers: &[u16], location: usize) -> bool {
    identifiers.contains(&u16_at(sector, 0))
        && sector[4] == tag_sum(sector)
        && u32_at(sector, 12) as usize == location
}

/// The partition: its first sector on the volume, and how many it has room for
/// (ECMA-167 3/10.5, bytes 188 and 192).
pub fn partition(volume: &[u8]) -> Range<usize> {
    let mut sectors = volume.chunks_exact(SECTOR).enumerate();
    let found = sectors.find(|(n, sector)| is_tagged(sector, &[PARTITION], *n));
    let (_, descriptor) = found.expect("a partition descriptor");
    let start = u32_at(descriptor, 188) as usize;
    start..start + u32_at(descriptor, 192) as usize
}

/// Takes every anchor from the volume, and tells the main and the reserve extent
/// that they named (ECMA-167 3/10.2, bytes 16 and 24).
pub fn wipe_anchors(volume: &mut [u8]) -> [Extent; 2] {
    let mut named = Vec::new();
    for (n, sector) in volume.chunks_exact_mut(SECTOR).enumerate() {
        if is_tagged(sector, &[ANCHOR], n) {
            named.push([16, 24].map(|at| Extent {
                length: u32_at(sector, at),
                location: u32_at(sector, at + 4),
            }));
            sector.fill(0);
        }
    }
    named.dedup();
    assert_eq!(named.len(), 1, "all anchors name the same extents");
    named[0]
}

/// Lets both logical volume descriptors name this virtual number as the place
/// of the file set descriptor (ECMA-167 3/10.6.7: bytes 248 to 263 are the
/// extent, bytes 252 to 255 its block; mkudffs names the virtual partition).
pub fn name_file_set(volume: &mut [u8], number: u32) {
    let mut named = 0;
    for (n, sector) in volume.chunks_exact_mut(SECTOR).enumerate() {
        if is_tagged(sector, &[LOGICAL_VOLUME], n) {
            put(sector, 252, &number.to_le_bytes());
            seal(sector);
            named += 1;
        }
    }
    assert_eq!(named, 2, "descriptors of the logical volume");
}

/// The file set descriptor under another name, to be recorded as this virtual
/// number (ECMA-167 4/14.1). The name is a dstring of 32 bytes at byte 304; the
/// tag location of what is read through a table is the virtual number.
pub fn renamed_file_set(sector: &[u8], name: &str, number: u32) -> Vec<u8> {
    let mut renamed = sector.to_vec();
    let mut dstring = [0; 32];
    dstring[0] = 8;
    put(&mut dstring, 1, name.as_bytes());
    dstring[31] = 1 + name.len() as u8;
    put(&mut renamed, 304, &dstring);
    put(&mut renamed, 12, &number.to_le_bytes());
    seal(&mut renamed);
    renamed
}

/// The blocks that hold a VAT ICB of any edition: a file entry of either form
/// with a table's file type, tagged for the block where it stands.
pub fn vat_icbs(image: &[u8]) -> Vec<usize> {
    let forms = [FILE_ENTRY, EXTENDED_FILE_ENTRY];
    let sectors = image.chunks_exact(SECTOR).enumerate();
    let found = sectors.filter(|(block, sector)| {
        is_tagged(sector, &forms, *block) && VAT_TYPES.contains(&sector[27])
    });
    found.map(|(block, _)| block).collect()
}

/// The block that holds a directory's file entry, tagged for it: the root's alone.
pub fn root_entry(image: &[u8]) -> usize {
    let sectors = image.chunks_exact(SECTOR).enumerate();
    let found: Vec<usize> = sectors
        .filter(|(block, sector)| is_tagged(sector, &[FILE_ENTRY], *block) && sector[27] == 4)
        .map(|(block, _)| block)
        .collect();
    assert_eq!(found.len(), 1, "one directory");
    found[0]
}

/// A file entry's short allocation descriptors (ECMA-167 4/14.14.1), behind its
/// attributes; the type is in the length's high bits.
pub fn extents(sector: &[u8]) -> Vec<Extent> {
    let descriptors = table(sector).chunks_exact(8);
    descriptors
        .map(|descriptor| Extent {
            length: u32_at(descriptor, 0),
            location: u32_at(descriptor, 4),
        })
        .collect()
}

/// A file entry's extended attributes. Like its table, they are empty where
/// their lengths leave the sector.
pub fn attributes(sector: &[u8]) -> &[u8] {
    sector.get(176..table_start(sector)).unwrap_or_default()
}

/// A table in a file entry: it stands behind the extended attributes.
fn table(sector: &[u8]) -> &[u8] {
    let start = table_start(sector);
    let end = start + u32_at(sector, 172) as usize;
    sector.get(start..end).unwrap_or_default()
}

fn table_start(sector: &[u8]) -> usize {
    176 + u32_at(sector, 168) as usize
}

/// The entries of a UDF 1.50 table that is embedded.
pub fn entries(sector: &[u8]) -> Vec<u32> {
    entries_of(table(sector))
}

/// The entries of a UDF 1.50 table; 36 bytes stand behind them.
fn entries_of(table: &[u8]) -> Vec<u32> {
    let entries = table
        .chunks_exact(4)
        .take(table.len().saturating_sub(36) / 4);
    entries.map(|entry| u32_at(entry, 0)).collect()
}

/// The entries of a UDF 1.50 table that lies in the extents of its file entry
/// (allocation type 0, ECMA-167 4/14.6.8), and the block behind its regid.
pub fn recorded_entries(image: &[u8], sector: &[u8]) -> (Vec<u32>, u32) {
    let mut table = Vec::new();
    for Extent { length, location } in extents(sector) {
        let start = location as usize * SECTOR;
        table.extend(&image[start..start + length as usize]);
    }
    assert_eq!(u64_at(sector, 56), table.len() as u64, "information length");
    let previous = u32_at(&table, table.len() - 4);
    (entries_of(&table), previous)
}

/// A UDF 1.50 table (UDF 1.50 2.2.10): its entries, the identifier of a table with its
/// suffix for UDF (2.1.5.3: revision 1.50, and no operating system), and the previous
/// table's block.
pub fn table_of(map: &[u32], previous: u32) -> Vec<u8> {
    let mut table: Vec<u8> = map.iter().flat_map(|entry| entry.to_le_bytes()).collect();
    let mut regid = [0; 32];
    put(&mut regid, 1, b"*UDF Virtual Alloc Tbl");
    put(&mut regid, 24, &0x0150u16.to_le_bytes());
    table.extend(regid);
    table.extend(previous.to_le_bytes());
    table
}

/// A file entry as it is, but for the block where it stands and its contents, which are
/// recorded in these extents (ECMA-167 4/14.9): the flags' allocation type 0 (4/14.6.8),
/// information length, logical blocks recorded, and short allocation descriptors
/// (4/14.14.1) behind its attributes.
pub fn recorded_in(sector: &[u8], block: usize, extents: &[Extent]) -> Vec<u8> {
    let attributes = attributes(sector).len();
    let mut entry = sector[..176 + attributes].to_vec();
    for extent in extents {
        entry.extend(extent.length.to_le_bytes());
        entry.extend(extent.location.to_le_bytes());
    }
    let crc_length = entry.len() as u16 - 16;
    let total: u64 = extents.iter().map(|extent| u64::from(extent.length)).sum();
    entry.resize(SECTOR, 0);
    put(&mut entry, 10, &crc_length.to_le_bytes());
    put(&mut entry, 12, &(block as u32).to_le_bytes());
    entry[34] &= !7;
    put(&mut entry, 56, &total.to_le_bytes());
    put(&mut entry, 64, &(extents.len() as u64).to_le_bytes());
    put(&mut entry, 172, &(8 * extents.len() as u32).to_le_bytes());
    seal(&mut entry);
    entry
}

/// Puts a file entry's table behind other extended attributes and says so in its
/// lengths and sums.
pub fn with_attributes(sector: &[u8], attributes: &[u8]) -> Vec<u8> {
    let table = table(sector);
    let mut other = [&sector[..176], attributes, table].concat();
    other.resize(SECTOR, 0);
    let length = 160 + attributes.len() + table.len();
    put(&mut other, 10, &(length as u16).to_le_bytes());
    put(&mut other, 168, &(attributes.len() as u32).to_le_bytes());
    seal(&mut other);
    other
}

/// The documents' rows that a file entry at this block does not keep, by name.
pub fn rows_not_kept(sector: &[u8], block: usize) -> Vec<&'static str> {
    let mut rows = Vec::from(tag_rows(sector, block));
    rows.extend(entry_rows(sector));
    rows.extend(table_rows(sector, block));
    let not_kept = rows.into_iter().filter(|(_, kept)| !kept);
    not_kept.map(|(row, _)| row).collect()
}

/// Document 02's rows of a run's entry that a file entry at this block does not keep,
/// by name, on a disc that is all data.
pub fn run_rows_not_kept(sector: &[u8], block: usize) -> Vec<&'static str> {
    let mut rows = Vec::from(tag_rows(sector, block));
    rows.extend(run_rows(sector, block));
    let not_kept = rows.into_iter().filter(|(_, kept)| !kept);
    not_kept.map(|(row, _)| row).collect()
}

/// Bytes 20 to 175 and the allocation descriptors: "file type 5, [...] strategy 4, no
/// attributes, allocation type 0"; "1 to 100 short allocation descriptors of extent
/// type 0"; "below the entry's block, whole sectors but the last, none empty".
fn run_rows(sector: &[u8], block: usize) -> [Row; 7] {
    let extents = extents(sector);
    let (count, length) = (extents.len(), u32_at(sector, 172) as usize);
    let total: u64 = extents.iter().map(|extent| u64::from(extent.length)).sum();
    let below = |extent: &Extent| {
        extent.location as usize + (extent.length as usize).div_ceil(SECTOR) <= block
    };
    let held = |(m, extent): (usize, &Extent)| {
        let whole = extent.length as usize % SECTOR == 0 || m + 1 == count;
        whole && (1..1 << 30).contains(&extent.length)
    };
    let suit = (1..=100).contains(&count) && 8 * count == length;
    [
        ("strategy", u16_at(sector, 20) == 4),
        ("file type", sector[27] == 5),
        ("allocation type", sector[34] % 8 == 0),
        ("extents", suit && extents.iter().enumerate().all(held)),
        ("extents below the entry", extents.iter().all(below)),
        ("information length", u64_at(sector, 56) == total),
        ("attribute length", u32_at(sector, 168) == 0),
    ]
}

type Row = (&'static str, bool);

/// Bytes 0 to 15.
fn tag_rows(sector: &[u8], block: usize) -> [Row; 7] {
    let length = usize::from(u16_at(sector, 10));
    let described = 160 + u64::from(u32_at(sector, 168)) + u64::from(u32_at(sector, 172));
    [
        ("tag identifier", u16_at(sector, 0) == FILE_ENTRY),
        ("descriptor version", u16_at(sector, 2) == 2),
        ("tag sum", sector[4] == tag_sum(sector)),
        ("zero byte 5", sector[5] == 0),
        ("CRC", u16_at(sector, 8) == crc(&sector[16..16 + length])),
        ("CRC length", length as u64 == described),
        ("tag location", u32_at(sector, 12) as usize == block),
    ]
}

/// Bytes 20 to 171. Of the attribute length document 02 says that it is "a
/// multiple of 4, and the whole must stay below one sector".
fn entry_rows(sector: &[u8]) -> [Row; 6] {
    let attributes = u64::from(u32_at(sector, 168));
    let length = u64::from(u32_at(sector, 172));
    let suits = attributes % 4 == 0 && 176 + attributes + length < 2048;
    [
        ("strategy", u16_at(sector, 20) == 4),
        ("file type", sector[27] == 0),
        ("flags", u16_at(sector, 34) & 7 == 3),
        ("link count", u16_at(sector, 48) == 0),
        ("information length", u64_at(sector, 56) == length),
        ("attribute length", suits),
    ]
}

/// The table: entries, regid, previous block.
fn table_rows(sector: &[u8], block: usize) -> [Row; 3] {
    let table = table(sector);
    let count = table.len().saturating_sub(36) / 4;
    let regid = 4 * count;
    let text = table.get(regid + 1..regid + 24).unwrap_or_default();
    let previous = table.get(regid + 32..).unwrap_or_default();
    let mut blocks = entries(sector);
    blocks.extend(previous.chunks_exact(4).map(|entry| u32_at(entry, 0)));
    let below = |b: &u32| *b == NONE || (*b as usize) < block;
    [
        ("table length", table.len() == 4 * count + 36),
        ("regid text", text == b"*UDF Virtual Alloc Tbl\0"),
        ("entries and previous", blocks.iter().all(below)),
    ]
}
