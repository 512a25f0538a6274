//! The table sector at block b: a file entry (ECMA-167 4/14.9), the ICB of the VAT
//! (virtual allocation table). Behind its extended attributes stands the VAT itself,
//! or the descriptors of the sectors of its own that it lies in.
//!
//! [`recognise`] says whether a sector of kind 1 is one and what it holds;
//! [`embedded_icb`] and [`own_icb`] are the sectors that a save records, of either
//! form, over the [`table_bytes`] of its map.

use crate::extent::Extent;
use crate::fields::{put, u16_at, u32_at, u64_at};
use crate::own;
use crate::time::{Stamp, NO_STAMP};

/// "the image, 2048 bytes a sector"
pub const SECTOR: usize = 2048;

/// "hex FFFFFFFF": an unused entry or a missing table.
pub const NONE: u32 = 0xFFFF_FFFF;

/// "The limit becomes 4,087 numbers" (document 02).
pub const LIMIT: usize = 4087;

/// The flags' low three bits: "embedded"; and "allocation [...] type 0" (document 02).
const EMBEDDED: u16 = 3;
const IN_OWN_SECTORS: u16 = 0;

/// Byte 16: where the CRC starts, behind the tag.
const BODY: usize = 16;

/// ECMA-167 4/14.9: access time, modification time, attribute time.
const ACCESSED: usize = 72;
const MODIFIED: usize = 84;
const ATTRIBUTED: usize = 96;

/// Byte 176: where the extended attributes start, and behind them the table or its
/// descriptors.
pub const BEHIND_HEAD: usize = 176;

/// "Regid bytes 1 to 23 hold the text `*UDF Virtual Alloc Tbl` and one zero."
const VAT_NAME: [u8; 23] = *b"*UDF Virtual Alloc Tbl\0";

/// "implementation regid (128) flags 0, then `*Bench Station`, then zeros"
const IMPLEMENTATION_NAME: [u8; 14] = *b"*Bench Station";

/// What a table sector tells: of its table the "entries of 32 bits" and "the previous
/// table's block"; the "sectors of its own" that the table lies in, place by place,
/// none where it is embedded; and its "modification time", whatever it is (document
/// 02).
#[derive(Clone, Debug, PartialEq, Eq)]
pub struct Vat {
    pub map: Vec<u32>,
    pub previous: u32,
    pub own: Vec<u32>,
    pub modified: Stamp,
}

/// "The table length is 4 × N + 36 exactly."
pub fn table_length(entries: usize) -> usize {
    4 * entries + 36
}

/// "Table: entries of 32 bits, a 32-byte regid, the previous table's block (32 bits)";
/// we record "table regid flags 0, suffix hex 50 01 and six zeros".
pub fn table_bytes(map: &[u32], previous: u32) -> Vec<u8> {
    let mut table = vec![0; table_length(map.len())];
    for (v, block) in map.iter().enumerate() {
        put(&mut table, 4 * v, &block.to_le_bytes());
    }
    let regid = 4 * map.len();
    put(&mut table, regid + 1, &VAT_NAME);
    put(&mut table, regid + 24, &[0x50, 0x01]);
    put(&mut table, regid + 32, &previous.to_le_bytes());
    table
}

/// "CRC: 16 bits, polynomial hex 1021, start 0, high bit first"
pub fn crc(bytes: &[u8]) -> u16 {
    bytes.iter().fold(0, |crc, byte| crc_byte(crc, *byte))
}

fn crc_byte(crc: u16, byte: u8) -> u16 {
    (0..8).fold(crc ^ u16::from(byte) << 8, |crc, _| crc_bit(crc))
}

fn crc_bit(crc: u16) -> u16 {
    if crc & 0x8000 == 0 {
        crc << 1
    } else {
        crc << 1 ^ 0x1021
    }
}

/// "A sector of kind 1 is a table sector exactly if all of this holds"; the answer is
/// what the table tells. `data` has the bytes of each block of kind 1 on the disc.
pub fn recognise<'a>(
    sector: &[u8; SECTOR],
    b: u32,
    data: impl Fn(u32) -> Option<&'a [u8; SECTOR]>,
) -> Option<Vat> {
    if !is_vat_file(sector) {
        return None;
    }
    let field = allocation_field(sector, tagged_lengths(sector, b)?)?;
    let (table, own) = match allocation_type(sector) {
        EMBEDDED => (field.to_vec(), Vec::new()),
        IN_OWN_SECTORS => own::read(field, b, data)?,
        _ => return None,
    };
    let (map, previous) = parts(&table)?;
    let vat = Vat {
        map,
        previous,
        own,
        modified: std::array::from_fn(|at| sector[MODIFIED + at]),
    };
    let holds = u64_at(sector, 56) == table.len() as u64 && vat.points_below(b);
    holds.then_some(vat)
}

/// The lengths that a file entry names for what stands behind its head.
#[derive(Clone, Copy)]
pub struct Lengths {
    /// Bytes of extended attributes.
    pub attributes: u64,
    /// Bytes of an embedded table, or of allocation descriptors.
    pub descriptors: u64,
}

/// The lengths of bytes 168 and 172, if the tag, both sums and the location hold:
/// of a table sector, and of a run's entry, of which "Its tag, sums and location
/// hold as a table sector's do" (document 02). The CRC is the dearest test and
/// comes last.
pub fn tagged_lengths(sector: &[u8; SECTOR], b: u32) -> Option<Lengths> {
    let lengths = Lengths {
        attributes: u64::from(u32_at(sector, 168)),
        descriptors: u64::from(u32_at(sector, 172)),
    };
    (has_tag(sector, b) && has_crc(sector, lengths)).then_some(lengths)
}

/// Bytes 0 to 5 and 12 to 15: "tag identifier 261; descriptor version 2",
/// "sum [...] modulo 256; zero", "tag location = b".
fn has_tag(sector: &[u8; SECTOR], b: u32) -> bool {
    u16_at(sector, 0) == 261
        && u16_at(sector, 2) == 2
        && has_tag_sum(sector)
        && sector[5] == 0
        && u32_at(sector, 12) == b
}

/// Whether a tag, of whatever descriptor, has its right checksum in byte 4.
pub fn has_tag_sum(sector: &[u8; SECTOR]) -> bool {
    sector[4] == tag_sum(sector)
}

/// Bytes 8 and 10: "CRC; CRC length = 160 + attribute length + descriptor length",
/// and the CRC is "over CRC-length bytes from byte 16". The sums of lengths have 64
/// bits and the lengths 32, so none wraps.
fn has_crc(sector: &[u8; SECTOR], lengths: Lengths) -> bool {
    let crc_length = u16_at(sector, 10);
    let summed = sector.get(BODY..BODY + usize::from(crc_length));
    u64::from(crc_length) == 160 + lengths.attributes + lengths.descriptors
        && summed.is_some_and(|bytes| u16_at(sector, 8) == crc(bytes))
}

/// "sum of bytes 0 to 3 and 5 to 15, modulo 256"
fn tag_sum(sector: &[u8; SECTOR]) -> u8 {
    let summed = sector[0..4].iter().chain(&sector[5..16]);
    summed.fold(0, |sum: u8, byte| sum.wrapping_add(*byte))
}

/// Bytes 20, 27 and 48: "strategy 4", "file type 0", "link count 0".
fn is_vat_file(sector: &[u8; SECTOR]) -> bool {
    u16_at(sector, 20) == 4 && sector[27] == 0 && u16_at(sector, 48) == 0
}

/// Byte 34: "flags (16 bits): low three bits".
fn allocation_type(sector: &[u8; SECTOR]) -> u16 {
    u16_at(sector, 34) & 7
}

/// What "starts at 176 + attribute length (a multiple of 4)", so many bytes as the
/// descriptor length says: the table or its descriptors. "The whole must stay below
/// one sector" (document 02).
fn allocation_field(sector: &[u8; SECTOR], lengths: Lengths) -> Option<&[u8]> {
    let start = BEHIND_HEAD as u64 + lengths.attributes;
    let end = start + lengths.descriptors;
    let suit = lengths.attributes % 4 == 0 && end < SECTOR as u64;
    suit.then(|| &sector[start as usize..end as usize])
}

/// The entries and the previous block of a table: "N = (length − 36) / 4", and the
/// length is 4 × N + 36 exactly. Of the regid between them "Its flags (byte 0) and
/// suffix are not tested."
fn parts(table: &[u8]) -> Option<(Vec<u32>, u32)> {
    let regid = table.len().checked_sub(36)?;
    let suit = regid % 4 == 0 && table[regid + 1..][..VAT_NAME.len()] == VAT_NAME;
    let entries = (0..regid).step_by(4).map(|at| u32_at(table, at));
    suit.then(|| (entries.collect(), u32_at(table, regid + 32)))
}

impl Vat {
    /// "Each entry and the previous block is FFFFFFFF or less than b."
    fn points_below(&self, b: u32) -> bool {
        let mut blocks = self.map.iter().chain([&self.previous]);
        blocks.all(|block| *block == NONE || *block < b)
    }
}

/// "What commit records" at block b for a map of at most 458 entries, without a
/// timestamp.
pub fn vat_sector(b: u32, map: &[u32], previous: u32) -> [u8; SECTOR] {
    stamped_vat_sector(b, map, previous, &NO_STAMP)
}

/// The same with a timestamp.
pub fn stamped_vat_sector(b: u32, map: &[u32], previous: u32, stamp: &Stamp) -> [u8; SECTOR] {
    embedded_icb(b, &table_bytes(map, previous), stamp)
}

/// Whether a table of so many bytes can be embedded: "ICB and file together be less
/// than a sector: 176 + 4 × N + 36 < 2048, so N is at most 458". "Ours of up to 458
/// stay embedded" (document 02).
pub fn is_embedded(table_length: usize) -> bool {
    BEHIND_HEAD + table_length < SECTOR
}

/// The ICB at block b with the table in it.
pub fn embedded_icb(b: u32, table: &[u8], stamp: &Stamp) -> [u8; SECTOR] {
    let mut sector = file_entry(table.len(), table.len() as u64);
    put(&mut sector, 34, &EMBEDDED.to_le_bytes());
    put(&mut sector, BEHIND_HEAD, table);
    finish(sector, b, stamp)
}

/// The ICB at block b of a table that lies in these sectors: "The descriptor length is
/// 8 times the number of own sectors; we record that number as logical blocks" (byte
/// 64, 64 bits; document 02).
pub fn own_icb(b: u32, own: &[Extent], stamp: &Stamp) -> [u8; SECTOR] {
    let total = own.iter().map(|extent| u64::from(extent.length)).sum();
    let mut sector = file_entry(Extent::BYTES * own.len(), total);
    put(&mut sector, 34, &IN_OWN_SECTORS.to_le_bytes());
    put(&mut sector, 64, &(own.len() as u64).to_le_bytes());
    for (place, extent) in own.iter().enumerate() {
        extent.put(&mut sector, BEHIND_HEAD + Extent::BYTES * place);
    }
    finish(sector, b, stamp)
}

/// "A second form of commit takes a 12-byte ECMA-167 timestamp and records it as
/// access, modification and attribute time" (document 02).
fn finish(mut sector: [u8; SECTOR], b: u32, stamp: &Stamp) -> [u8; SECTOR] {
    for time in [ACCESSED, MODIFIED, ATTRIBUTED] {
        put(&mut sector, time, stamp);
    }
    seal(&mut sector, b);
    sector
}

/// A file entry's head, for a table or for a run, with so many bytes behind it and
/// this information length: "the fields above [...] maximum entries (byte 24, 16
/// bits) 1; user and group (36 and 40, 32 bits) FFFFFFFF; checkpoint (108, 32 bits)
/// 1". Of attributes "Our commit [...] records none" (document 02).
pub fn file_entry(descriptors: usize, information: u64) -> [u8; SECTOR] {
    let mut sector = [0; SECTOR];
    put(&mut sector, 0, &261u16.to_le_bytes());
    put(&mut sector, 2, &2u16.to_le_bytes());
    put(&mut sector, 10, &(160 + descriptors as u16).to_le_bytes());
    put(&mut sector, 20, &4u16.to_le_bytes());
    put(&mut sector, 24, &1u16.to_le_bytes());
    put(&mut sector, 36, &NONE.to_le_bytes());
    put(&mut sector, 40, &NONE.to_le_bytes());
    put(&mut sector, 56, &information.to_le_bytes());
    put(&mut sector, 108, &1u32.to_le_bytes());
    put(&mut sector, 129, &IMPLEMENTATION_NAME);
    put(&mut sector, 172, &(descriptors as u32).to_le_bytes());
    sector
}

/// Puts the location and the right sums into a tag: the CRC over CRC-length
/// bytes, as far as the sector has them, and then the sum, which covers it.
pub fn seal(sector: &mut [u8; SECTOR], b: u32) {
    let end = SECTOR.min(BODY + usize::from(u16_at(sector, 10)));
    let crc = crc(&sector[BODY..end]);
    put(sector, 8, &crc.to_le_bytes());
    put(sector, 12, &b.to_le_bytes());
    sector[4] = tag_sum(sector);
}
