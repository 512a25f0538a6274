//! A save read from its bytes, apart from the model's: the ICB, its own sectors, and
//! which of them are those of the table named as previous.

use station_model::fields::{u16_at, u32_at, u64_at};
use station_model::table::{table_bytes, vat_sector, NONE, SECTOR};

use super::station::Station;

/// The blocks of the own sectors that a table sector names; none if it is embedded.
pub fn named_by(sector: &[u8; SECTOR]) -> Vec<u32> {
    let first = 176 + u32_at(sector, 168) as usize;
    let count = match sector[34] % 8 {
        0 => u32_at(sector, 172) as usize / 8,
        _ => 0,
    };
    (0..count)
        .map(|place| u32_at(sector, first + 8 * place + 4))
        .collect()
}

/// The bytes of a table at a place, with zeros to the end of the last.
fn bytes_at(table: &[u8], place: usize) -> [u8; SECTOR] {
    let mut bytes = [0; SECTOR];
    let held = &table[SECTOR * place..table.len().min(SECTOR * (place + 1))];
    bytes[..held.len()].copy_from_slice(held);
    bytes
}

/// The lengths of an ICB that names so many own sectors, and nothing behind them.
fn assert_lengths(icb: &[u8; SECTOR], table_length: usize, count: usize) {
    assert_eq!(u16_at(icb, 34), 0, "allocation type");
    assert_eq!(u64_at(icb, 56), table_length as u64, "information length");
    assert_eq!(u64_at(icb, 64), count as u64, "logical blocks");
    assert_eq!(usize::from(u16_at(icb, 10)), 160 + 8 * count, "CRC length");
    assert_eq!((u32_at(icb, 168), u32_at(icb, 172)), (0, 8 * count as u32));
    assert!(icb[176 + 8 * count..].iter().all(|byte| *byte == 0));
    for place in 0..count {
        let length = SECTOR.min(table_length - SECTOR * place);
        assert_eq!(u32_at(icb, 176 + 8 * place) as usize, length);
    }
}

/// Reads the save that a commit of this ledger left at the block; how many own sectors
/// it recorded.
pub fn assert_saved(before: &Station, after: &Station, block: u32) -> usize {
    let volume = before.volume();
    let icb = after.sector(block);
    let table = table_bytes(volume.entries(), volume.last_vat);
    let first = volume.recorded + volume.links();
    if volume.size <= 458 {
        assert_eq!(icb, &vat_sector(first, volume.entries(), volume.last_vat));
        return 0;
    }
    let count = table.len().div_ceil(SECTOR);
    assert_lengths(icb, table.len(), count);
    let last = match volume.last_vat {
        NONE => Vec::new(),
        last => named_by(before.sector(last)),
    };
    let mut free = first;
    for (place, named) in named_by(icb).into_iter().enumerate() {
        let bytes = bytes_at(&table, place);
        assert!(after.sector(named) == &bytes, "bytes of place {place}");
        let again = last.get(place).filter(|old| before.sector(**old) == &bytes);
        match again {
            Some(old) => assert_eq!(named, *old, "place {place} is named again"),
            None => {
                assert_eq!(named, free, "place {place} is recorded");
                free += 1;
            }
        }
    }
    assert_eq!(free, block, "the ICB is the last");
    (free - first) as usize
}
