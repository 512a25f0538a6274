//! The files of the edition before this one, whose ledger had 458 entries: made from those
//! that this one has left.

use super::Folder;
use station::{LEDGER, SECTOR, UNUSED};

/// "458 map entries, then size, recorded, last table, mode, each 32 bits"
const ENTRIES: usize = 458;

/// The ledger and the roles beside `run.disc` as the older edition would have kept them.
pub fn made_older(folder: &Folder) {
    let ledger = folder.ledger();
    let entries = &ledger[..4 * ENTRIES];
    let older = [entries, &ledger[LEDGER - 16..]].concat();
    let file = [&older[..], &mark(folder, &older)].concat();
    folder.put("run.disc.roles", &[&file[..], &folder.roles()].concat());
    folder.put("run.disc.ledger", &file);
}

fn word(ledger: &[u8], place: usize) -> u32 {
    let bytes = ledger[4 * place..][..4].try_into();
    u32::from_le_bytes(bytes.expect("four bytes"))
}

/// The sum over the ledger, how many sectors there are, the kinds of those that are
/// recorded, and the last of these, the last table, and each block that no save names.
fn mark(folder: &Folder, ledger: &[u8]) -> [u8; 8] {
    let kinds = folder.kinds();
    let kinds: Vec<u8> = kinds.bytes().map(|digit| digit - b'0').collect();
    let recorded = word(ledger, ENTRIES + 1);
    let table = Some(word(ledger, ENTRIES + 2)).filter(|table| *table != UNUSED);
    let mut sum = 0;
    add(&mut sum, ledger);
    add(&mut sum, &(kinds.len() as u64).to_le_bytes());
    add(&mut sum, &kinds[..recorded as usize]);
    let entries = (0..ENTRIES).map(|v| word(ledger, v));
    let unsaved = entries.filter(|block| *block != UNUSED && Some(*block) > table);
    let last = recorded.checked_sub(1);
    for block in last.into_iter().chain(table).chain(unsaved) {
        if kinds[block as usize] == 1 {
            let sector = folder.sector(block as usize);
            assert_eq!(sector.len(), SECTOR);
            add(&mut sum, &sector);
        }
    }
    sum.to_le_bytes()
}

/// Words of eight bytes, the last filled up with zeros, if need be a whole one; and how
/// many bytes there were.
fn add(sum: &mut u64, bytes: &[u8]) {
    let mut filled = bytes.to_vec();
    filled.resize(bytes.len() / 8 * 8 + 8, 0);
    filled.extend((bytes.len() as u64).to_le_bytes());
    for word in filled.chunks(8) {
        let word = u64::from_le_bytes(word.try_into().expect("eight bytes"));
        let product = u128::from(sum.wrapping_add(1) ^ word) * 0x9E37_79B9_7F4A_7C15;
        *sum = (product ^ (product >> 64)) as u64;
    }
}
