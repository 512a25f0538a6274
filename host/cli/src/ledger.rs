//! What the ledger says: the map's entries, "then size, recorded, last table, mode",
//! 32 bits each, little-endian. A ledger of an older edition has fewer entries.

use std::fmt;

use station::UNUSED;

use crate::form::number;

/// Where the four behind the entries stand, in words before the ledger's end.
const SIZE: usize = 4;
const RECORDED: usize = 3;
const LAST_TABLE: usize = 2;
const MODE: usize = 1;

/// "1 (packet open) or 2 (looking only)"
const PACKET_OPEN: u32 = 1;
const LOOKING: u32 = 2;

/// The most ranges of numbers that are told where nobody needs all of them.
const MOST_TOLD: usize = 20;

/// The map of a ledger, and what stands behind it.
pub struct Map {
    pub size: u32,
    /// The numbers in use, ascending.
    pub used: Vec<u32>,
    /// The block of each number below the size, if it is in use.
    blocks: Vec<Option<u32>>,
    /// The block of the last table; after a mount or a look back, of the table that
    /// the map was read from.
    pub table: u32,
    pub packet_open: bool,
    /// Whether a look back has filled the ledger: "looking only".
    pub looking: bool,
}

/// A word of a whole ledger.
fn word(ledger: &[u8], place: usize) -> u32 {
    let bytes = &ledger[4 * place..][..4];
    u32::from_le_bytes([bytes[0], bytes[1], bytes[2], bytes[3]])
}

/// The word so many words before its end.
fn behind_entries(ledger: &[u8], place: usize) -> u32 {
    word(ledger, ledger.len() / 4 - place)
}

/// The block that the number names, if it is in use.
pub fn block_of(ledger: &[u8], v: u32) -> Option<u32> {
    let below_size = v < behind_entries(ledger, SIZE).min(limit(ledger));
    let entry = below_size.then(|| word(ledger, v as usize));
    entry.filter(|block| *block != UNUSED)
}

/// How many entries it has: no number is at or above that, whatever a file says.
fn limit(ledger: &[u8]) -> u32 {
    (ledger.len() / 4 - SIZE) as u32
}

/// How many sectors of the disc are recorded, by the ledger.
pub fn recorded(ledger: &[u8]) -> usize {
    behind_entries(ledger, RECORDED) as usize
}

impl Map {
    /// Of a whole ledger.
    pub fn of(ledger: &[u8]) -> Map {
        let size = behind_entries(ledger, SIZE).min(limit(ledger));
        let blocks: Vec<Option<u32>> = (0..size).map(|v| block_of(ledger, v)).collect();
        let in_use = |v: &u32| blocks[*v as usize].is_some();
        Map {
            size,
            used: (0..size).filter(in_use).collect(),
            blocks,
            table: behind_entries(ledger, LAST_TABLE),
            packet_open: behind_entries(ledger, MODE) == PACKET_OPEN,
            looking: behind_entries(ledger, MODE) == LOOKING,
        }
    }

    /// The block that the number names, if it is in use.
    pub fn block(&self, v: u32) -> Option<u32> {
        self.blocks.get(v as usize).copied().flatten()
    }

    /// The block of the last table, if there is one.
    pub fn last_table(&self) -> Option<u32> {
        Some(self.table).filter(|table| *table != UNUSED)
    }

    /// The numbers whose blocks no save names yet: what was recorded behind the last
    /// table is in none.
    pub fn written_since(&self) -> Vec<u32> {
        let last = self.last_table();
        let behind = |v: &u32| last.is_none_or(|table| self.block(*v) > Some(table));
        self.used.iter().copied().filter(behind).collect()
    }
}

/// For example `size 9, 4 in use: 0, 3 to 5`.
impl fmt::Display for Map {
    fn fmt(&self, out: &mut fmt::Formatter) -> fmt::Result {
        let (size, used) = (self.size as usize, self.used.len());
        write!(out, "size {}, {} in use", number(size), number(used))?;
        match self.used.is_empty() {
            true => Ok(()),
            false => write!(out, ": {}", briefly(&self.used)),
        }
    }
}

/// Numbers, or blocks by their places, for example `0, 3 to 5`.
pub fn in_words(numbers: &[u32]) -> String {
    ranges(numbers).join(", ")
}

/// The same; of many ranges the first ones and the last, where `contents` tells them all.
pub fn briefly(numbers: &[u32]) -> String {
    let mut ranges = ranges(numbers);
    if ranges.len() > MOST_TOLD {
        ranges.splice(MOST_TOLD - 1..ranges.len() - 1, ["...".into()]);
    }
    ranges.join(", ")
}

fn ranges(numbers: &[u32]) -> Vec<String> {
    let mut ranges: Vec<(u32, u32)> = Vec::new();
    for v in numbers {
        match ranges.last_mut() {
            Some((_, last)) if *last + 1 == *v => *last = *v,
            _ => ranges.push((*v, *v)),
        }
    }
    let words = ranges.into_iter().map(|(first, last)| match last - first {
        0 => first.to_string(),
        _ => format!("{first} to {last}"),
    });
    words.collect()
}

#[cfg(test)]
mod tests {
    use super::{briefly, in_words, MOST_TOLD};

    #[test]
    fn numbers_in_words() {
        assert_eq!(in_words(&[]), "");
        assert_eq!(in_words(&[0, 3, 4, 5, 7]), "0, 3 to 5, 7");
        assert_eq!(in_words(&[9, 2, 3, 3]), "9, 2 to 3, 3");
    }

    #[test]
    fn many_numbers_are_shortened() {
        let even = |count: usize| (0..count as u32).map(|v| 2 * v).collect::<Vec<u32>>();
        let most = even(MOST_TOLD);
        assert_eq!(briefly(&most), in_words(&most));
        let more = briefly(&even(MOST_TOLD + 1));
        assert!(more.starts_with("0, 2, 4, "), "{more}");
        assert!(more.ends_with(", 36, ..., 40"), "{more}");
    }
}
