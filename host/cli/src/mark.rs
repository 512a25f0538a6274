//! The mark by which a ledger is known to belong to a disc.
//!
//! The core sees whether a ledger fits a disc: whether what it names can be there.
//! It cannot see whether it was made for this disc. Where another disc file of the same
//! shape takes the place of the one that a ledger was kept for, the ledger fits, and
//! names blocks for what they are not. So a ledger file holds behind the ledger a sum
//! over what the ledger relies on, and where the disc beside it gives another sum, the
//! ledger counts as missing.

use station::LEDGER;

use crate::form::Disc;
use crate::icb;
use crate::kinds::DATA;
use crate::ledger::{recorded, Map};

/// Bytes of a mark.
const MARK: usize = 8;

/// Bytes of a whole ledger file.
pub const MARKED: usize = LEDGER + MARK;

/// Bytes of the ledger of the editions before, whose numbers ended at 457.
const OLDER: usize = 1848;

/// The ledger file of this disc and this ledger.
pub fn marked(disc: &Disc, ledger: &[u8]) -> Vec<u8> {
    [ledger, &mark(disc, ledger)].concat()
}

/// The ledger in a file, if it was kept for this disc: as it is now, or as it was when
/// fewer sectors were recorded, which stay as they were.
pub fn belonging<'a>(disc: &Disc, file: &'a [u8]) -> Option<&'a [u8]> {
    kept_for(disc, file, LEDGER)
}

/// The same, if an older edition kept it: it names blocks as they are, but no call can be
/// lent it.
pub fn older<'a>(disc: &Disc, file: &'a [u8]) -> Option<&'a [u8]> {
    kept_for(disc, file, OLDER)
}

fn kept_for<'a>(disc: &Disc, file: &'a [u8], length: usize) -> Option<&'a [u8]> {
    let (ledger, behind) = file.split_at_checked(length)?;
    (behind == mark(disc, ledger)).then_some(ledger)
}

/// The ledger in a file that has a mark.
pub fn unmarked(file: &[u8]) -> &[u8] {
    &file[..file.len() - MARK]
}

/// Summed are the ledger itself, how many sectors the disc has, the kinds of those that
/// the ledger knows as recorded, and the bytes of the sectors that it relies on: the
/// last of them, the last table with its own sectors, and every block that no save names
/// yet. What the last table names is what a mount would show, and needs no sum.
fn mark(disc: &Disc, ledger: &[u8]) -> [u8; MARK] {
    let (image, kinds) = disc.lent();
    let known = &kinds[..recorded(ledger).min(kinds.len())];
    let map = Map::of(ledger);
    let last = (known.len() as u32).checked_sub(1);
    let table = map.last_table();
    let own = table.map(|table| icb::own_sectors(image, table));
    let unsaved = map.written_since().into_iter().filter_map(|v| map.block(v));
    let relied_on = last.into_iter().chain(table);
    let relied_on = relied_on.chain(own.into_iter().flatten()).chain(unsaved);
    let mut sum = Sum(0);
    sum.add(ledger);
    sum.add(&(kinds.len() as u64).to_le_bytes());
    sum.add(known);
    for block in relied_on {
        let bytes = icb::sector(image, block);
        if let Some((DATA, bytes)) = known.get(block as usize).copied().zip(bytes) {
            sum.add(bytes);
        }
    }
    sum.0.to_le_bytes()
}

/// A sum of 64 bits in which every bit and every place counts. It guards against slips,
/// and not against somebody who wants a false ledger to be believed.
struct Sum(u64);

impl Sum {
    /// Eight bytes at a time: a long row of kinds is summed at each command.
    fn add(&mut self, bytes: &[u8]) {
        let words = bytes.chunks_exact(8);
        let mut rest = [0; 8];
        rest[..words.remainder().len()].copy_from_slice(words.remainder());
        for word in words {
            self.step(word.try_into().unwrap_or_default());
        }
        self.step(rest);
        self.step((bytes.len() as u64).to_le_bytes());
    }

    fn step(&mut self, word: [u8; 8]) {
        const FACTOR: u128 = 0x9E37_79B9_7F4A_7C15;
        let mixed = self.0.wrapping_add(1) ^ u64::from_le_bytes(word);
        let product = u128::from(mixed) * FACTOR;
        self.0 = (product ^ (product >> 64)) as u64;
    }
}
