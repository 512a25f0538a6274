//! The entries of runs, the numbers in use, and of each sector whether it is a part of a
//! run in use. Whether a block is an entry, the core says.
//!
//! A run's entry has a number, and its parts have none. So their role tells that no
//! number names them, and does not tell that one leads to them: superseded after a
//! mount, without a number before it.

use station::{Extent, Refusal, Role, SECTOR};

use crate::form::Disc;
use crate::icb;
use crate::ledger::{block_of, Map};

/// Of an entry, a file entry of ECMA-167 4/14.9: its tag identifier, 261; the file type of
/// an ordinary file; where its information length stands, 64 bits.
const IDENTIFIER: [u8; 2] = [5, 1];
const ORDINARY: u8 = 5;
const INFORMATION_LENGTH: usize = 56;

/// How many bytes the run has whose entry the number names, or why it names none.
pub fn length(disc: &Disc, ledger: &[u8], v: u32) -> Result<u64, Refusal> {
    let (image, kinds) = disc.lent();
    station::view(image, kinds, ledger, v, 0, &mut [])?;
    let entry = block(disc, ledger, v).unwrap_or_default();
    let length = entry.get(INFORMATION_LENGTH..);
    let length = length.and_then(<[u8]>::first_chunk);
    Ok(u64::from_le_bytes(*length.unwrap_or(&[0; 8])))
}

/// Whether the number's block calls itself the entry of a run. If it is none then,
/// something of the run is lost.
pub fn calls_itself_one(disc: &Disc, ledger: &[u8], v: u32) -> bool {
    let entry = block(disc, ledger, v).unwrap_or_default();
    entry.starts_with(&IDENTIFIER) && entry.get(icb::FILE_TYPE) == Some(&ORDINARY)
}

/// The bytes of the block that the number names.
fn block<'a>(disc: &'a Disc, ledger: &[u8], v: u32) -> Option<&'a [u8]> {
    let (image, _) = disc.lent();
    icb::sector(image, block_of(ledger, v)?)
}

/// A number in use.
pub struct Number {
    pub v: u32,
    pub block: usize,
    /// Whether the block is a run's entry.
    pub run: bool,
}

/// What the numbers of a map lead to.
pub struct InUse {
    /// By their blocks, ascending.
    pub numbers: Vec<Number>,
    /// Of each sector, the number of the run that it is a part of; of several, the
    /// one that comes to it first.
    pub parts: Vec<Option<u32>>,
}

/// An extent of a run: its blocks from the first to before the end.
type Stretch = (usize, usize, u32);

impl InUse {
    /// By the ledger's map, on a disc whose sectors have these roles. The core says
    /// what is a run's entry.
    pub fn of(disc: &Disc, ledger: &[u8], roles: &[u8]) -> InUse {
        let (image, kinds) = disc.lent();
        let map = Map::of(ledger);
        let (mut numbers, mut stretches) = (Vec::new(), Vec::new());
        for &v in &map.used {
            let run = station::view(image, kinds, ledger, v, 0, &mut []).is_ok();
            let mut entry = [0; SECTOR];
            if run && station::read(image, kinds, ledger, v, &mut entry).is_ok() {
                let extents = icb::extents(&entry).into_iter();
                stretches.extend(extents.map(|extent| stretch(extent, v)));
            }
            let block = map.block(v).unwrap_or_default() as usize;
            numbers.push(Number { v, block, run });
        }
        numbers.sort_by_key(|number| number.block);
        let parts = parts(stretches, roles);
        InUse { numbers, parts }
    }
}

fn stretch(extent: Extent, v: u32) -> Stretch {
    let first = extent.location as usize;
    (first, first + (extent.length as usize).div_ceil(SECTOR), v)
}

/// Only what no number names is a part: the others are told as what they are. Each
/// sector is looked at once, however many runs share it.
fn parts(mut stretches: Vec<Stretch>, roles: &[u8]) -> Vec<Option<u32>> {
    let named_by_none = [Role::Superseded, Role::WithoutNumber].map(Role::number);
    let mut parts = vec![None; roles.len()];
    let mut looked_at = 0;
    stretches.sort_unstable();
    for (first, end, v) in stretches {
        for block in first.max(looked_at)..end.min(roles.len()) {
            parts[block] = Some(v).filter(|_| named_by_none.contains(&roles[block]));
        }
        looked_at = looked_at.max(end);
    }
    parts
}

#[cfg(test)]
mod tests {
    use super::{parts, stretch};
    use station::{Extent, LIMIT, MOST_EXTENTS, MOST_SECTORS};

    #[test]
    fn only_what_no_number_names() {
        let roles = [0, 1, 2, 3, 4, 5, 1, 1, 6];
        let one = parts(vec![(0, 7, 4)], &roles);
        let some = Some(4);
        assert_eq!(one, [None, some, some, None, None, None, some, None, None]);
        assert_eq!(parts(vec![], &roles), [None; 9]);
        assert_eq!(parts(vec![(8, 12, 4)], &[1; 9])[7..], [None, some]);
    }

    #[test]
    fn runs_that_share_sectors() {
        let shared = parts(vec![(4, 8, 0), (2, 6, 1), (3, 4, 2)], &[1; 9]);
        let digit = |part: &Option<u32>| part.map_or("-".into(), |v| v.to_string());
        assert_eq!(shared.iter().map(digit).collect::<String>(), "--111100-");
    }

    /// As many runs as there are numbers, each of as many extents as an entry names,
    /// and each of these nearly the whole disc.
    #[test]
    fn each_sector_is_looked_at_once() {
        let of_entry = |v| (0..MOST_EXTENTS).map(move |place| (place, MOST_SECTORS, v));
        let all = (0..LIMIT).flat_map(of_entry);
        let parts = parts(all.collect(), &vec![1; MOST_SECTORS]);
        assert!(parts.iter().all(|part| *part == Some(0)));
    }

    #[test]
    fn the_sectors_of_an_extent() {
        for (length, end) in [(1, 8), (2048, 8), (2049, 9), (4096, 9)] {
            let location = 7;
            assert_eq!(stretch(Extent { length, location }, 5), (7, end, 5));
        }
    }
}
