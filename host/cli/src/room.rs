//! The room on a disc, and what the next save takes of it, for the sentences about them.
//! The core itself says whether a call has room.

use station::{recorded, SECTOR, UNUSED};

use crate::form::Disc;
use crate::icb;
use crate::kinds::DATA;
use crate::ledger::Map;

/// "first record seven link sectors"
const LINKS: usize = 7;

/// "a write leaves 16 below 1,000 sectors, 264 from there on"
const LARGE: usize = 1000;
const LEFT: usize = 16;
const LEFT_ON_A_LARGE_ONE: usize = 264;

/// The most numbers of a table that stands in its ICB.
const MOST_EMBEDDED: usize = 458;

/// What names a table, behind its entries: "flags 0", "the text `*UDF Virtual Alloc Tbl`
/// and one zero", "suffix hex 50 01 and six zeros".
const REGID: &[u8; 32] = b"\0*UDF Virtual Alloc Tbl\0\x50\x01\0\0\0\0\0\0";

pub struct Room {
    pub blank: usize,
    /// What the next call that records takes for its links.
    pub links: usize,
    /// What a write leaves blank.
    pub left: usize,
    /// What a save takes for own sectors of its table.
    pub own: usize,
}

impl Room {
    /// Where the map is that of the ledger, or of the save that a mount would find; none on
    /// a disc that is not begun.
    pub fn of(disc: &Disc, map: Option<&Map>) -> Room {
        let (_, kinds) = disc.lent();
        let recorded = recorded(kinds);
        let packet_open = map.is_some_and(|map| map.packet_open);
        // "In mode 0 with recorded above 0"
        let links = recorded > 0 && !packet_open;
        Room {
            blank: kinds.len() - recorded,
            links: if links { LINKS } else { 0 },
            left: match kinds.len() >= LARGE {
                true => LEFT_ON_A_LARGE_ONE,
                false => LEFT,
            },
            own: map.map_or(0, |map| own_recorded(disc, map)),
        }
    }

    /// How many blocks can be written, one after another in this packet.
    pub fn writes(&self) -> usize {
        self.blank.saturating_sub(self.links + self.left)
    }

    /// What a save takes behind its links: own sectors, and the table itself.
    pub fn save(&self) -> usize {
        self.own + 1
    }
}

/// How many own sectors a save of this map records: all but those "whose 2,048 bytes equal
/// those of the own sector at its place in the table named as previous".
fn own_recorded(disc: &Disc, map: &Map) -> usize {
    if map.size as usize <= MOST_EMBEDDED {
        return 0;
    }
    let (image, kinds) = disc.lent();
    let table = table_of(map);
    let previous = icb::own_sectors(image, map.table);
    let stands = |place: usize, own: &[u8]| {
        let block = previous.get(place).copied();
        let block = block.filter(|block| kinds.get(*block as usize) == Some(&DATA));
        let there = block.and_then(|block| icb::sector(image, block));
        there.is_some_and(|there| there.starts_with(own) && is_zeros(&there[own.len()..]))
    };
    let own = table.chunks(SECTOR).enumerate();
    own.filter(|(place, own)| !stands(*place, own)).count()
}

/// "entries of 32 bits, a 32-byte regid, the previous table's block".
fn table_of(map: &Map) -> Vec<u8> {
    let entries = (0..map.size).map(|v| map.block(v).unwrap_or(UNUSED));
    let entries = entries.flat_map(u32::to_le_bytes);
    let behind = REGID.iter().copied().chain(map.table.to_le_bytes());
    entries.chain(behind).collect()
}

/// "zeros to the end of the last".
fn is_zeros(bytes: &[u8]) -> bool {
    bytes.iter().all(|byte| *byte == 0)
}
