//! What a save records behind its links: the table's own sectors, if it has some and
//! as far as they are not "named again", and the ICB.

use crate::disc::Disc;
use crate::ledger::Volume;
use crate::own::{extents, filled};
use crate::table::{embedded_icb, is_embedded, own_icb, table_bytes, SECTOR};
use crate::time::Stamp;

/// The table of a save.
pub struct Save {
    table: Vec<u8>,
    own: Vec<Own>,
}

/// A sector of the table's own.
enum Own {
    NamedAgain(u32),
    Recorded([u8; SECTOR]),
}

impl Save {
    /// The ledger's map, and "previous = the ledger's last table".
    pub fn of(disc: &Disc, volume: &Volume) -> Save {
        let table = table_bytes(volume.entries(), volume.last_vat);
        let own = match is_embedded(table.len()) {
            true => Vec::new(),
            false => laid(disc, volume.last_vat, &table),
        };
        Save { table, own }
    }

    /// How many sectors it records before the ICB.
    pub fn own_recorded(&self) -> usize {
        self.recorded().count()
    }

    fn recorded(&self) -> impl Iterator<Item = &[u8; SECTOR]> {
        self.own.iter().filter_map(|own| match own {
            Own::NamedAgain(_) => None,
            Own::Recorded(bytes) => Some(bytes),
        })
    }

    /// The sectors from this block on: "the rest come before the ICB, in order".
    pub fn sectors(&self, first: u32, stamp: &Stamp) -> Vec<[u8; SECTOR]> {
        let mut sectors: Vec<[u8; SECTOR]> = self.recorded().copied().collect();
        let b = first + sectors.len() as u32;
        sectors.push(match self.own.is_empty() {
            true => embedded_icb(b, &self.table, stamp),
            false => own_icb(b, &extents(self.table.len(), &self.blocks(first)), stamp),
        });
        sectors
    }

    /// The block of each own sector, if the first that is recorded takes this one.
    fn blocks(&self, first: u32) -> Vec<u32> {
        let mut free = first..;
        let block = |own: &Own| match own {
            Own::NamedAgain(block) => Some(*block),
            Own::Recorded(_) => free.next(),
        };
        self.own.iter().filter_map(block).collect()
    }
}

/// "An own sector whose 2,048 bytes equal those of the own sector at its place in the
/// table named as previous is named again and not recorded" (document 02).
fn laid(disc: &Disc, previous: u32, table: &[u8]) -> Vec<Own> {
    let places = disc.vat_at(previous).map_or(Vec::new(), |vat| vat.own);
    let own = |(place, bytes): (usize, [u8; SECTOR])| match places.get(place) {
        Some(block) if disc.data(*block) == Some(&bytes) => Own::NamedAgain(*block),
        _ => Own::Recorded(bytes),
    };
    filled(table).into_iter().enumerate().map(own).collect()
}
