//! The saves of a disc, counted back from the newest.

use station::{Refusal, LEDGER, SECTOR, UNUSED};

use crate::form::Disc;
use crate::icb;
use crate::kinds::LINK;
use crate::ledger::Map;

/// Where counting back came to.
pub struct Counted {
    /// Whether the newest save is the last thing recorded.
    pub clean: bool,
    /// The refusal 8, if older saves cannot be reached.
    pub broken: Option<Refusal>,
}

/// Shows the map of each save, newest first, or gives the refusal of the mount. Roles
/// and ledger are its own, and no file is changed.
///
/// Each step looks back by one on the disc that ends with the table it comes from:
/// mount would find that table there, so what is counted back from it is what the
/// whole disc has further back. Counting from the newest table for every save would
/// make long rows of them slow.
pub fn each_save(disc: &Disc, mut show: impl FnMut(&Map)) -> Result<Counted, Refusal> {
    let (image, kinds) = disc.lent();
    let (mut roles, mut ledger) = (vec![0; kinds.len()], [0; LEDGER]);
    let clean = station::mount(image, kinds, &mut roles, &mut ledger)?;
    let mut tables = Tables::of(disc);
    loop {
        let map = Map::of(&ledger);
        show(&map);
        let broken = match tables.step_back(map.table, &mut ledger) {
            Ok(_) => continue,
            // "refusal 9 ends the rows"
            Err(Refusal::ChainEnded) => None,
            Err(refusal) => Some(refusal),
        };
        return Ok(Counted { clean, broken });
    }
}

/// The map of the table at this block, if it is one.
pub fn map_at(disc: &Disc, table: u32) -> Option<Map> {
    let mut ledger = [0; LEDGER];
    let on_disc = (table as usize) < disc.lent().1.len();
    let found = on_disc.then(|| Tables::of(disc).look_back(&[table], &mut ledger))?;
    found.ok().map(|_| Map::of(&ledger))
}

/// The map of the newest save, if there is one.
pub fn newest(disc: &Disc) -> Option<Map> {
    let (image, kinds) = disc.lent();
    let (mut roles, mut ledger) = (vec![0; kinds.len()], [0; LEDGER]);
    let found = station::mount(image, kinds, &mut roles, &mut ledger);
    found.ok().map(|_| Map::of(&ledger))
}

/// A disc of which only some tables are shown, with their own sectors. A look back scans
/// the disc for its tables; all other sectors are links, so that none of them is read.
struct Tables<'a> {
    disc: &'a Disc,
    /// All of them links, but while a look back is made.
    kinds: Vec<u8>,
    roles: Vec<u8>,
}

impl Tables<'_> {
    fn of(disc: &Disc) -> Tables<'_> {
        let sectors = disc.lent().1.len();
        let (kinds, roles) = (vec![LINK; sectors], vec![0; sectors]);
        Tables { disc, kinds, roles }
    }

    /// By one from a table: the one that it names as previous is shown too.
    fn step_back(&mut self, table: u32, ledger: &mut [u8]) -> Result<u32, Refusal> {
        let (image, _) = self.disc.lent();
        let previous = icb::previous(image, table).unwrap_or(UNUSED);
        self.look_back(&[table, previous], ledger)
    }

    /// On the disc that ends with the first of these tables, as many steps as others
    /// follow.
    fn look_back(&mut self, tables: &[u32], ledger: &mut [u8]) -> Result<u32, Refusal> {
        let (image, kinds) = self.disc.lent();
        let sectors = tables[0] as usize + 1;
        let own = tables
            .iter()
            .flat_map(|table| icb::own_sectors(image, *table));
        let shown = tables
            .iter()
            .copied()
            .chain(own)
            .map(|block| block as usize);
        let shown: Vec<usize> = shown.filter(|block| *block < sectors).collect();
        for block in &shown {
            self.kinds[*block] = kinds[*block];
        }
        let (image, roles) = (&image[..sectors * SECTOR], &mut self.roles[..sectors]);
        let steps = tables.len() as u32 - 1;
        let found = station::look_back(image, &self.kinds[..sectors], roles, ledger, steps);
        for block in shown {
            self.kinds[block] = LINK;
        }
        found
    }
}
