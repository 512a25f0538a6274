//! "Where did the space go" (document 02): "Beside the disc keep one byte a sector,
//! 0 to 6".
//!
//! A call sets some of them ([`Effect`](crate::effect::Effect)): begin, mount and
//! look back all, by a [`scan`]. Apart from this a [`Since`] works them out afresh.

use crate::answer::Answer;
use crate::calls::Call;
use crate::disc::{Disc, BEFORE_TABLE, BLANK, LINK, UNREADABLE};
use crate::ledger::Volume;

/// "in use by the ledger's map, superseded, without a number, table, link,
/// unreadable, blank"
#[derive(Clone, Copy, Debug, PartialEq, Eq)]
pub enum Role {
    InUse = 0,
    Superseded = 1,
    Unnumbered = 2,
    Table = 3,
    Link = 4,
    Unreadable = 5,
    Blank = 6,
}

/// What decides the roles of the data on a disc, block by block.
struct Known<'a> {
    disc: &'a Disc<'a>,
    /// "In the roles each sector that a table names counts as table."
    in_tables: Vec<bool>,
    in_use: Vec<bool>,
    unnumbered: Vec<bool>,
}

impl<'a> Known<'a> {
    fn of(disc: &'a Disc, volume: &Volume, unnumbered: impl Iterator<Item = u32>) -> Known<'a> {
        let sectors = disc.sectors();
        Known {
            disc,
            in_tables: marked(sectors, disc.vat_blocks().into_iter()),
            in_use: marked(sectors, volume.entries().iter().copied()),
            unnumbered: marked(sectors, unnumbered),
        }
    }

    /// "The kind decides the last three; a table is never in use."
    fn role(&self, block: u32) -> Role {
        let at = block as usize;
        match self.disc.kind(block) {
            None | Some(BLANK) => Role::Blank,
            Some(LINK) => Role::Link,
            Some(UNREADABLE) => Role::Unreadable,
            _ if self.in_tables[at] => Role::Table,
            _ if self.in_use[at] => Role::InUse,
            _ if self.unnumbered[at] => Role::Unnumbered,
            _ => Role::Superseded,
        }
    }

    fn roles(self) -> Vec<Role> {
        let blocks = 0..self.disc.sectors();
        blocks.map(|block| self.role(block)).collect()
    }
}

/// Which of so many sectors are among these blocks.
fn marked(sectors: u32, blocks: impl Iterator<Item = u32>) -> Vec<bool> {
    let mut marks = vec![false; sectors as usize];
    for block in blocks {
        if let Some(mark) = marks.get_mut(block as usize) {
            *mark = true;
        }
    }
    marks
}

/// "a scan then gives the start, where data the map does not name counts as
/// superseded"
pub fn scan(disc: &Disc, volume: &Volume) -> Vec<(u32, Role)> {
    let known = Known::of(disc, volume, std::iter::empty());
    (0..).zip(known.roles()).collect()
}

/// What becomes of the block that a number has let go: superseded, if it was in use,
/// by the role that is lent, and no other number of the map names it.
pub fn let_go(lent: &[u8], volume: &Volume, block: u32) -> Option<(u32, Role)> {
    let was_in_use = lent.get(block as usize) == Some(&(Role::InUse as u8));
    (was_in_use && !volume.names(block)).then_some((block, Role::Superseded))
}

/// "the history since begin, mount or look back": each call done, that one the
/// first, with its second number.
#[derive(Clone, Debug, Default)]
pub struct Since(Vec<(Call, u32)>);

impl Since {
    pub fn feed(&mut self, call: Call, answer: Answer) {
        if answer.is_done() {
            if call.scans() {
                self.0.clear();
            }
            self.0.push((call, answer.second));
        }
    }

    /// Every role "from that history", given the disc and the map that it has left.
    pub fn roles(&self, disc: &Disc, volume: &Volume) -> Vec<u8> {
        let known = Known::of(disc, volume, self.unnumbered());
        let roles = known.roles().into_iter();
        roles.map(|role| role as u8).collect()
    }

    /// The blocks recorded by a write without a number; and "A closing's sectors
    /// before its table are without a number", but for its table's own.
    fn unnumbered(&self) -> impl Iterator<Item = u32> + '_ {
        self.0.iter().flat_map(|(call, second)| match call {
            Call::WriteUnnumbered => *second..second + 1,
            Call::CloseSession(_) => second - BEFORE_TABLE..*second,
            _ => 0..0,
        })
    }
}
