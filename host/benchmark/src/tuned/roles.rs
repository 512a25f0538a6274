//! "one byte a sector, 0 to 6" (document 02): made anew by a scan, and kept up by the
//! calls that record or let go.

use super::disc::{Disc, Found, DATA, GROUP};
use super::ledger::{self, Ledger};

/// "in use by the ledger's map, superseded, without a number, table, link,
/// unreadable, blank"
pub const IN_USE: u8 = 0;
const SUPERSEDED: u8 = 1;
pub const UNNUMBERED: u8 = 2;
pub const TABLE: u8 = 3;
pub const LINK: u8 = 4;
const BLANK: u8 = 6;

/// All roles from disc and ledger. The search has passed over the sectors behind the
/// newest table, and where it found none over all: no other table is there. Only of
/// the sectors before it the image is read, of each the line of its tag.
pub fn scan(roles: &mut [u8], disc: &Disc, newest: Option<Found>, ledger: &Ledger) {
    for (role, kind) in roles.iter_mut().zip(disc.kinds) {
        *role = of_kind(*kind);
    }
    if let Some(newest) = newest {
        mark(roles, &newest);
        mark_tables(roles, disc, newest.block as usize);
    }
    for entry in ledger::entries(ledger).as_chunks().0 {
        let block = u32::from_le_bytes(*entry) as usize;
        if let Some(role @ &mut SUPERSEDED) = roles.get_mut(block) {
            *role = IN_USE;
        }
    }
}

/// "The kind decides the last three"; data is superseded until it is known to be
/// more. Without a branch, so that the compiler takes sixteen at a time: a link and an
/// unreadable sector have two more than their kind.
#[inline(always)]
fn of_kind(kind: u8) -> u8 {
    match kind {
        0 => BLANK,
        DATA => SUPERSEDED,
        _ => kind + 2,
    }
}

/// The tables below a block: whole groups, and the rest one by one.
fn mark_tables(roles: &mut [u8], disc: &Disc, end: usize) {
    let grouped = end / GROUP * GROUP;
    for (group, may_have_vat) in disc.groups(grouped).enumerate() {
        if may_have_vat {
            mark_each(roles, disc, GROUP * group, GROUP * (group + 1));
        }
    }
    mark_each(roles, disc, grouped, end);
}

fn mark_each(roles: &mut [u8], disc: &Disc, start: usize, end: usize) {
    for block in start..end {
        if let Some(found) = disc.vat_at(block as u32) {
            mark(roles, &found);
        }
    }
}

/// "each sector that a table names counts as table" (document 02), as its ICB does.
#[inline(always)]
fn mark(roles: &mut [u8], found: &Found) {
    roles[found.block as usize] = TABLE;
    for (block, _) in found.vat.own() {
        roles[block as usize] = TABLE;
    }
}

/// Number v lets its block go: it is superseded exactly if its role that is lent is in
/// use and no other number names it.
#[inline(always)]
pub fn let_go(roles: &mut [u8], ledger: &Ledger, v: u32) {
    let Some(block) = ledger::block_of(ledger, v) else {
        return;
    };
    let role = &mut roles[block as usize];
    if *role == IN_USE && ledger::names_once(ledger, block) {
        *role = SUPERSEDED;
    }
}
