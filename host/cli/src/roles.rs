//! The role file: a copy of the ledger file that the roles belong to, and then "one byte
//! a sector, 0 to 6".
//!
//! Roles are right only with the disc and the ledger that the same call left. They
//! are believed only if the copy is the ledger file that lies beside the disc, if that
//! one is not behind the disc, and if no kind contradicts them. So a file that a crash
//! left, or that another program has not kept up, is not taken for a right one, and
//! one that was copied with its disc and ledger is.

use station::Role;

use crate::kinds::{BLANK, DATA, LINK, UNREADABLE};
use crate::ledger::recorded;
use crate::mark::{unmarked, MARKED};

/// The roles in a file, if they are those of this ledger file and these kinds.
pub fn known<'a>(file: &'a [u8], ledger: &[u8], kinds: &[u8]) -> Option<&'a [u8]> {
    let (copy, roles) = file.split_at_checked(MARKED)?;
    let fits = copy == ledger
        && recorded(unmarked(copy)) == station::recorded(kinds)
        && roles.len() == kinds.len()
        && roles
            .iter()
            .zip(kinds)
            .all(|(role, kind)| agree(*role, *kind));
    fits.then_some(roles)
}

/// "The kind decides the last three."
fn agree(role: u8, kind: u8) -> bool {
    Role::try_from(role).is_ok_and(|role| match role {
        Role::Blank => kind == BLANK,
        Role::Link => kind == LINK,
        Role::Unreadable => kind == UNREADABLE,
        _ => kind == DATA,
    })
}

/// Bytes of a whole role file.
pub fn whole_length(sectors: usize) -> usize {
    MARKED + sectors
}

/// Where in the file each stretch of roles stands that a command has changed, and
/// what it is now.
pub fn changed<'a>(before: &[u8], now: &'a [u8]) -> Vec<(u64, &'a [u8])> {
    let mut stretches = Vec::new();
    let mut place = 0;
    while let Some(same) = differing(before, now, place, true) {
        let end = differing(before, now, same, false).unwrap_or(now.len());
        stretches.push(((MARKED + same) as u64, &now[same..end]));
        place = end;
    }
    stretches
}

/// The first place from this one on where the two differ, or where they do not.
fn differing(before: &[u8], now: &[u8], from: usize, differ: bool) -> Option<usize> {
    let pairs = before[from..].iter().zip(&now[from..]);
    let found = pairs
        .into_iter()
        .position(|(old, new)| (old != new) == differ);
    found.map(|found| from + found)
}

#[cfg(test)]
mod tests {
    use super::{changed, known, MARKED};
    use station::LEDGER;

    /// The file of a ledger that has so many sectors recorded.
    fn ledger(recorded: u8) -> Vec<u8> {
        let mut ledger = vec![0xFF; MARKED];
        ledger[LEDGER - 12..][..4].copy_from_slice(&[recorded, 0, 0, 0]);
        ledger
    }

    #[test]
    fn what_is_believed() {
        let (own, kinds) = (ledger(7), [1, 1, 1, 1, 2, 3, 1, 0]);
        let roles = [0, 1, 2, 3, 4, 5, 0, 6];
        let file = [&own[..], &roles].concat();
        assert_eq!(known(&file, &own, &kinds), Some(&roles[..]));
        for length in 0..file.len() {
            assert_eq!(known(&file[..length], &own, &kinds), None);
        }
        assert_eq!(known(&[&file[..], &[6]].concat(), &own, &kinds), None);
        assert_eq!(known(&file, &own[..MARKED - 1], &kinds), None);
        assert_eq!(known(&file, &ledger(8), &kinds), None);
        let behind = [&ledger(6)[..], &roles].concat();
        assert_eq!(known(&behind, &ledger(6), &kinds), None);
    }

    /// Every role with every kind.
    #[test]
    fn what_a_kind_contradicts() {
        for kind in 0..4 {
            let own = ledger(u8::from(kind > 0));
            let taken = |role: &u8| {
                let file = [&own[..], &[*role]].concat();
                known(&file, &own, &[kind]).is_some()
            };
            let taken: Vec<u8> = (0..=255).filter(taken).collect();
            let right: [&[u8]; 4] = [&[6], &[0, 1, 2, 3], &[4], &[5]];
            assert_eq!(taken, right[usize::from(kind)]);
        }
    }

    #[test]
    fn stretches() {
        let place = |at: usize| (MARKED + at) as u64;
        assert_eq!(changed(&[6, 6, 6], &[6, 6, 6]), []);
        let now = [1, 6, 4, 4, 0];
        let both = [(place(0), &now[..1]), (place(2), &now[2..])];
        assert_eq!(changed(&[0, 6, 6, 6, 6], &now), both);
    }
}
