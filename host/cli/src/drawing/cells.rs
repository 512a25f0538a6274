//! The cells of a drawing: each stands for one sector, or for a group of neighbours
//! on a disc that has more sectors than a drawing has room for.

use station::Role;

use super::shown::{Count, Shown};
use super::Plan;

/// What is rare and matters must not be lost in a group, so a cell tells of it beside
/// what it is shown as.
pub struct Cell {
    /// The commonest among its recorded sectors; blank only if all are.
    pub shown: Shown,
    pub in_use: bool,
    pub table: bool,
    pub unreadable: bool,
}

/// Each cell for so many sectors, the last for those that are left.
pub fn cells(plan: &Plan, group: usize) -> Vec<Cell> {
    let pieces = plan
        .roles
        .chunks(group)
        .zip(plan.in_use.parts.chunks(group));
    let cell = |(roles, parts)| Cell::of(&Count::of(roles, parts));
    pieces.map(cell).collect()
}

impl Cell {
    /// One for all these sectors.
    pub fn of(count: &Count) -> Cell {
        let has = |role| count.roles.count(role) > 0;
        let blank = Shown::Role(Role::Blank);
        Cell {
            shown: count.commonest(|shown| shown != blank).unwrap_or(blank),
            in_use: has(Role::InUse),
            table: has(Role::Table),
            unreadable: has(Role::Unreadable),
        }
    }

    /// For sectors that are all shown so.
    pub fn only(shown: Shown) -> Cell {
        let is = |role| shown == Shown::Role(role);
        Cell {
            shown,
            in_use: is(Role::InUse),
            table: is(Role::Table),
            unreadable: is(Role::Unreadable),
        }
    }

    pub fn has_role(&self, role: Role) -> bool {
        self.shown == Shown::Role(role)
    }
}

/// How many sectors a cell stands for, where there is room for so many cells: a
/// round number, which is easily said and counted with.
pub fn group(sectors: usize, room: usize) -> usize {
    let least = sectors.div_ceil(room).max(1);
    let unit = 10_usize.pow(least.ilog10());
    least.div_ceil(unit) * unit
}
