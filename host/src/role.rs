//! What each sector of a disc is there for, and where the space went.

use std::error::Error;
use std::fmt;

/// The role of a sector, with its number in document 02: the byte that the ten
/// calls which alter disc or ledger keep of it in the lent roles.
///
/// The kind decides [`Link`](Role::Link), [`Unreadable`](Role::Unreadable) and
/// [`Blank`](Role::Blank). The others are of data.
#[repr(u8)]
#[derive(Clone, Copy, Debug, PartialEq, Eq, Hash, PartialOrd, Ord)]
pub enum Role {
    /// 0: a number of the ledger's map names the sector.
    InUse = 0,
    /// 1: no number names the sector any more. After a begin, mount or look back
    /// that is all data that the map does not name, also what
    /// [`write_unnumbered`](crate::write_unnumbered) and
    /// [`close_session`](crate::close_session) had recorded.
    Superseded = 1,
    /// 2: recorded by a [`write_unnumbered`](crate::write_unnumbered), or by a
    /// [`close_session`](crate::close_session) as its pointer or zeros, since the last
    /// begin, mount or look back.
    WithoutNumber = 2,
    /// 3: a table sector, or one that a table sector names as its table's own. It is
    /// never in use, whatever a map names.
    Table = 3,
    /// 4: a link sector.
    Link = 4,
    /// 5: unreadable.
    Unreadable = 5,
    /// 6: not recorded.
    Blank = 6,
}

impl Role {
    /// Each role at the place of its number.
    pub const ALL: [Role; 7] = [
        Role::InUse,
        Role::Superseded,
        Role::WithoutNumber,
        Role::Table,
        Role::Link,
        Role::Unreadable,
        Role::Blank,
    ];

    /// Its number in document 02, 0 to 6.
    pub const fn number(self) -> u8 {
        self as u8
    }
}

/// The role's name in words.
impl fmt::Display for Role {
    fn fmt(&self, out: &mut fmt::Formatter) -> fmt::Result {
        out.pad(match self {
            Role::InUse => "in use",
            Role::Superseded => "superseded",
            Role::WithoutNumber => "without a number",
            Role::Table => "table",
            Role::Link => "link",
            Role::Unreadable => "unreadable",
            Role::Blank => "blank",
        })
    }
}

/// A byte above 6, which is no role: no call has left it.
#[derive(Clone, Copy, Debug, PartialEq, Eq)]
pub struct NoRole(
    /// The byte.
    pub u8,
);

impl fmt::Display for NoRole {
    fn fmt(&self, out: &mut fmt::Formatter) -> fmt::Result {
        write!(out, "{} is no role: roles are 0 to 6", self.0)
    }
}

impl Error for NoRole {}

impl TryFrom<u8> for Role {
    type Error = NoRole;

    fn try_from(byte: u8) -> Result<Role, NoRole> {
        let role = Role::ALL.get(usize::from(byte));
        role.copied().ok_or(NoRole(byte))
    }
}

/// How many sectors have each role, as [`space`] counts them.
#[derive(Clone, Copy, Debug, Default, PartialEq, Eq)]
pub struct Space {
    counts: [usize; 7],
}

impl Space {
    /// How many sectors have this role.
    pub fn count(&self, role: Role) -> usize {
        self.counts[usize::from(role.number())]
    }

    /// The sum of the six recorded roles. Of roles that a call has left it is the
    /// disc's recorded, if no call was cut since a begin, mount or look back.
    pub fn recorded(&self) -> usize {
        self.sectors() - self.count(Role::Blank)
    }

    /// The sum of all seven.
    pub fn sectors(&self) -> usize {
        self.counts.iter().sum()
    }
}

/// Where the space went: how many sectors have each role.
///
/// The roles are lent to each call that alters disc or ledger and must come as the
/// call before left them: [`write`](crate::write) and [`release`](crate::release) read
/// that of the block which their number named before. A cut loses them with the
/// ledger: begin, mount and look back make all of them anew, whatever the bytes hold.
///
/// ```
/// use station::{Role, LEDGER, SECTOR};
///
/// let (mut image, mut kinds) = (vec![0; 40 * SECTOR], vec![0; 40]);
/// let (mut roles, mut ledger) = (vec![0; 40], [0; LEDGER]);
/// station::begin(&image, &kinds, &mut roles, &mut ledger)?;
/// assert_eq!(station::space(&roles).count(Role::Blank), 40);
///
/// // One number, written three times, and saved after the packet was closed.
/// for byte in [1, 2, 3] {
///     let block = [byte; SECTOR];
///     station::write(&mut image, &mut kinds, &mut roles, &mut ledger, 0, &block)?;
/// }
/// station::close_packet(&image, &kinds, &roles, &mut ledger)?;
/// station::commit(&mut image, &mut kinds, &mut roles, &mut ledger)?;
///
/// let space = station::space(&roles);
/// assert_eq!(space.count(Role::Superseded), 2);
/// assert_eq!(space.count(Role::InUse), 1);
/// assert_eq!(space.count(Role::Link), 7);
/// assert_eq!(space.count(Role::Table), 1);
/// assert_eq!(space.recorded(), station::recorded(&kinds));
/// assert_eq!(Role::try_from(roles[0])?, Role::Superseded);
/// assert_eq!(Role::Superseded.to_string(), "superseded");
/// # Ok::<(), Box<dyn std::error::Error>>(())
/// ```
///
/// A byte above 6, which no call leaves, is not counted.
pub fn space(roles: &[u8]) -> Space {
    let mut space = Space::default();
    for byte in roles {
        if let Some(count) = space.counts.get_mut(usize::from(*byte)) {
            *count += 1;
        }
    }
    space
}

#[cfg(test)]
mod tests {
    use super::{space, NoRole, Role};

    #[test]
    fn each_number_is_its_own_role() {
        for (number, role) in (0..).zip(Role::ALL) {
            assert_eq!(role.number(), number);
            assert_eq!(Role::try_from(number), Ok(role));
        }
        for byte in 7..=255 {
            assert_eq!(Role::try_from(byte), Err(NoRole(byte)));
        }
    }

    #[test]
    fn each_role_is_counted() {
        let roles = [0, 1, 1, 2, 2, 2, 3, 4, 4, 5, 6, 6, 6, 6, 7, 255];
        let space = space(&roles);
        let counts = Role::ALL.map(|role| space.count(role));
        assert_eq!(counts, [1, 2, 3, 1, 2, 1, 4]);
        assert_eq!((space.recorded(), space.sectors()), (10, 14));
    }
}
