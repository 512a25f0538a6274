//! What is shown of a sector: its role, or that it is a part of a run in use; in an
//! operator's words, as a letter, and counted.

use std::fmt;

use station::{Role, Space};

#[derive(Clone, Copy, Debug, PartialEq, Eq)]
pub enum Shown {
    Role(Role),
    /// A part of a run in use. Its role is superseded, or without a number.
    Part,
}

impl Shown {
    /// In the order of a legend: parts stand below the two roles that count them.
    pub const ALL: [Shown; 8] = [
        Shown::Role(Role::InUse),
        Shown::Role(Role::Superseded),
        Shown::Role(Role::WithoutNumber),
        Shown::Part,
        Shown::Role(Role::Table),
        Shown::Role(Role::Link),
        Shown::Role(Role::Unreadable),
        Shown::Role(Role::Blank),
    ];

    /// What such a sector is, or why there is one.
    pub fn meaning(self) -> &'static str {
        match self {
            Shown::Role(Role::InUse) => "a number names it",
            Shown::Role(Role::Superseded) => {
                "written again, released, or not named by the mounted save"
            }
            Shown::Role(Role::WithoutNumber) => "parts of runs, or of a closing",
            Shown::Part => "its run is in use; counted above",
            Shown::Role(Role::Table) => "one for each save, more above 458 numbers",
            Shown::Role(Role::Link) => "seven at each opening of a packet",
            Shown::Role(Role::Unreadable) => "left by a power cut, or damaged",
            Shown::Role(Role::Blank) => "nothing recorded yet",
        }
    }

    /// In a terminal. Of these only the table's is a capital.
    pub fn letter(self) -> char {
        match self {
            Shown::Role(Role::InUse) => 'u',
            Shown::Role(Role::Superseded) => 's',
            Shown::Role(Role::WithoutNumber) => 'w',
            Shown::Part => 'p',
            Shown::Role(Role::Table) => 'T',
            Shown::Role(Role::Link) => 'l',
            Shown::Role(Role::Unreadable) => 'x',
            Shown::Role(Role::Blank) => '.',
        }
    }
}

/// Its name in words.
impl fmt::Display for Shown {
    fn fmt(&self, out: &mut fmt::Formatter) -> fmt::Result {
        match self {
            Shown::Role(role) => role.fmt(out),
            Shown::Part => out.pad("part of a run"),
        }
    }
}

/// How many sectors have each role, and how many of them are parts of runs in use.
pub struct Count {
    pub roles: Space,
    /// The parts alone, by their roles.
    pub parts: Space,
}

impl Count {
    /// Of sectors with these roles, and the runs that they are parts of.
    pub fn of(roles: &[u8], parts: &[Option<u32>]) -> Count {
        let in_runs = roles.iter().zip(parts).filter(|(_, part)| part.is_some());
        let of_parts: Vec<u8> = in_runs.map(|(role, _)| *role).collect();
        Count {
            roles: station::space(roles),
            parts: station::space(&of_parts),
        }
    }

    /// As they are drawn: each sector once.
    pub fn drawn(&self, shown: Shown) -> usize {
        match shown {
            Shown::Role(role) => self.roles.count(role) - self.parts.count(role),
            Shown::Part => self.parts.recorded(),
        }
    }

    /// As a legend counts them: a part is also what its role says.
    pub fn listed(&self, shown: Shown) -> usize {
        match shown {
            Shown::Role(role) => self.roles.count(role),
            Shown::Part => self.parts.recorded(),
        }
    }

    /// What is told in a legend: parts only where there are some.
    pub fn legend(&self) -> impl Iterator<Item = Shown> + '_ {
        let told = |shown: &Shown| *shown != Shown::Part || self.drawn(Shown::Part) > 0;
        Shown::ALL.into_iter().filter(told)
    }

    /// The commonest of these, the first of equals; none if no sector is shown so.
    pub fn commonest(&self, among: impl Fn(Shown) -> bool) -> Option<Shown> {
        let met = Shown::ALL.into_iter().filter(|shown| among(*shown));
        let met = met.filter(|shown| self.drawn(*shown) > 0);
        met.reduce(|most, shown| match self.drawn(shown) > self.drawn(most) {
            true => shown,
            false => most,
        })
    }
}
