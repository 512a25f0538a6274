//! What a ledger has and no save has yet: a mount, a begin or a look back leaves it out,
//! and a commit saves it.

use crate::form::{counted, number, Disc};
use crate::ledger::{in_words, Map};
use crate::saves::map_at;

/// The numbers in which a ledger's map differs from that of its last table.
pub struct Unsaved {
    pub written: Vec<u32>,
    pub released: Vec<u32>,
    /// Whether there is a last table.
    since: bool,
}

impl Unsaved {
    pub fn of(disc: &Disc, map: &Map) -> Unsaved {
        let saved = map.last_table().and_then(|table| map_at(disc, table));
        let gone = |v: &u32| map.block(*v).is_none();
        let released = saved.iter().flat_map(|saved| saved.used.iter().copied());
        Unsaved {
            written: map.written_since(),
            released: released.filter(gone).collect(),
            since: saved.is_some(),
        }
    }

    /// For example `written 1 to 2; released 0`.
    pub fn in_words(&self) -> String {
        let told = |what: &str, numbers: &[u32]| match numbers.is_empty() {
            true => None,
            false => Some(format!("{what} {}", in_words(numbers))),
        };
        let both = [
            told("written", &self.written),
            told("released", &self.released),
        ];
        both.into_iter().flatten().collect::<Vec<_>>().join("; ")
    }

    pub fn is_empty(&self) -> bool {
        self.written.is_empty() && self.released.is_empty()
    }

    /// What of it is lost where the disc is taken as this save has it: a crash may have
    /// kept a save that its ledger did not come to know.
    pub fn not_in(mut self, before: &Map, save: &Map) -> Unsaved {
        self.written.retain(|v| save.block(*v) != before.block(*v));
        self.released.retain(|v| save.block(*v).is_some());
        self
    }

    /// The lines that tell of what is left out; none where nothing is.
    pub fn left_out(&self) -> String {
        let when = if self.since {
            "since the last save"
        } else {
            "and not saved"
        };
        let line = |numbers: &[u32], what: &str, one: &str, more: &str| match numbers.len() {
            0 => String::new(),
            count => {
                let becomes = if count == 1 { one } else { more };
                let (count, numbers) = (counted(count, "number"), in_words(numbers));
                format!("{count} {what} {when} {becomes}: {numbers}\n")
            }
        };
        line(&self.written, "written", "is left out", "are left out")
            + &line(
                &self.released,
                "released",
                "is in use again",
                "are in use again",
            )
    }

    /// What a save has that the one before had not, for example `2 new since the last
    /// save: 0 to 1, 1 released: 7`.
    pub fn saved(&self) -> String {
        let since = if self.since {
            " since the last save"
        } else {
            ""
        };
        let new = match self.written.len() {
            0 => format!("none new{since}"),
            count => {
                let (count, numbers) = (number(count), in_words(&self.written));
                format!("{count} new{since}: {numbers}")
            }
        };
        match self.released.len() {
            0 => new,
            count => {
                let (count, numbers) = (number(count), in_words(&self.released));
                format!("{new}; {count} released: {numbers}")
            }
        }
    }
}
