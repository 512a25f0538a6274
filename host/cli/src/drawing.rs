//! Where the space of a disc went: drawn in letters, in a terminal's colours, and as
//! a picture for the screen and the wall, from one role a sector and what is in use.
//!
//! - `terminal`: letters, and the same in colours;
//! - `picture`: the page of a picture; `squares`: the disc on it; `signs`: its colours;
//! - `lettering`: the texts of a picture; `pointer`: what is told under the pointer;
//! - `words`: what is said beside the cells;
//! - `cells`: the sectors that a cell stands for;
//! - `shown`: what is shown of a sector, in words and as a letter.

mod cells;
mod lettering;
mod picture;
mod pointer;
mod shown;
mod signs;
mod squares;
mod terminal;
#[cfg(test)]
mod tests;
mod words;

use std::path::Path;

pub use picture::svg;
pub use shown::Count;
pub use terminal::{colours, letters};
pub use words::{answer, share};

use crate::runs::InUse;

/// A save that counting back reaches.
pub struct Save {
    /// Where its table is.
    pub block: usize,
    /// How many steps back; 0 is the newest.
    pub back: usize,
}

/// An own sector of the tables of some saves, and how many steps back the newest and the
/// oldest of these are.
pub struct Own {
    pub block: usize,
    pub newest: usize,
    pub oldest: usize,
}

/// What is drawn of a disc.
pub struct Plan<'a> {
    /// The name of its file.
    pub name: &'a Path,
    /// One byte a sector, 0 to 6.
    pub roles: &'a [u8],
    pub in_use: &'a InUse,
    /// Newest first.
    pub saves: &'a [Save],
    /// By their blocks, ascending: table sectors, and no save's table itself.
    pub own: &'a [Own],
    /// What is told of the whole, or nothing.
    pub note: &'a str,
}
