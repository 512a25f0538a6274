//! Sectors that a descriptor names.

/// An extent as a descriptor names it: its length in bytes and its first sector.
#[derive(Clone, Copy, Debug, PartialEq, Eq)]
pub struct Extent {
    /// In bytes.
    pub length: u32,
    /// The number of its first sector: for a run its block, and for a closing's
    /// pointer the number that it has on the whole medium.
    pub location: u32,
}
