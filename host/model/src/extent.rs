//! Extents as descriptors name them: "length, location, 32 bits each" (document
//! 02). A closing's pointer names two, and a run's entry up to 100.

use crate::fields::{put, u32_at};

#[derive(Clone, Copy, Debug, PartialEq, Eq)]
pub struct Extent {
    pub length: u32,
    pub location: u32,
}

impl Extent {
    /// Bytes of a named extent.
    pub const BYTES: usize = 8;

    /// The extent that is named at a byte.
    pub fn at(bytes: &[u8], at: usize) -> Extent {
        Extent {
            length: u32_at(bytes, at),
            location: u32_at(bytes, at + 4),
        }
    }

    /// Names the extent at a byte.
    pub fn put(self, bytes: &mut [u8], at: usize) {
        put(bytes, at, &self.length.to_le_bytes());
        put(bytes, at + 4, &self.location.to_le_bytes());
    }
}
