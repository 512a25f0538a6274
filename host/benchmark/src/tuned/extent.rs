//! Extents as short allocation descriptors name them, eight bytes each: a run's, a
//! pointer's, and those of a table in sectors of its own.

use super::fields::{put, u32_at};

/// "length, location, 32 bits each"; the high two bits of the length are the type.
pub type Descriptor = [u8; 8];

#[derive(Clone, Copy)]
pub struct Extent {
    pub length: u32,
    pub location: u32,
}

impl Extent {
    #[inline(always)]
    pub fn of(descriptor: &Descriptor) -> Extent {
        Extent {
            length: u32_at(descriptor, 0),
            location: u32_at(descriptor, 4),
        }
    }

    #[inline(always)]
    pub fn to_bytes(self) -> Descriptor {
        let mut descriptor = [0; 8];
        put(&mut descriptor, 0, &self.length.to_le_bytes());
        put(&mut descriptor, 4, &self.location.to_le_bytes());
        descriptor
    }
}
