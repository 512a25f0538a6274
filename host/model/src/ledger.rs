//! The ledger: the volume's working state between calls.
//!
//! "The ledger [becomes] 16,364 bytes" (document 02): 4,087 "map entries, then size,
//! recorded, last table, mode, each 32 bits." Every byte has a meaning, so load and
//! store are inverse.

use crate::disc::{Disc, Found, DATA};
use crate::fields::{put, u32_at};
use crate::table::{LIMIT, NONE};

/// "the ledger 16,364 bytes" (document 02)
pub const LEDGER: usize = 16_364;

/// "Mode is 0 (no packet open), 1 (packet open) or 2 (looking only)."
pub const IDLE: u32 = 0;
pub const PACKET_OPEN: u32 = 1;
pub const READ_ONLY: u32 = 2;

/// "We count all seven at the opening."
const LINKS: u32 = 7;

const SIZE: usize = 4 * LIMIT;
const RECORDED: usize = SIZE + 4;
const LAST_VAT: usize = SIZE + 8;
const MODE: usize = SIZE + 12;

/// The ledger's fields, whatever they hold; [`Volume::fits`] says when they
/// mean something.
#[derive(Clone, Debug, PartialEq, Eq)]
pub struct Volume {
    pub map: [u32; LIMIT],
    pub size: u32,
    pub recorded: u32,
    pub last_vat: u32,
    pub mode: u32,
}

impl Volume {
    /// The state in the lent bytes, if they are 16,364.
    pub fn load(bytes: &[u8]) -> Option<Volume> {
        (bytes.len() == LEDGER).then(|| Volume {
            map: std::array::from_fn(|v| u32_at(bytes, 4 * v)),
            size: u32_at(bytes, SIZE),
            recorded: u32_at(bytes, RECORDED),
            last_vat: u32_at(bytes, LAST_VAT),
            mode: u32_at(bytes, MODE),
        })
    }

    /// The state's 16,364 bytes.
    pub fn to_bytes(&self) -> [u8; LEDGER] {
        let mut bytes = [0; LEDGER];
        for (v, entry) in self.map.iter().enumerate() {
            put(&mut bytes, 4 * v, &entry.to_le_bytes());
        }
        put(&mut bytes, SIZE, &self.size.to_le_bytes());
        put(&mut bytes, RECORDED, &self.recorded.to_le_bytes());
        put(&mut bytes, LAST_VAT, &self.last_vat.to_le_bytes());
        put(&mut bytes, MODE, &self.mode.to_le_bytes());
        bytes
    }

    /// Begin: "size 0, no last table, mode 0".
    pub fn begun(disc: &Disc) -> Volume {
        Volume {
            map: [NONE; LIMIT],
            size: 0,
            recorded: disc.recorded(),
            last_vat: NONE,
            mode: IDLE,
        }
    }

    /// Mount and look back: "Its entries and size fill the ledger; it is the
    /// last table". "Unused map entries, all entries from size on, [...] are
    /// hex FFFFFFFF."
    pub fn showing(disc: &Disc, found: &Found, mode: u32) -> Volume {
        let map = &found.vat.map;
        Volume {
            map: std::array::from_fn(|v| map.get(v).copied().unwrap_or(NONE)),
            size: map.len() as u32,
            recorded: disc.recorded(),
            last_vat: found.block,
            mode,
        }
    }

    /// Refusal 4 is the contrary: "the ledger does not fit".
    pub fn fits(&self, disc: &Disc) -> bool {
        self.map_fits()
            && self.recorded == disc.recorded()
            && (self.last_vat == NONE || disc.vat_at(self.last_vat).is_some())
            && self.mode_fits(disc)
    }

    /// Against "size above" the limit; "an entry from size on not FFFFFFFF; one below
    /// size neither FFFFFFFF nor below recorded".
    fn map_fits(&self) -> bool {
        let Some((used, rest)) = self.map.split_at_checked(self.size as usize) else {
            return false;
        };
        used.iter().all(|b| *b == NONE || *b < self.recorded) && rest.iter().all(|b| *b == NONE)
    }

    /// Against "mode above 2; mode 1 where the last recorded sector is missing
    /// or not kind 1".
    fn mode_fits(&self, disc: &Disc) -> bool {
        let last = disc.recorded().checked_sub(1);
        let last_is_data = last.and_then(|block| disc.kind(block)) == Some(DATA);
        self.mode <= READ_ONLY && (self.mode != PACKET_OPEN || last_is_data)
    }

    /// "In mode 0 with recorded above 0, write and commit first record seven
    /// link sectors [...]. In mode 1, or with recorded 0, none."
    pub fn links(&self) -> u32 {
        if self.mode == IDLE && self.recorded > 0 {
            LINKS
        } else {
            0
        }
    }

    /// Write: "sets entry v to it. If v equals size, size grows by one."
    pub fn set(&mut self, v: u32, block: u32) {
        self.map[v as usize] = block;
        if v == self.size {
            self.size += 1;
        }
    }

    /// The entries below size.
    pub fn entries(&self) -> &[u32] {
        &self.map[..self.map.len().min(self.size as usize)]
    }

    /// Whether some number's block is this one.
    pub fn names(&self, block: u32) -> bool {
        self.entries().contains(&block)
    }

    /// The block of number v, if v is below size and in use.
    pub fn block_of(&self, v: u32) -> Option<u32> {
        let entry = self.entries().get(v as usize).copied();
        entry.filter(|block| *block != NONE)
    }
}
