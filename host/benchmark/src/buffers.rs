//! The lent buffers of one disc, prepared for a row and set back between two
//! measurements.

use std::hint::black_box;

use station::{file_entry, Extent};

use crate::tuned::{self, own_sectors, put_table};
use crate::tuned::{Sector, Stamp, EMBEDDED, LEDGER, MOST_VIEWED, NONE, SECTOR, TIME};

/// Calls of a batch that the clock is read once for, at most: each of those that let
/// a block go has another number.
pub const BATCH: usize = 64;

/// Sectors behind the recorded ones that the calls of one batch may record: the
/// most are those of a closing.
const WINDOW: usize = 257;

/// The time of every prepared table: 14:05 on 15 November 2026 with zone 60.
pub const STAMP: Stamp = [60, 0x10, 0xEA, 0x07, 11, 15, 14, 5, 0, 0, 0, 0];

/// The highest number of a table of 458, whose block may be a run's entry.
pub const HIGHEST: u32 = EMBEDDED as u32 - 1;

/// Where the ledger has its last table and its mode.
const LAST_VAT: usize = LEDGER - 8;
const MODE: usize = LEDGER - 4;

pub struct Buffers {
    pub image: Vec<u8>,
    pub kinds: Vec<u8>,
    pub roles: Vec<u8>,
    pub ledger: Vec<u8>,
    pub block: Vec<u8>,
    pub answer: [u8; TIME],
    /// For a part of a run.
    pub viewed: Vec<u8>,
    /// Ledger and roles before each batch.
    prepared: Vec<u8>,
    prepared_roles: Vec<u8>,
    recorded: usize,
    /// Sectors that do not hold plain data.
    planted: Vec<usize>,
    /// Bytes of the run whose entry was planted last.
    run: usize,
    /// Whether the whole image is read between two batches.
    swept: bool,
}

impl Buffers {
    /// A disc whose sectors all hold plain data, and none is recorded.
    pub fn new(sectors: usize) -> Buffers {
        let mut image = vec![0; sectors * SECTOR];
        for (block, sector) in image.as_chunks_mut().0.iter_mut().enumerate() {
            put_plain(sector, block);
        }
        Buffers {
            image,
            kinds: vec![0; sectors],
            roles: vec![0xA5; sectors],
            ledger: vec![0xA5; LEDGER],
            block: vec![0x5A; SECTOR],
            answer: [0x5A; TIME],
            viewed: vec![0x5A; MOST_VIEWED],
            prepared: vec![0xA5; LEDGER],
            prepared_roles: vec![0xA5; sectors],
            recorded: 0,
            planted: Vec::new(),
            run: 0,
            swept: false,
        }
    }

    pub fn sectors(&self) -> usize {
        self.kinds.len()
    }

    /// The length of the planted run.
    pub fn run(&self) -> usize {
        self.run
    }

    /// Plain data in every sector, of which the first are recorded.
    pub fn record_plain(&mut self, recorded: usize) {
        for block in std::mem::take(&mut self.planted) {
            put_plain(self.sector(block), block);
        }
        self.kinds[..recorded].fill(1);
        self.kinds[recorded..].fill(0);
        self.recorded = recorded;
        self.swept = false;
        self.forget();
    }

    /// A ledger and roles that no call wrote.
    fn forget(&mut self) {
        self.ledger.fill(0xA5);
        self.roles.fill(0xA5);
        self.keep();
    }

    /// A table of so many numbers, whose ICB is in a recorded sector and its own sectors
    /// before it; its entries are spread over the blocks below.
    pub fn plant_vat(&mut self, block: usize, numbers: usize, previous: u32) {
        let first = block - own_sectors(numbers);
        let entry = |v| block_below(first, numbers, v);
        let entries: Vec<u8> = (0..numbers).flat_map(|v| entry(v).to_le_bytes()).collect();
        let sectors = &mut self.image.as_chunks_mut().0[first..=block];
        put_table(sectors, first as u32, &entries, previous, &STAMP);
        self.planted.extend(first..=block);
    }

    /// The entry of a run in the block of the highest number of a table of 458: so many
    /// extents of so many sectors, spread over the blocks below it.
    pub fn plant_entry(&mut self, table: usize, extents: usize, sectors: usize) {
        let block = block_below(table, EMBEDDED, HIGHEST as usize) as usize;
        let extent = |m: usize| Extent {
            length: (sectors * SECTOR) as u32,
            location: (m * (block - sectors) / extents) as u32,
        };
        let extents: Vec<Extent> = (0..extents).map(extent).collect();
        *self.sector(block) = file_entry(&extents, block as u32);
        self.planted.push(block);
        self.run = extents.len() * sectors * SECTOR;
    }

    /// Ledger and roles as mount leaves them, with the mode given.
    pub fn mount(&mut self, mode: u32) {
        let answer = tuned::mount(&self.image, &self.kinds, &mut self.roles, &mut self.ledger);
        assert_eq!(answer >> 32, 0, "the prepared disc has a table");
        self.set_mode(mode);
        self.keep();
    }

    /// Saves of what the ledger has, one after another, in nearly all blank sectors;
    /// then neither ledger nor roles.
    pub fn save_until_full(&mut self) {
        let save = |b: &mut Buffers| {
            tuned::commit(&mut b.image, &mut b.kinds, &mut b.roles, &mut b.ledger)
        };
        while save(self) >> 32 == 0 {}
        let blank = self.kinds.iter().filter(|kind| **kind == 0).count();
        let recorded = self.sectors() - blank;
        self.planted.extend(self.recorded..recorded);
        self.recorded = recorded;
        self.forget();
    }

    /// Changes the entries of a map of 458 numbers, one after another.
    pub fn edit_map(&mut self, edit: impl Fn(usize, &mut [[u8; 4]])) {
        let map = &mut self.ledger.as_chunks_mut().0[..EMBEDDED];
        (0..EMBEDDED).for_each(|v| edit(v, map));
        self.keep();
    }

    /// The same ledger as it would be before the first commit.
    pub fn forget_last_vat(&mut self) {
        self.ledger[LAST_VAT..MODE].copy_from_slice(&NONE.to_le_bytes());
        self.keep();
    }

    /// Sets the first entry of each own sector to a block; also between two calls that
    /// are measured.
    pub fn change_each_sector(&mut self, block: u32) {
        for sector in self.ledger.chunks_mut(SECTOR) {
            sector[..4].copy_from_slice(&block.to_le_bytes());
        }
    }

    /// From now on the whole image is read between two batches.
    pub fn sweep(&mut self) {
        self.swept = true;
    }

    /// Four bytes of the ledger; also between two calls that are measured.
    pub fn set_mode(&mut self, mode: u32) {
        self.ledger[MODE..].copy_from_slice(&mode.to_le_bytes());
    }

    fn keep(&mut self) {
        self.prepared.copy_from_slice(&self.ledger);
        self.prepared_roles.copy_from_slice(&self.roles);
    }

    fn sector(&mut self, block: usize) -> &mut Sector {
        &mut self.image.as_chunks_mut().0[block]
    }

    /// Sets back what a batch changed: ledger, kinds, and the roles of blocks that are
    /// let go. The image bytes of blank sectors mean nothing, and their roles decide
    /// nothing: the next batch sets them anew.
    pub fn set_back(&mut self) {
        self.ledger.copy_from_slice(&self.prepared);
        let window = self.sectors().min(self.recorded + WINDOW);
        self.kinds[self.recorded..window].fill(0);
        for entry in &self.prepared.as_chunks().0[..BATCH] {
            let block = u32::from_le_bytes(*entry) as usize;
            if let Some(role) = self.roles.get_mut(block) {
                *role = self.prepared_roles[block];
            }
        }
        if self.swept {
            // Towards block 0, since a mount starts at the other end.
            let lines = self.image.iter().step_by(64).rev();
            black_box(lines.fold(0, |sum: u8, byte| sum.wrapping_add(*byte)));
        }
    }

    /// Sets back the image bytes, all roles, the block, the answer and the bytes viewed
    /// too. Before a call that makes roles anew they are such as no call sets, so that
    /// each one set shows.
    pub fn set_back_all(&mut self) {
        self.set_back();
        self.roles.copy_from_slice(&self.prepared_roles);
        self.block.fill(0x5A);
        self.answer.fill(0x5A);
        self.viewed.fill(0x5A);
        for block in self.recorded..self.sectors().min(self.recorded + WINDOW) {
            put_plain(self.sector(block), block);
        }
    }

    /// A number that tells whether two runs left the same bytes: a difference
    /// in one word always changes it.
    pub fn fingerprint(&self) -> u64 {
        let parts = [
            &self.image,
            &self.kinds,
            &self.roles,
            &self.ledger,
            &self.block,
            &self.viewed,
        ];
        let sum = parts.iter().fold(0, |sum, bytes| mix(sum, bytes));
        mix(sum, &self.answer)
    }
}

/// The block of number v in a table of so many, whose first sector is at a block. Where
/// fewer blocks than numbers are below it, the other numbers are unused.
fn block_below(first: usize, numbers: usize, v: usize) -> u32 {
    match v {
        _ if numbers <= first => (v * first / numbers) as u32,
        _ if v < first => v as u32,
        _ => NONE,
    }
}

/// Four sums side by side, each multiplied by an odd number at every word.
fn mix(start: u64, bytes: &[u8]) -> u64 {
    let (groups, rest) = bytes.as_chunks::<32>();
    let mut sums = [start, 1, 2, 3];
    for group in groups {
        for (sum, word) in sums.iter_mut().zip(group.as_chunks::<8>().0) {
            *sum = (*sum ^ u64::from_le_bytes(*word)).wrapping_mul(0x9E37_79B9_7F4A_7C15);
            *sum = sum.rotate_left(29);
        }
    }
    let rest = rest.iter().map(|byte| u64::from(*byte));
    let join = |sum: u64, next: u64| {
        (sum ^ next)
            .wrapping_mul(0xD6E8_FEB8_6659_FD93)
            .rotate_left(31)
    };
    sums.into_iter().chain(rest).fold(bytes.len() as u64, join)
}

/// Bytes that differ from sector to sector and are plainly no table.
fn put_plain(sector: &mut Sector, block: usize) {
    let seed = (block as u64 + 1).wrapping_mul(0x9E37_79B9_7F4A_7C15);
    for (at, word) in sector.as_chunks_mut::<8>().0.iter_mut().enumerate() {
        *word = (seed ^ (at as u64).wrapping_mul(0xD6E8_FEB8_6659_FD93)).to_le_bytes();
    }
    sector[0] = 0x5A;
}
