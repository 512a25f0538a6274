//! What a save records of a table: its own sectors, if it is too large for its ICB,
//! and the ICB, each made in its place on the disc.

use super::crc::crc;
use super::extent::Extent;
use super::fields::put;
use super::table::{tag_sum, Sector, Tail, Vat, BODY, HEAD, MODIFIED};
use super::table::{MOST_OWN, NONE, SECTOR, TAIL, VAT_NAME};
use super::time::Stamp;

/// "Ours of up to 458 stay embedded" (document 02).
pub const EMBEDDED: usize = 458;

/// Access, modification and attribute time.
const TIMES: [usize; 3] = [72, MODIFIED, 96];

/// How many own sectors a table of so many numbers has.
#[inline(always)]
pub fn own_sectors(numbers: usize) -> usize {
    match numbers {
        ..=EMBEDDED => 0,
        _ => (4 * numbers + TAIL).div_ceil(SECTOR),
    }
}

/// The bytes of a table: entries where they lie, and the tail behind them.
pub struct Table<'a> {
    entries: &'a [u8],
    tail: Tail,
}

impl<'a> Table<'a> {
    pub fn of(entries: &'a [u8], previous: u32) -> Table<'a> {
        let tail = tail(previous);
        Table { entries, tail }
    }

    #[inline(always)]
    fn len(&self) -> usize {
        self.entries.len() + TAIL
    }

    /// What own sector i has of the entries and of the tail: "zeros to the end of the
    /// last" (document 02) follow.
    #[inline(always)]
    fn part(&self, i: usize) -> [&[u8]; 2] {
        let within = |at: usize| at.min(self.entries.len());
        let behind = |at: usize| at.saturating_sub(self.entries.len()).min(TAIL);
        let (start, end) = (SECTOR * i, SECTOR * (i + 1));
        [
            &self.entries[within(start)..within(end)],
            &self.tail[behind(start)..behind(end)],
        ]
    }

    /// Whether own sector i is this one, which is compared with the entries where they
    /// lie; nearly always it has nothing else.
    fn is_part(&self, i: usize, sector: &Sector) -> bool {
        let [entries, tail] = self.part(i);
        if let Ok(entries) = <&Sector>::try_from(entries) {
            return entries == sector;
        }
        let (front, rest) = sector.split_at(entries.len());
        let (middle, zeros) = rest.split_at(tail.len());
        front == entries && middle == tail && zeros.iter().all(|byte| *byte == 0)
    }
}

/// Entries, a tail and then zeros.
#[inline(always)]
fn lay(bytes: &mut [u8], [entries, tail]: [&[u8]; 2]) {
    let (front, rest) = bytes.split_at_mut(entries.len());
    let (middle, zeros) = rest.split_at_mut(tail.len());
    front.copy_from_slice(entries);
    middle.copy_from_slice(tail);
    zeros.fill(0);
}

/// "table regid flags 0, suffix hex 50 01 and six zeros; previous".
fn tail(previous: u32) -> Tail {
    let mut tail = [0; TAIL];
    put(&mut tail, 1, &VAT_NAME);
    put(&mut tail, 24, &[0x50, 0x01]);
    put(&mut tail, 32, &previous.to_le_bytes());
    tail
}

/// Which own sectors a save names again, by their place: the block, or none where the
/// sector is recorded.
pub struct Save {
    own: usize,
    again: [u32; MOST_OWN],
    /// How many own sectors are recorded.
    pub fresh: usize,
}

impl Save {
    /// "An own sector whose 2,048 bytes equal those of the own sector at its place in
    /// the table named as previous is named again and not recorded" (document 02).
    #[inline(always)]
    pub fn of(table: &Table, previous: Option<Vat>) -> Save {
        let own = own_sectors(table.entries.len() / 4);
        let mut again = [NONE; MOST_OWN];
        let mut fresh = own;
        let named = previous.iter().flat_map(Vat::own);
        for (i, (block, sector)) in named.take(own).enumerate() {
            if table.is_part(i, sector) {
                again[i] = block;
                fresh -= 1;
            }
        }
        Save { own, again, fresh }
    }

    /// "the rest come before the ICB, in order" (document 02): into sectors that begin
    /// at a block, the last for the ICB.
    #[inline(always)]
    pub fn record(&self, sectors: &mut [Sector], first: u32, table: &Table, stamp: &Stamp) {
        let mut blocks = self.again;
        let mut places = (first..).zip(sectors);
        for (i, block) in blocks[..self.own].iter_mut().enumerate() {
            if *block == NONE {
                let (place, sector) = places.next().expect("a sector for each");
                lay(sector, table.part(i));
                *block = place;
            }
        }
        let (place, icb) = places.next().expect("and one for the ICB");
        put_icb(icb, place, table, &blocks[..self.own], stamp);
    }
}

/// "What commit records": what is the same in the head of every ICB.
const COMMON_HEAD: [u8; HEAD] = common_head();

/// "maximum entries (byte 24, 16 bits) 1; user and group (36 and 40, 32 bits)
/// FFFFFFFF; checkpoint (108, 32 bits) 1; implementation regid (128) flags 0,
/// then `*Bench Station`, then zeros".
const fn common_head() -> [u8; HEAD] {
    let mut head = [0; HEAD];
    head[0] = 5;
    head[1] = 1;
    head[2] = 2;
    head[20] = 4;
    head[24] = 1;
    let mut at = 36;
    while at < 44 {
        head[at] = 0xFF;
        at += 1;
    }
    head[108] = 1;
    let name = b"*Bench Station";
    let mut at = 0;
    while at < name.len() {
        head[129 + at] = name[at];
        at += 1;
    }
    head
}

/// Makes the ICB of block b where it is recorded: with the table, or with the blocks of
/// its own sectors, if it has any.
fn put_icb(icb: &mut Sector, b: u32, table: &Table, own: &[u32], stamp: &Stamp) {
    icb[..HEAD].copy_from_slice(&COMMON_HEAD);
    put(icb, 12, &b.to_le_bytes());
    put(icb, 56, &(table.len() as u64).to_le_bytes());
    for at in TIMES {
        put(icb, at, stamp);
    }
    let described = if own.is_empty() {
        icb[34] = 3;
        lay(&mut icb[HEAD..], [table.entries, &table.tail]);
        table.len()
    } else {
        put_descriptors(icb, table.len(), own);
        8 * own.len()
    };
    put(icb, 10, &(160 + described as u16).to_le_bytes());
    put(icb, 172, &(described as u32).to_le_bytes());
    let sum = crc(&icb[BODY..HEAD + described]);
    put(icb, 8, &sum.to_le_bytes());
    icb[4] = tag_sum(icb);
}

/// "The descriptor length is 8 times the number of own sectors; we record that number
/// as logical blocks" (document 02): byte 64.
fn put_descriptors(icb: &mut Sector, length: usize, own: &[u32]) {
    icb[64] = own.len() as u8;
    let (descriptors, rest) = icb[HEAD..].split_at_mut(8 * own.len());
    let mut left = length;
    for (descriptor, location) in descriptors.as_chunks_mut().0.iter_mut().zip(own) {
        *descriptor = Extent {
            length: left.min(SECTOR) as u32,
            location: *location,
        }
        .to_bytes();
        left -= left.min(SECTOR);
    }
    rest.fill(0);
}

/// Makes a table with all of its sectors, of which the ICB is the last.
pub fn put_table(sectors: &mut [Sector], first: u32, entries: &[u8], previous: u32, stamp: &Stamp) {
    let table = Table::of(entries, previous);
    Save::of(&table, None).record(sectors, first, &table, stamp);
}
