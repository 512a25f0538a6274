//! "A table may lie in 1 to 8 sectors of its own, each named by a short allocation
//! descriptor in the ICB (allocation and extent type 0, blocks below the ICB, kind 1,
//! full but the last, none empty)" (document 02): each condition broken alone. Each
//! table is held against the core and the model in every place where a call asks
//! whether it is one.

mod common;

use common::closing::{closed_by_another, mounted};
use common::large::{map_over, Large};
use common::pair::tell_compared;
use common::recogniser::Recogniser;
use common::station::{done, refused, Station};
use common::tables::{is_tested_in_header, put_described};
use station_model::calls::Call;
use station_model::disc::{DATA, LINK, UNREADABLE};
use station_model::extent::Extent;
use station_model::fields::{put, u32_at};
use station_model::table::{seal, NONE, SECTOR};

const BLOCK: u32 = 30;

/// Three sectors in no order, the last with 340 of 4,436 bytes: 1,100 entries, behind
/// them the regid at byte 304 of the last sector, and previous at 336.
const OWN: [u32; 3] = [12, 3, 7];
const SIZE: usize = 1100;
const TOTAL: u32 = 4436;
const REGID: usize = 304;

/// A table about to be changed: its ICB, and its own sectors with their kinds.
struct Forged {
    block: u32,
    icb: [u8; SECTOR],
    kinds: [u8; 3],
    own: [[u8; SECTOR]; 3],
}

impl Forged {
    fn at(block: u32) -> Forged {
        let large = Large::lying_in(&OWN, block, &map_over(11, SIZE), 5);
        let sectors = large.sectors();
        Forged {
            block,
            icb: large.icb(),
            kinds: [DATA; 3],
            own: std::array::from_fn(|place| sectors[place].1),
        }
    }

    fn put(&mut self, at: usize, field: &[u8]) {
        put(&mut self.icb, at, field);
    }

    /// Another descriptor at a place.
    fn name(&mut self, place: usize, length: u32, location: u32) {
        Extent { length, location }.put(&mut self.icb, 176 + 8 * place);
    }

    /// Another attribute length and descriptor length, and a CRC length that agrees.
    fn describe(&mut self, attributes: u32, descriptors: u32) {
        put_described(&mut self.icb, attributes, descriptors);
    }

    /// Another length at a place, and an information length that agrees.
    fn lengthen(&mut self, place: usize, length: u32) {
        let before = u32_at(&self.icb, 176 + 8 * place);
        self.name(place, length, OWN[place]);
        let total = (TOTAL + length).wrapping_sub(before);
        self.put(56, &u64::from(total).to_le_bytes());
    }

    /// Another entry, wherever it lies.
    fn enter(&mut self, v: usize, block: u32) {
        put(&mut self.own[v / 512], 4 * (v % 512), &block.to_le_bytes());
    }

    fn seal(&mut self) {
        seal(&mut self.icb, self.block);
    }
}

/// A name, what is changed before the sums are laid, and whether it is a table then.
type Variant = (&'static str, fn(&mut Forged), bool);

#[rustfmt::skip]
const VARIANTS: [Variant; 63] = [
    ("as it is", |_| {}, true),
    ("tag identifier", |t| t.put(0, &[10, 1]), false),
    ("descriptor version", |t| t.put(2, &[3, 0]), false),
    ("byte 5", |t| t.put(5, &[1]), false),
    ("serial number", |t| t.put(6, &[7, 7]), true),
    ("strategy", |t| t.put(20, &[5, 0]), false),
    ("file type", |t| t.put(27, &[5]), false),
    ("allocation type 1", |t| t.put(34, &[1]), false),
    ("allocation type 2", |t| t.put(34, &[2]), false),
    ("embedded", |t| t.put(34, &[3]), false),
    ("allocation type 4", |t| t.put(34, &[4]), false),
    ("allocation type 7", |t| t.put(34, &[7]), false),
    ("the flags' high bits", |t| t.put(34, &[0xF8, 0xFF]), true),
    ("link count", |t| t.put(48, &[1, 0]), false),
    ("information length less", |t| t.put(56, &(TOTAL - 4).to_le_bytes()), false),
    ("information length more", |t| t.put(56, &(TOTAL + 4).to_le_bytes()), false),
    ("information length of whole sectors", |t| t.put(56, &6144u32.to_le_bytes()), false),
    ("information length of 33 bits", |t| t.put(60, &[1]), false),
    ("no logical blocks", |t| t.put(64, &[0; 8]), true),
    ("any logical blocks", |t| t.put(64, &[0xEE; 8]), true),
    ("times", |t| t.put(72, &[0xEE; 36]), true),
    ("implementation", |t| t.put(128, &[0xEE; 32]), true),
    ("attribute length", |t| t.describe(4, 24), false),
    ("no descriptors", |t| t.describe(0, 0), false),
    ("one descriptor less", |t| t.describe(0, 16), false),
    ("one descriptor more", |t| t.describe(0, 32), false),
    ("half a descriptor less", |t| t.describe(0, 20), false),
    ("half a descriptor more", |t| t.describe(0, 28), false),
    ("a byte more", |t| t.describe(0, 25), false),
    ("descriptor length of 17 bits", |t| t.describe(0, 24 | 1 << 16), false),
    ("CRC length", |t| t.put(10, &[185]), false),
    ("extent type 1, first", |t| t.put(179, &[0x40]), false),
    ("extent type 2, second", |t| t.put(187, &[0x80]), false),
    ("extent type 3, last", |t| t.put(195, &[0xC0]), false),
    ("extent type 1, last", |t| t.put(195, &[0x40]), false),
    ("first block that of the ICB", |t| t.name(0, 2048, t.block), false),
    ("last block that of the ICB", |t| t.name(2, 340, t.block), false),
    ("first block behind the ICB", |t| t.name(0, 2048, t.block + 1), false),
    ("second block far away", |t| t.name(1, 2048, 1 << 24), false),
    ("last block none", |t| t.name(2, 340, NONE), false),
    ("first sector not full", |t| t.lengthen(0, 2044), false),
    ("second sector not full", |t| t.lengthen(1, 2047), false),
    ("first sector too long", |t| t.lengthen(0, 2052), false),
    ("first extent of two sectors", |t| t.lengthen(0, 4096), false),
    ("first extent empty", |t| t.lengthen(0, 0), false),
    ("last extent empty", |t| t.lengthen(2, 0), false),
    ("last extent one entry less", |t| t.lengthen(2, 336), false),
    ("last extent one entry more", |t| t.lengthen(2, 344), false),
    ("last extent a byte less", |t| t.lengthen(2, 339), false),
    ("last extent beyond its sector", |t| t.lengthen(2, 2052), false),
    ("first sector a link", |t| t.kinds[0] = LINK, false),
    ("second sector unreadable", |t| t.kinds[1] = UNREADABLE, false),
    ("last sector unreadable", |t| t.kinds[2] = UNREADABLE, false),
    ("first entry the ICB's block", |t| t.enter(0, t.block), false),
    ("an entry of the second sector", |t| t.enter(600, t.block), false),
    ("last entry", |t| t.enter(1099, t.block), false),
    ("an entry none", |t| t.enter(600, NONE), true),
    ("the regid's flags", |t| t.own[2][REGID] = 0xEE, true),
    ("the regid's text", |t| t.own[2][REGID + 1] ^= 1, false),
    ("the zero behind it", |t| t.own[2][REGID + 23] = 1, false),
    ("the regid's suffix", |t| t.own[2][REGID + 24..REGID + 32].fill(0xEE), true),
    ("previous", |t| put(&mut t.own[2], REGID + 32, &t.block.to_le_bytes()), false),
    ("bytes behind the table", |t| t.own[2][REGID + 36..].fill(0xEE), true),
];

/// Puts the own sectors where the recogniser looks for them.
fn lay(recogniser: &mut Recogniser, table: &Forged) {
    for place in 0..3 {
        recogniser.put_below(OWN[place], table.kinds[place], &table.own[place]);
    }
}

/// In mount, clean or not, begin, look back, the ledger's last table, the time of a save
/// and the block about to be written.
#[test]
fn each_condition_alone() {
    let mut recogniser = Recogniser::at(BLOCK);
    for (name, change, is_table) in VARIANTS {
        let mut table = Forged::at(BLOCK);
        change(&mut table);
        table.seal();
        lay(&mut recogniser, &table);
        assert_eq!(recogniser.is_vat(&table.icb), is_table, "{name}");
        for block in [0, BLOCK - 1, BLOCK + 1] {
            seal(&mut table.icb, block);
            assert!(!recogniser.is_vat(&table.icb), "{name}, tagged for {block}");
        }
    }
    tell_compared("each_condition_alone");
}

/// "its last recorded sector is a table": the disc is closed exactly if it is one. The
/// own sectors lie before the pointer here.
#[test]
fn each_condition_on_a_closed_disc() {
    let block = 20 + 256;
    for (name, change, is_table) in VARIANTS {
        let mut table = Forged::at(block);
        change(&mut table);
        table.seal();
        let mut station = closed_by_another(20, 3);
        for place in 0..3 {
            station.put_sector(OWN[place], table.kinds[place], &table.own[place]);
        }
        station.put_sector(block, DATA, &table.icb);
        mounted(&mut station);
        let expected = if is_table { refused(17) } else { done(0) };
        assert_eq!(station.call(Call::ClosePacket), expected, "{name}");
    }
    tell_compared("each_condition_on_a_closed_disc");
}

/// Bytes of the ICB whose value matters beyond the sums: its header, its lengths and its
/// three descriptors.
fn is_tested(at: usize) -> bool {
    is_tested_in_header(at) || (168..200).contains(&at)
}

#[test]
fn each_byte_of_the_icb() {
    let mut recogniser = Recogniser::at(BLOCK);
    let table = Forged::at(BLOCK);
    lay(&mut recogniser, &table);
    for at in 0..SECTOR {
        let mut changed = table.icb;
        changed[at] ^= 0x44;
        assert_eq!(recogniser.is_vat(&changed), at >= 200, "{at}, old sums");
        if (12..16).contains(&at) || at == 4 {
            continue;
        }
        seal(&mut changed, BLOCK);
        assert_eq!(recogniser.is_vat(&changed), !is_tested(at), "{at}");
    }
    tell_compared("each_byte_of_the_icb");
}

/// Each byte of the own sectors: the entries' four bytes, of which a change of the high
/// bit leads beyond the block; the regid's text; previous; what is not tested.
#[test]
fn each_byte_of_the_own_sectors() {
    let mut recogniser = Recogniser::at(BLOCK);
    let table = Forged::at(BLOCK);
    lay(&mut recogniser, &table);
    for (place, block) in OWN.into_iter().enumerate() {
        for at in 0..SECTOR {
            let mut changed = table.own[place];
            changed[at] ^= 0x80;
            recogniser.put_below(block, DATA, &changed);
            let in_table = at + SECTOR * place < TOTAL as usize;
            let is_free = place == 2 && matches!(at - at.min(REGID), 24..32);
            let is_flags = place == 2 && at == REGID;
            let expected = !in_table || is_free || is_flags;
            assert_eq!(recogniser.is_vat(&table.icb), expected, "{at} of {place}");
        }
        recogniser.put_below(block, DATA, &table.own[place]);
    }
    tell_compared("each_byte_of_the_own_sectors");
}

/// Each of 4,087 entries, in eight sectors.
#[test]
fn each_entry_below_the_block() {
    let own = [11, 2, 5, 9, 14, 1, 20, 8];
    let large = Large::lying_in(&own, BLOCK, &[NONE; 4087], NONE);
    let mut recogniser = Recogniser::at(BLOCK);
    let sectors = large.sectors();
    for (block, bytes) in &sectors {
        recogniser.put_below(*block, DATA, bytes);
    }
    assert!(recogniser.is_vat(&large.icb()));
    for v in 0..4087 {
        let (block, bytes) = &sectors[v / 512];
        for (entry, allowed) in [(BLOCK - 1, true), (BLOCK, false)] {
            let mut changed = *bytes;
            put(&mut changed, 4 * (v % 512), &entry.to_le_bytes());
            recogniser.put_below(*block, DATA, &changed);
            assert_eq!(recogniser.is_vat(&large.icb()), allowed, "entry {v}");
        }
        recogniser.put_below(*block, DATA, bytes);
    }
    tell_compared("each_entry_below_the_block");
}

/// Own sectors of kind 1 that hold all they should, at the block behind the ICB and
/// further on: no table to any call.
#[test]
fn own_sectors_behind_the_icb() {
    for own in [[3, 11], [11, 3], [12, 11]] {
        let large = Large::lying_in(&own, 10, &map_over(10, 600), NONE);
        let mut station = Station::blank(40);
        station.kinds[..14].fill(DATA);
        large.put(&mut station);
        mounted(&mut station);
        for (call, outcome) in [(Call::Mount, 7), (Call::TimeOf(0), 7), (Call::Begin, 0)] {
            let answer = station.clone().call_lent(call, &mut [0; 8]);
            assert_eq!(answer.outcome, outcome, "{own:?} {call:?}");
        }
        station.change(|volume| volume.last_vat = 10);
        assert_eq!(station.call(Call::ClosePacket), refused(4), "{own:?}");
    }
    tell_compared("own_sectors_behind_the_icb");
}
