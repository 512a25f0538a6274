//! What a run's entry is (document 02): each of its conditions broken alone, with
//! right sums otherwise, and nothing else asked. Each sector is held against the core
//! and the model by a view.

mod common;

use common::pair::{tell_compared, Pair};
use common::random::{cases, Random};
use common::runs::{any_entry, extent, free_fields, name, shows_a_run, three};
use common::runs::{with_entry, with_run, ENTRY};
use common::station::Station;
use common::tables::put_sum;
use station_model::calls::Call;
use station_model::disc::{DATA, LINK, UNREADABLE};
use station_model::extent::Extent;
use station_model::fields::{put, u16_at};
use station_model::run::entry_sector;
use station_model::table::{seal, SECTOR};

/// Whether the sector is an entry to the core and to the model.
fn is_entry(pair: &mut Pair, sector: &[u8; SECTOR]) -> bool {
    pair.put_sector(ENTRY, DATA, sector);
    shows_a_run(pair)
}

/// The entry of [`three`] at block 20, field by field. Its CRC, hex 6849, was
/// computed apart from this package.
#[rustfmt::skip]
const ENTRY_AT_20: [(usize, &[u8]); 16] = [
    (0, &[0x05, 0x01, 2, 0]), // tag identifier, version
    (4, &[0x85, 0, 0, 0]), // checksum, a zero, serial number
    (8, &[0x49, 0x68, 184, 0]), // CRC, CRC length
    (12, &[20, 0, 0, 0]), // tag location
    (20, &[4, 0]), // strategy
    (24, &[1, 0]), // maximum entries
    (27, &[5]), // file type
    (36, &[0xFF; 8]), // user, group
    (44, &[0x84, 0x10, 0, 0]), // permissions
    (48, &[1, 0]), // link count
    (56, &[0xE8, 0x1B, 0, 0, 0, 0, 0, 0]), // information length
    (64, &[4, 0, 0, 0, 0, 0, 0, 0]), // logical blocks recorded
    (108, &[1, 0, 0, 0]), // checkpoint
    (129, b"*Bench Station"), // implementation
    (172, &[24, 0, 0, 0]), // descriptor length
    (176, &[0, 16, 0, 0, 3, 0, 0, 0, 0, 8, 0, 0, 10, 0, 0, 0, 0xE8, 3, 0, 0, 12, 0, 0, 0]),
];

/// The crate's maker and the model's make the same entries, of which one is looked
/// at byte for byte; each is one at its block.
#[test]
fn entries_of_both_makers() {
    let mut sector = [0; SECTOR];
    for (at, field) in ENTRY_AT_20 {
        put(&mut sector, at, field);
    }
    assert_eq!(entry_sector(ENTRY, &three()), sector);
    for case in cases(3000) {
        let mut random = Random::of_case(case);
        let count = 1 + random.below(100);
        let mut any = || extent(random.next() as usize % (1 << 30), random.next() as u32);
        let extents: Vec<Extent> = (0..count).map(|_| any()).collect();
        let lent: Vec<station::Extent> = extents
            .iter()
            .map(|Extent { length, location }| station::Extent {
                length: *length,
                location: *location,
            })
            .collect();
        let block = random.next() as u32;
        let made = station::file_entry(&lent, block);
        assert!(made == entry_sector(block, &extents), "case {case}");
    }
    assert!(is_entry(&mut Pair::holding(&with_run(&three())), &sector));
    tell_compared("entries_of_both_makers");
}

/// Other bytes at a place, under right sums.
fn put_sealed(sector: &mut [u8; SECTOR], at: usize, bytes: &[u8]) {
    put(sector, at, bytes);
    seal(sector, ENTRY);
}

/// Other bytes in the tag, under the right checksum.
fn put_summed(sector: &mut [u8; SECTOR], at: usize, bytes: &[u8]) {
    put(sector, at, bytes);
    put_sum(sector);
}

/// Descriptor length and CRC length that agree, under right sums.
fn put_length(sector: &mut [u8; SECTOR], descriptors: u32) {
    put(sector, 10, &(160 + descriptors as u16).to_le_bytes());
    put_sealed(sector, 172, &descriptors.to_le_bytes());
}

/// The descriptors behind so many bytes of attributes, with lengths that agree.
fn put_behind(sector: &mut [u8; SECTOR], attributes: usize) {
    sector.copy_within(176..200, 176 + attributes);
    put(sector, 10, &(184 + attributes as u16).to_le_bytes());
    put_sealed(sector, 168, &(attributes as u32).to_le_bytes());
}

fn put_information(sector: &mut [u8; SECTOR], length: u64) {
    put_sealed(sector, 56, &length.to_le_bytes());
}

/// A change of an entry of [`three`], and whether it is one still.
type Variant = (&'static str, fn(&mut [u8; SECTOR]), bool);

const TAGS: [Variant; 25] = [
    ("as it is", |_| {}, true),
    ("identifier 260", |s| put_summed(s, 0, &[4, 1]), false),
    ("identifier 262", |s| put_summed(s, 0, &[6, 1]), false),
    ("identifier 266", |s| put_summed(s, 0, &[10, 1]), false),
    ("identifier 5", |s| put_summed(s, 0, &[5, 0]), false),
    ("version 1", |s| put_summed(s, 2, &[1, 0]), false),
    ("version 3", |s| put_summed(s, 2, &[3, 0]), false),
    ("version 258", |s| put_summed(s, 2, &[2, 1]), false),
    ("checksum one more", |s| s[4] = s[4].wrapping_add(1), false),
    ("checksum one less", |s| s[4] = s[4].wrapping_sub(1), false),
    ("byte 5 is 1", |s| put_summed(s, 5, &[1]), false),
    ("byte 5 is 128", |s| put_summed(s, 5, &[128]), false),
    ("serial number", |s| put_summed(s, 6, &[7, 9]), true),
    ("CRC's low byte", |s| put_summed(s, 8, &[s[8] ^ 1]), false),
    ("CRC's high byte", |s| put_summed(s, 9, &[s[9] ^ 1]), false),
    ("CRC length one less", |s| put_sealed(s, 10, &[183]), false),
    ("CRC length one more", |s| put_sealed(s, 10, &[185]), false),
    (
        "CRC length of the head",
        |s| put_sealed(s, 10, &[160]),
        false,
    ),
    (
        "CRC length with a high bit",
        |s| put_sealed(s, 11, &[1]),
        false,
    ),
    ("CRC length 0", |s| put_sealed(s, 10, &[0]), false),
    (
        "CRC length highest",
        |s| put_sealed(s, 10, &[0xFF; 2]),
        false,
    ),
    ("location one less", |s| seal(s, 19), false),
    ("location one more", |s| seal(s, 21), false),
    ("location 0", |s| seal(s, 0), false),
    ("location with a high bit", |s| seal(s, 20 | 1 << 24), false),
];

const HEADS: [Variant; 31] = [
    ("strategy 0", |s| put_sealed(s, 20, &[0]), false),
    ("strategy 3", |s| put_sealed(s, 20, &[3]), false),
    ("strategy 5", |s| put_sealed(s, 20, &[5]), false),
    ("strategy 260", |s| put_sealed(s, 21, &[1]), false),
    ("strategy 4096", |s| put_sealed(s, 20, &[0, 16]), false),
    ("file type 0", |s| put_sealed(s, 27, &[0]), false),
    ("file type 4", |s| put_sealed(s, 27, &[4]), false),
    ("file type 6", |s| put_sealed(s, 27, &[6]), false),
    ("file type 133", |s| put_sealed(s, 27, &[133]), false),
    ("allocation type 1", |s| put_sealed(s, 34, &[1]), false),
    ("allocation type 2", |s| put_sealed(s, 34, &[2]), false),
    ("allocation type 3", |s| put_sealed(s, 34, &[3]), false),
    ("allocation type 4", |s| put_sealed(s, 34, &[4]), false),
    (
        "the other flags",
        |s| put_sealed(s, 34, &[0xF8, 0xFF]),
        true,
    ),
    ("link count 0", |s| put_sealed(s, 48, &[0, 0]), true),
    ("link count 65,535", |s| put_sealed(s, 48, &[0xFF; 2]), true),
    ("information one less", |s| put_information(s, 7143), false),
    ("information one more", |s| put_information(s, 7145), false),
    ("information 0", |s| put_information(s, 0), false),
    (
        "information with bit 32",
        |s| put_information(s, 7144 | 1 << 32),
        false,
    ),
    (
        "information with bit 63",
        |s| put_information(s, 7144 | 1 << 63),
        false,
    ),
    ("blocks recorded 0", |s| put_sealed(s, 64, &[0; 8]), true),
    ("4 bytes of attributes", |s| put_behind(s, 4), false),
    ("8 bytes of attributes", |s| put_behind(s, 8), false),
    (
        "descriptors as attributes too",
        |s| put_behind(s, 24),
        false,
    ),
    (
        "attributes behind the descriptors",
        |s| {
            put(s, 10, &[192]);
            put_sealed(s, 168, &[8])
        },
        false,
    ),
    ("attribute length 8", |s| put_sealed(s, 168, &[8]), false),
    (
        "attribute length with a high bit",
        |s| put_sealed(s, 171, &[128]),
        false,
    ),
    (
        "attribute length 65,536",
        |s| put_sealed(s, 170, &[1]),
        false,
    ),
    ("a byte behind the descriptors", |s| put(s, 200, &[1]), true),
    ("the last byte", |s| put(s, 2047, &[1]), true),
];

const LENGTHS: [Variant; 14] = [
    ("no descriptors", |s| put_length(s, 0), false),
    (
        "none, and their total",
        |s| {
            put_length(s, 0);
            put_information(s, 0)
        },
        false,
    ),
    ("one byte less", |s| put_length(s, 23), false),
    ("one byte more", |s| put_length(s, 25), false),
    ("four bytes less", |s| put_length(s, 20), false),
    ("four bytes more", |s| put_length(s, 28), false),
    ("one descriptor less", |s| put_length(s, 16), false),
    (
        "one less, and its total",
        |s| {
            put_length(s, 16);
            put_information(s, 6144)
        },
        true,
    ),
    (
        "a descriptor more, of zeros",
        |s| {
            s[200..208].fill(0);
            put_length(s, 32)
        },
        false,
    ),
    ("65,536 more", |s| put_length(s, 24 | 1 << 16), false),
    ("a high bit", |s| put_length(s, 24 | 1 << 31), false),
    ("length alone", |s| put_sealed(s, 172, &[16]), false),
    ("as long as the sector", |s| put_length(s, 1872), false),
    ("longer than the sector", |s| put_length(s, 1880), false),
];

/// Each variant, and each with any bytes where nothing is asked.
#[test]
fn each_condition_alone() {
    let mut pair = Pair::holding(&with_run(&three()));
    let all = TAGS.iter().chain(&HEADS).chain(&LENGTHS);
    for (case, (name, change, expected)) in all.enumerate() {
        let mut random = Random::of_case(case);
        for fill in 0..20 {
            let mut sector = entry_sector(ENTRY, &three());
            if fill > 0 {
                free_fields(&mut random, &mut sector);
                seal(&mut sector, ENTRY);
            }
            change(&mut sector);
            assert_eq!(
                is_entry(&mut pair, &sector),
                *expected,
                "{name}, fill {fill}"
            );
        }
    }
    tell_compared("each_condition_alone");
}

/// Bytes whose value matters beyond the sums, of an entry of one extent of one
/// sector. Seal sets location and sums.
fn is_tested(at: usize) -> bool {
    let fields = [0..4, 5..6, 10..12, 20..22, 27..28, 56..64, 168..184];
    fields.iter().any(|field| field.contains(&at))
}

/// Each bit under right sums, and under the old ones: the checksum covers bytes 0 to
/// 15, and the CRC bytes 16 to the last descriptor.
#[test]
fn each_bit() {
    let one = [extent(SECTOR, 0)];
    let mut pair = Pair::holding(&with_run(&one));
    for bit in 0..8 * SECTOR {
        let (at, mask) = (bit / 8, 1 << (bit % 8));
        let mut sector = entry_sector(ENTRY, &one);
        sector[at] ^= mask;
        assert_eq!(is_entry(&mut pair, &sector), at >= 184, "bit {bit}");
        if (12..16).contains(&at) || at == 4 {
            continue;
        }
        seal(&mut sector, ENTRY);
        let low_flags = at == 34 && mask < 8;
        // Other blocks below the entry are data too.
        let other_block = at == 180 && mask < 32;
        let expected = !is_tested(at) && !low_flags || other_block;
        assert_eq!(is_entry(&mut pair, &sector), expected, "bit {bit} sealed");
    }
    tell_compared("each_bit");
}

/// A copy of an entry at another block is none; its own it is wherever the extents
/// lie below it.
#[test]
fn only_at_its_own_block() {
    let station = with_entry(&[0x5A; SECTOR]);
    for block in 0..30 {
        for location in 0..30 {
            let mut moved = station.clone();
            moved.put_sector(block, DATA, &entry_sector(location, &three()));
            name(&mut moved, &[block]);
            let expected = block == location && block > 12;
            assert_eq!(
                shows_a_run(&mut Pair::holding(&moved)),
                expected,
                "{location} at {block}"
            );
        }
    }
    tell_compared("only_at_its_own_block");
}

/// Random entries, random bytes of them changed, on discs of random kinds: the core
/// and the model agree, and of either answer there are many.
#[test]
fn random_entries() {
    let mut met = [0; 2];
    let all = cases(40_000);
    let whole = all.len() > 1;
    for case in all {
        let mut random = Random::of_case(case);
        let mut station = Station::blank(24);
        random.fill(&mut station.image);
        station.kinds.fill(DATA);
        for _ in 0..random.below(4) {
            station.kinds[random.below(23)] = random.pick(&[LINK, UNREADABLE]);
        }
        let mut sector = any_entry(&mut random, &station.kinds, 23);
        for _ in 0..random.below(3) * random.below(3) {
            let end = 24 + usize::from(u16_at(&sector, 10)).min(SECTOR - 24);
            sector[random.below(end)] = random.next() as u8;
            seal(&mut sector, 23);
        }
        station.put_sector(23, DATA, &sector);
        name(&mut station, &[23]);
        let mut pair = Pair::of_case(&station, case);
        let length = random.below(9000);
        met[usize::from(shows_a_run(&mut pair))] += 1;
        let offset = random.below(20_000) as u64;
        pair.call(Call::View { v: 0, offset }, &vec![0xC7; length]);
    }
    println!("{met:?} refused and shown");
    assert!(!whole || met.iter().all(|count| *count > 5_000), "{met:?}");
    tell_compared("random_entries");
}
