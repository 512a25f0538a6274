//! Every byte of a table sector with its table embedded: tested by recognition or
//! not, as document 01 says. Each sector is held against the core and the model in
//! every place where a call asks whether it is one.

mod common;

use common::forge;
use common::pair::tell_compared;
use common::random::{cases, Random};
use common::recogniser::Recogniser;
use common::station::{done, Station};
use common::tables::{is_tested_in_header, most_attributes, vat_behind, MOST_EMBEDDED};
use station_model::calls::Call;
use station_model::disc::{DATA, UNREADABLE};
use station_model::table::{seal, NONE, SECTOR};

const BLOCK: u32 = 11;

/// Bytes of extended attributes before the table: none, a word, and as many as
/// `mkudffs` records.
const ATTRIBUTES: [usize; 3] = [0, 4, 220];

/// A table sector of the block behind so many bytes of attributes.
fn behind(attributes: usize, map: &[u32], previous: u32) -> [u8; SECTOR] {
    vat_behind(&vec![0xA7; attributes], BLOCK, map, previous)
}

/// Two entries, previous 3: the table has 44 bytes.
fn sector(attributes: usize) -> [u8; SECTOR] {
    behind(attributes, &[NONE, 2], 3)
}

fn end(attributes: usize) -> usize {
    176 + attributes + 44
}

/// Bytes whose value matters beyond the sums. The previous block and the
/// entries matter by their size; seal sets location and sums.
fn is_tested(at: usize, attributes: usize) -> bool {
    let (entries, regid) = (176 + attributes, 184 + attributes);
    let previous = regid + 32;
    let fields = [
        168..176,
        entries..regid,
        regid + 1..regid + 24,
        previous..previous + 4,
    ];
    is_tested_in_header(at) || fields.iter().any(|field| field.contains(&at))
}

/// "A sector of kind 1 is a table sector exactly if all of this holds": a
/// field changed under right sums. The attributes' bytes may be anything.
#[test]
fn each_byte_under_right_sums() {
    let mut recogniser = Recogniser::at(BLOCK);
    for attributes in ATTRIBUTES {
        assert!(recogniser.is_vat(&sector(attributes)));
        for at in (0..SECTOR).filter(|at| !(12..16).contains(at) && *at != 4) {
            let mut changed = sector(attributes);
            changed[at] ^= 0x44;
            seal(&mut changed, BLOCK);
            let expected = !is_tested(at, attributes);
            assert_eq!(recogniser.is_vat(&changed), expected, "{at}, {attributes}");
        }
    }
    tell_compared("each_byte_under_right_sums");
}

/// The sum covers bytes 0 to 15, the CRC bytes 16 to the table's end, and so
/// the attributes too.
#[test]
fn each_byte_under_the_old_sums() {
    let mut recogniser = Recogniser::at(BLOCK);
    for attributes in ATTRIBUTES {
        for at in 0..SECTOR {
            let mut changed = sector(attributes);
            changed[at] ^= 0x40;
            let expected = at >= end(attributes);
            assert_eq!(recogniser.is_vat(&changed), expected, "{at}, {attributes}");
        }
    }
    tell_compared("each_byte_under_the_old_sums");
}

/// The same for tables of other sizes and behind other attributes; every bit of
/// the file entry's own fields and of the table's first 60 bytes.
#[test]
fn each_byte_of_other_tables() {
    let mut recogniser = Recogniser::at(BLOCK);
    for (attributes, size) in [
        (0, 0),
        (0, 1),
        (0, 5),
        (0, 457),
        (0, 458),
        (4, 1),
        (220, 403),
        (1832, 0),
    ] {
        let table = 176 + attributes;
        for at in 0..SECTOR {
            let masks: &[u8] = if at < 176 || (table..table + 60).contains(&at) {
                &[1, 2, 4, 8, 16, 32, 64, 128]
            } else {
                &[0x81]
            };
            for mask in masks {
                let mut changed = behind(attributes, &vec![4; size], 3);
                changed[at] ^= mask;
                recogniser.is_vat(&changed);
                seal(&mut changed, BLOCK);
                recogniser.is_vat(&changed);
            }
        }
    }
    tell_compared("each_byte_of_other_tables");
}

/// "flags (16 bits): low three bits 3, embedded"; what stands behind the head is no
/// descriptors of own sectors, so that it is no table with low three bits 0.
#[test]
fn only_the_low_bits_of_the_flags() {
    let mut recogniser = Recogniser::at(BLOCK);
    for flags in (0..=u16::MAX).step_by(7) {
        let mut changed = sector(0);
        changed[34..36].copy_from_slice(&flags.to_le_bytes());
        seal(&mut changed, BLOCK);
        assert_eq!(recogniser.is_vat(&changed), flags % 8 == 3);
    }
    tell_compared("only_the_low_bits_of_the_flags");
}

/// "Each entry and the previous block is FFFFFFFF or less than b."
#[test]
fn entries_and_previous_below_the_block() {
    let mut recogniser = Recogniser::at(BLOCK);
    for (block, allowed) in [
        (0, true),
        (10, true),
        (11, false),
        (12, false),
        (0x0100_0000, false),
        (NONE - 1, false),
        (NONE, true),
    ] {
        for attributes in ATTRIBUTES {
            let entry = behind(attributes, &[block], NONE);
            let previous = behind(attributes, &[], block);
            assert_eq!(recogniser.is_vat(&entry), allowed);
            assert_eq!(recogniser.is_vat(&previous), allowed);
        }
    }
    let mut first = Recogniser::at(0);
    for attributes in ATTRIBUTES.map(|length| vec![0xA7; length]) {
        assert!(first.is_vat(&vat_behind(&attributes, 0, &[NONE], NONE)));
        assert!(!first.is_vat(&vat_behind(&attributes, 0, &[0], NONE)));
        assert!(!first.is_vat(&vat_behind(&attributes, 0, &[], 0)));
    }
    tell_compared("entries_and_previous_below_the_block");
}

/// Each entry is looked at: of 458, and of 403 behind attributes.
#[test]
fn each_entry_below_the_block() {
    let mut recogniser = Recogniser::at(BLOCK);
    for (attributes, size) in [(0, MOST_EMBEDDED), (220, 403)] {
        for v in 0..size {
            for (block, allowed) in [(BLOCK - 1, true), (BLOCK, false), (NONE, true)] {
                let mut map = vec![NONE; size];
                map[v] = block;
                let sector = behind(attributes, &map, NONE);
                assert_eq!(recogniser.is_vat(&sector), allowed, "entry {v} of {size}");
            }
        }
    }
    tell_compared("each_entry_below_the_block");
}

/// Serial number, flags, times, attributes, suffix, unique id and the like as
/// another writer has them: still a table, at its own block and no other.
#[test]
fn foreign_fields() {
    let mut recogniser = Recogniser::at(BLOCK);
    for case in cases(2000) {
        let mut random = Random::of_case(case);
        let size = random.pick(&[0, 1, 3, 200, 458]);
        let most = most_attributes(size);
        let attributes = random.pick(&[0, most.min(4), most.min(220), most]);
        let mut foreign = behind(attributes, &vec![7; size], NONE);
        forge::foreign_fields(&mut random, &mut foreign);
        seal(&mut foreign, BLOCK);
        assert!(recogniser.is_vat(&foreign), "case {case}");
        for other in [0, 10, 12, BLOCK << 8, NONE] {
            seal(&mut foreign, other);
            assert!(!recogniser.is_vat(&foreign), "case {case} at {other}");
        }
    }
    tell_compared("foreign_fields");
}

/// "A sector of kind 1": the same bytes with another kind are no table.
#[test]
fn only_kind_1() {
    for kind in DATA..=UNREADABLE {
        for attributes in ATTRIBUTES {
            let mut station = Station::blank(20);
            station.kinds[..11].fill(DATA);
            station.put_sector(BLOCK, kind, &sector(attributes));
            let answer = station.call(Call::Mount);
            assert_eq!(answer == done(1), kind == DATA);
        }
    }
    tell_compared("only_kind_1");
}
