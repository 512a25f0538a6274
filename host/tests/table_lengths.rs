//! The lengths of a table sector, and where its table stands by them: "The table
//! [...] starts at 176 + attribute length (a multiple of 4), and the whole must
//! stay below one sector" (document 02). Each sector is held against the core and
//! the model in every place where a call asks whether it is one.

mod common;

use common::pair::tell_compared;
use common::recogniser::Recogniser;
use common::station::{done, Station};
use common::tables::{put_lengths, seal_over, vat_behind};
use station_model::calls::Call;
use station_model::disc::{DATA, LINK};
use station_model::fields::put;
use station_model::table::{seal, table_length, vat_sector, NONE, SECTOR};

const BLOCK: u32 = 11;

/// A table of unused entries behind so many bytes of attributes.
fn behind(attributes: usize, entries: usize) -> [u8; SECTOR] {
    let map = vec![NONE; entries];
    vat_behind(&vec![0xA7; attributes], BLOCK, &map, NONE)
}

/// The same sector with other lengths that agree, and right sums.
fn with_lengths(sector: &[u8; SECTOR], attributes: u32, descriptors: u32) -> [u8; SECTOR] {
    let mut changed = *sector;
    put_lengths(&mut changed, attributes, descriptors);
    seal(&mut changed, BLOCK);
    changed
}

/// "The table length is 4 × N + 36 exactly": tables of every length, also such
/// as leave the sector, with a CRC over the whole length and over the table.
#[test]
fn tables_of_every_length() {
    let mut recogniser = Recogniser::at(BLOCK);
    for attributes in [0usize, 4, 220, 1000, 1832] {
        for length in 0..=1875 - attributes {
            let entries = length.saturating_sub(36) / 4;
            let whole = 176 + attributes + length;
            let expected = length >= 36 && length % 4 == 0 && whole < 2048;
            let table = behind(attributes, entries);
            let mut changed = with_lengths(&table, attributes as u32, length as u32);
            let found = recogniser.is_vat(&changed);
            assert_eq!(found, expected, "{length} behind {attributes}");
            let covered = 160 + attributes + table_length(entries);
            seal_over(&mut changed, BLOCK, covered);
            let found = recogniser.is_vat(&changed);
            assert_eq!(found, expected, "{length} behind {attributes}");
        }
    }
    tell_compared("tables_of_every_length");
}

/// "CRC length = 160 + attribute length + descriptor length": with any other
/// there is no table, nor if the CRC covers what the right one would.
#[test]
fn every_crc_length() {
    let mut recogniser = Recogniser::at(BLOCK);
    for attributes in [0, 4, 220] {
        let table = behind(attributes, 1);
        let right = 160 + attributes + 40;
        for length in (0..=2032).chain([2033, right | 1 << 15, usize::from(u16::MAX)]) {
            let mut changed = table;
            put(&mut changed, 10, &(length as u16).to_le_bytes());
            seal(&mut changed, BLOCK);
            assert_eq!(recogniser.is_vat(&changed), length == right, "{length}");
            seal_over(&mut changed, BLOCK, right);
            assert_eq!(recogniser.is_vat(&changed), length == right, "{length}");
        }
    }
    tell_compared("every_crc_length");
}

/// "a multiple of 4": attributes of every length, also such as move the table
/// out of the sector. All else is right.
#[test]
fn attributes_of_every_length() {
    let mut recogniser = Recogniser::at(BLOCK);
    for entries in [0, 1, 2, 7, 100, 403, 457, 458] {
        for attributes in 0..=1840 - 4 * entries {
            let whole = 176 + attributes + 4 * entries + 36;
            let expected = attributes % 4 == 0 && whole < 2048;
            let found = recogniser.is_vat(&behind(attributes, entries));
            assert_eq!(found, expected, "{entries} behind {attributes}");
        }
    }
    tell_compared("attributes_of_every_length");
}

/// "the whole must stay below one sector": behind attributes of each length the
/// most entries, and one more, which fills the sector to its last byte.
#[test]
fn most_entries_behind_attributes() {
    let mut recogniser = Recogniser::at(BLOCK);
    for attributes in (0..=1832).step_by(4) {
        let most = (1832 - attributes) / 4;
        assert!(recogniser.is_vat(&behind(attributes, most)));
        assert_eq!(176 + attributes + table_length(most + 1), SECTOR);
        assert!(!recogniser.is_vat(&behind(attributes, most + 1)));
    }
    tell_compared("most_entries_behind_attributes");
}

/// What mount and look back show of a disc whose last sector, block 11, is the
/// given one, and block 3 a table of no entries.
fn assert_shown(newest: &[u8; SECTOR], map: &[u32]) {
    let mut station = Station::blank(12);
    station.kinds.fill(LINK);
    station.put_sector(3, DATA, &vat_sector(3, &[], NONE));
    station.put_sector(BLOCK, DATA, newest);
    assert_eq!(station.call(Call::Mount), done(1));
    assert_eq!(station.volume().entries(), map);
    assert_eq!(station.volume().last_vat, BLOCK);
    assert_eq!(station.call(Call::LookBack(0)), done(BLOCK));
    assert_eq!(station.volume().entries(), map);
    assert_eq!(station.call(Call::LookBack(1)), done(3));
    assert_eq!(station.volume().entries(), []);
}

/// Mount and look back take the entries and the previous block from behind the
/// attributes.
#[test]
fn map_and_previous_behind_attributes() {
    for size in [0, 1, 3, 100, 403, 457, 458] {
        let map: Vec<u32> = (0..size).map(|v| v % 11).collect();
        let most = 1832 - 4 * map.len();
        for attributes in [0, 4, 8, 220, most - most.min(4), most] {
            let attributes = vec![0; attributes.min(most)];
            assert_shown(&vat_behind(&attributes, BLOCK, &map, 3), &map);
        }
    }
    tell_compared("map_and_previous_behind_attributes");
}

/// One table behind another: the attribute length says which of them it is. A
/// table that stands elsewhere than it says is none.
#[test]
fn the_attribute_length_says_where_the_table_stands() {
    let first = vat_sector(BLOCK, &[1], 3);
    let length = table_length(1);
    let both = vat_behind(&first[176..176 + length], BLOCK, &[2], 3);
    assert_shown(&both, &[2]);
    assert_shown(&with_lengths(&both, 0, 40), &[1]);
    let mut recogniser = Recogniser::at(BLOCK);
    assert!(recogniser.is_vat(&first));
    assert!(!recogniser.is_vat(&with_lengths(&first, 40, 40)));
    let second = vat_behind(&[0; 40], BLOCK, &[2], 3);
    assert!(recogniser.is_vat(&second));
    for attributes in (0..=1796).filter(|length| *length != 40) {
        let elsewhere = with_lengths(&second, attributes, 40);
        assert!(!recogniser.is_vat(&elsewhere), "{attributes}");
    }
    tell_compared("the_attribute_length_says_where_the_table_stands");
}

/// Lengths of which fewer than 32 bits are right, and the table stands where
/// these bits say.
#[test]
fn lengths_with_a_high_bit() {
    let mut recogniser = Recogniser::at(BLOCK);
    for attributes in [0, 4, 220, 1828] {
        let table = behind(attributes, 1);
        let attributes = attributes as u32;
        assert!(recogniser.is_vat(&with_lengths(&table, attributes, 40)));
        for bit in 11..32 {
            let far = with_lengths(&table, attributes | 1 << bit, 40);
            assert!(!recogniser.is_vat(&far), "{attributes}, bit {bit}");
            let long = with_lengths(&table, attributes, 40 | 1 << bit);
            assert!(!recogniser.is_vat(&long), "{attributes}, bit {bit}");
        }
    }
    tell_compared("lengths_with_a_high_bit");
}

/// Lengths whose sum with 176 or 160 is small if it has but 32 bits.
#[test]
fn lengths_whose_sum_wraps() {
    let mut recogniser = Recogniser::at(BLOCK);
    let back = [1, 4, 36, 40, 44, 160, 172, 176, 196, 212, 216, 1832, 2048];
    let near_the_end = back.map(|length: u32| length.wrapping_neg());
    for length in near_the_end.into_iter().chain([1 << 31, (1 << 31) - 4]) {
        for attributes in [0, 4, 220] {
            let table = behind(attributes, 1);
            let rest = length.wrapping_neg();
            for (attributes, descriptors) in [
                (length, 36),
                (length, 40),
                (attributes as u32, length),
                (length, rest),
                (length, rest.wrapping_add(36)),
                (length, rest.wrapping_add(40)),
            ] {
                let wrapped = with_lengths(&table, attributes, descriptors);
                let found = recogniser.is_vat(&wrapped);
                assert!(!found, "{descriptors} behind {attributes}");
            }
        }
    }
    tell_compared("lengths_whose_sum_wraps");
}

/// A block above the lengths of small tables, which may then be taken for
/// entries.
const HIGH_BLOCK: u32 = 60;

/// A table so many bytes before byte 176, which is where a sum of 32 bits would
/// put it, with the attribute length and the descriptor length written over it.
fn table_before_176(back: usize, entries: usize) -> [u8; SECTOR] {
    let mut sector = vat_sector(HIGH_BLOCK, &vec![NONE; entries], NONE);
    let length = table_length(entries);
    sector.copy_within(176..176 + length, 176 - back);
    put_lengths(&mut sector, (back as u32).wrapping_neg(), length as u32);
    seal(&mut sector, HIGH_BLOCK);
    sector
}

/// With an attribute length near 2 to the 32, and all rows right for a sum that
/// wraps, there is no table.
#[test]
fn tables_where_a_sum_would_wrap_to() {
    let mut recogniser = Recogniser::at(HIGH_BLOCK);
    assert!(recogniser.is_vat(&table_before_176(0, 1)));
    for back in (4..=112).step_by(4) {
        for entries in 0..=12 {
            let wrapped = table_before_176(back, entries);
            assert!(!recogniser.is_vat(&wrapped), "{entries} at 176 - {back}");
        }
    }
    tell_compared("tables_where_a_sum_would_wrap_to");
}
