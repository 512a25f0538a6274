//! The lengths of tables in sectors of their own, and where these lie (document 02): of
//! every size, behind attributes of every length, in any blocks and any order. Each
//! table is held against the core and the model in every place where a call asks
//! whether it is one.

mod common;

use common::large::{map_over, most_attributes, places, Large, SIZES};
use common::pair::tell_compared;
use common::recogniser::Recogniser;
use common::station::{done, refused, Station};
use common::tables::{put_described, vat_behind};
use station_model::calls::Call;
use station_model::disc::DATA;
use station_model::extent::Extent;
use station_model::fields::{put, u32_at};
use station_model::own::filled;
use station_model::table::{own_icb, seal, table_bytes, vat_sector, NONE, SECTOR};
use station_model::time::NO_STAMP;

const BLOCK: u32 = 30;

/// Blocks of own sectors in no order, one more than a table has.
const OWN: [u32; 9] = [11, 2, 5, 9, 14, 1, 20, 8, 26];

/// Whether the table is one, with its own sectors where they should be.
fn is_vat(recogniser: &mut Recogniser, large: &Large) -> bool {
    for (block, bytes) in large.sectors() {
        recogniser.put_below(block, DATA, &bytes);
    }
    recogniser.is_vat(&large.icb())
}

/// An ICB that names these bytes of each of the blocks, behind no attributes.
fn icb(lengths: &[usize]) -> [u8; SECTOR] {
    let extent = |(length, location): (&usize, u32)| Extent {
        length: *length as u32,
        location,
    };
    let own: Vec<Extent> = lengths.iter().zip(OWN).map(extent).collect();
    own_icb(BLOCK, &own, &NO_STAMP)
}

/// "1 to 8 sectors": maps of every size about those that fill their sectors, also small
/// ones. A place more is empty, and with a place less the regid is missing.
#[test]
fn tables_of_each_size() {
    let mut recogniser = Recogniser::at(BLOCK);
    let about = (1..8).flat_map(|count| 512 * count - 12..512 * count + 2);
    for size in (0..30).chain(about).chain(SIZES).chain([4087, 4088]) {
        let map = map_over(BLOCK, size);
        let large = Large::lying_in(&OWN[..places(size)], BLOCK, &map, 7);
        assert_eq!(is_vat(&mut recogniser, &large), size <= 4087, "{size}");
        let mut lengths: Vec<usize> = large.own.iter().map(|_| SECTOR).collect();
        lengths[places(size) - 1] = (4 * size + 36 - 1) % SECTOR + 1;
        assert_eq!(recogniser.is_vat(&icb(&lengths)), size <= 4087, "{size}");
        lengths.pop();
        assert!(!recogniser.is_vat(&icb(&lengths)), "{size}, a place less");
        lengths.extend([SECTOR, 0]);
        lengths.truncate(9);
        assert!(!recogniser.is_vat(&icb(&lengths)), "{size}, an empty place");
    }
    tell_compared("tables_of_each_size");
}

/// "information length = table length" and 4 × N + 36 exactly: tables of every number of
/// bytes in one sector and in two, with the regid where the length says.
#[test]
fn tables_of_every_length() {
    let mut recogniser = Recogniser::at(BLOCK);
    for length in (1..90).chain(1860..2300) {
        let entries = usize::saturating_sub(length, 36) / 4;
        let mut table = table_bytes(&map_over(BLOCK, entries), 7);
        table.resize(2 * SECTOR, 0);
        for (block, bytes) in OWN.into_iter().zip(filled(&table)) {
            recogniser.put_below(block, DATA, &bytes);
        }
        let lengths = match length.checked_sub(SECTOR) {
            None | Some(0) => vec![length],
            Some(rest) => vec![SECTOR, rest],
        };
        let expected = length >= 36 && length % 4 == 0;
        assert_eq!(recogniser.is_vat(&icb(&lengths)), expected, "{length}");
    }
    tell_compared("tables_of_every_length");
}

/// "full but the last": a table cut into two at every word is none, but where the first
/// is full.
#[test]
fn tables_cut_elsewhere() {
    let mut recogniser = Recogniser::at(BLOCK);
    let table = table_bytes(&map_over(BLOCK, 600), 7);
    for first in (4..SECTOR + 1).step_by(4) {
        let (one, other) = table.split_at(first);
        for (block, bytes) in OWN.into_iter().zip([one, other]) {
            let mut sector = [0; SECTOR];
            let held = bytes.len().min(SECTOR);
            sector[..held].copy_from_slice(&bytes[..held]);
            recogniser.put_below(block, DATA, &sector);
        }
        let found = recogniser.is_vat(&icb(&[first, table.len() - first]));
        assert_eq!(found, first == SECTOR, "{first}");
    }
    tell_compared("tables_cut_elsewhere");
}

/// The regid may lie across the border of two sectors; each byte of its text counts.
#[test]
fn regids_across_a_border() {
    let mut recogniser = Recogniser::at(BLOCK);
    for size in 503..=512 {
        let large = Large::lying_in(&OWN[..2], BLOCK, &map_over(BLOCK, size), 7);
        for at in 0..36 {
            let mut table = table_bytes(&large.map, large.previous);
            table[4 * size + at] ^= 0x80;
            for (block, bytes) in OWN.into_iter().zip(filled(&table)) {
                recogniser.put_below(block, DATA, &bytes);
            }
            let is_free = at == 0 || (24..32).contains(&at);
            let own = &OWN[..places(size)];
            let icb = Large::lying_in(own, BLOCK, &large.map, 7).icb();
            assert_eq!(recogniser.is_vat(&icb), is_free, "{at} of {size}");
        }
    }
    tell_compared("regids_across_a_border");
}

/// "attributes as in R-2": of every length, a multiple of 4 and so many that "the whole"
/// stays below one sector.
#[test]
fn attributes_of_every_length() {
    let mut recogniser = Recogniser::at(BLOCK);
    for size in [1, 1100, 4087] {
        let count = places(size);
        let mut large = Large::lying_in(&OWN[..count], BLOCK, &map_over(BLOCK, size), 7);
        assert!(is_vat(&mut recogniser, &large));
        for length in 0..=SECTOR - 176 - 8 * count {
            large.attributes = vec![0xA7; length];
            let expected = length % 4 == 0 && length <= most_attributes(count);
            assert_eq!(recogniser.is_vat(&large.icb()), expected, "{length}");
        }
    }
    tell_compared("attributes_of_every_length");
}

/// Lengths of which only the low bits are right, or whose sum wraps.
#[test]
fn lengths_with_a_high_bit() {
    let mut recogniser = Recogniser::at(BLOCK);
    let mut large = Large::lying_in(&OWN[..3], BLOCK, &map_over(BLOCK, 1100), 7);
    large.attributes = vec![0xA7; 220];
    assert!(is_vat(&mut recogniser, &large));
    let far = (11..32).map(|bit| (220 | 1 << bit, 24));
    let long = (6..32).map(|bit| (220, 24 | 1 << bit));
    let wrapped = [(220u32.wrapping_sub(24), 48), (4u32.wrapping_neg(), 248)];
    for (attributes, descriptors) in far.chain(long).chain(wrapped) {
        let mut icb = large.icb();
        put_described(&mut icb, attributes, descriptors);
        seal(&mut icb, BLOCK);
        assert!(!recogniser.is_vat(&icb), "{attributes}, {descriptors}");
    }
    tell_compared("lengths_with_a_high_bit");
}

/// What mount and look back show of a disc whose last sector is this table's ICB.
fn assert_shown(large: &Large) {
    let mut station = Station::blank(BLOCK as usize + 1);
    station.kinds.fill(DATA);
    station.put_sector(0, DATA, &vat_sector(0, &[], NONE));
    large.put(&mut station);
    for (call, answer) in [(Call::Mount, done(1)), (Call::LookBack(0), done(BLOCK))] {
        assert_eq!(station.call(call), answer);
        assert_eq!(station.volume().entries(), large.map);
        assert_eq!(station.volume().last_vat, BLOCK);
    }
    assert_eq!(station.call(Call::LookBack(1)), done(0));
}

/// Map and previous come from the own sectors, whatever their order, one block at two
/// places, the map on the own sectors themselves and on the table before.
#[test]
fn what_is_shown() {
    for size in SIZES {
        let count = places(size);
        let orders = [
            (1..=count as u32).collect::<Vec<u32>>(),
            (1..=count as u32).rev().collect(),
            OWN[..count].to_vec(),
        ];
        for own in orders {
            let mut large = Large::lying_in(&own, BLOCK, &map_over(BLOCK, size), 0);
            assert_shown(&large);
            large.attributes = vec![0; 220];
            assert_shown(&large);
        }
    }
    let shared = [5, 5, 5, 5, 5, 5, 5, 9];
    assert_shown(&Large::lying_in(&shared, BLOCK, &[4; 4087], 0));
    tell_compared("what_is_shown");
}

/// A table sector at block 9 that is the last own sector of another table too: of its
/// first 8 bytes the tag's identifier and version are in the regid's suffix, which may
/// be anything, and the checksum and a zero are the previous block.
fn table_and_own_sector() -> ([u8; SECTOR], u32) {
    for filler in 0..=255 {
        let icb = vat_behind(&[filler; 4], 9, &[3], NONE);
        if icb[4] < 9 {
            return (icb, u32_at(&icb, 4));
        }
    }
    panic!("no table with a low checksum");
}

/// "be tables themselves": both are tables, and roles count both.
#[test]
fn own_sectors_that_are_tables() {
    let (icb, previous) = table_and_own_sector();
    let map = map_over(BLOCK, 505);
    let large = Large::lying_in(&[4, 9], BLOCK, &map, previous);
    let mut station = Station::blank(60);
    station.kinds[..BLOCK as usize].fill(DATA);
    large.put(&mut station);
    station.put_sector(9, DATA, &icb);
    assert_eq!(station.call(Call::Mount), done(1));
    assert_eq!(station.volume().entries(), map);
    assert_eq!([4, 9, 30].map(|block: usize| station.roles[block]), [3; 3]);
    station.kinds[4] = 2;
    assert_eq!(station.call(Call::Mount), done(0));
    assert_eq!(station.volume().entries(), [3]);
    tell_compared("own_sectors_that_are_tables");
}

/// An ICB that names itself as its last own sector, of which it holds all 8 bytes: its
/// block is not below it.
#[test]
fn an_icb_that_names_itself() {
    let map = map_over(BLOCK, 505);
    let mut large = Large::lying_in(&[4, BLOCK], BLOCK, &map, NONE);
    let named = (0..=255).map(|filler| {
        large.attributes = vec![filler; 4];
        large.icb()
    });
    let icb = named.into_iter().find(|icb| u32::from(icb[4]) < BLOCK);
    let icb = icb.expect("a low checksum");
    let mut recogniser = Recogniser::at(BLOCK);
    let (block, bytes) = large.sectors()[0];
    recogniser.put_below(block, DATA, &bytes);
    assert!(!recogniser.is_vat(&icb));
    let mut elsewhere = icb;
    put(&mut elsewhere, 176 + 4 + 12, &9u32.to_le_bytes());
    seal(&mut elsewhere, BLOCK);
    recogniser.put_below(9, DATA, &icb);
    assert!(
        recogniser.is_vat(&elsewhere),
        "the same bytes at a block below"
    );
    tell_compared("an_icb_that_names_itself");
}

/// Look back stops at a table one of whose own sectors is no longer of kind 1, and goes
/// on where only another table's is lost.
#[test]
fn chains_through_own_sectors() {
    let mut station = Station::blank(60);
    station.kinds[..12].fill(DATA);
    Large::lying_in(&[0, 1], 5, &map_over(5, 600), NONE).put(&mut station);
    Large::lying_in(&[2, 3], 8, &map_over(8, 700), 5).put(&mut station);
    Large::lying_in(&[4], 11, &[1], 8).put(&mut station);
    for (lost, answers) in [
        (None, [done(11), done(8), done(5), refused(9)]),
        (Some(1), [done(11), done(8), refused(8), refused(8)]),
        (Some(2), [done(11), refused(8), refused(8), refused(8)]),
        (Some(4), [done(8), done(5), refused(9), refused(9)]),
    ] {
        let mut broken = station.clone();
        if let Some(block) = lost {
            broken.kinds[block] = 3;
        }
        for (k, answer) in (0..).zip(answers) {
            assert_eq!(broken.call(Call::LookBack(k)), answer, "{lost:?}, {k}");
        }
    }
    tell_compared("chains_through_own_sectors");
}
