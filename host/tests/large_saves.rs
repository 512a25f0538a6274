//! What a save of more than 458 numbers records (document 02): "An own sector whose 2,048
//! bytes equal those of the own sector at its place in the table named as previous is
//! named again and not recorded; the rest come before the ICB, in order." Each call is
//! made on the core and on the model, and compared; what a save left is read here from
//! its bytes.

mod common;

use common::built::BLOCK;
use common::large::{lend_map, map_over, places, with_data, Large, SIZES};
use common::pair::{tell_compared, Pair};
use common::saved::{assert_saved, named_by};
use common::stamps::HALF_PAST;
use common::station::{done, refused, Station};
use common::tables::vat_behind;
use station_model::calls::Call;
use station_model::disc::DATA;
use station_model::fields::put;
use station_model::table::{seal, NONE, SECTOR};

/// Data on the first blocks, a previous table behind them, and room for a save.
const DATA_BLOCKS: u32 = 20;
const SECTORS: usize = 90;

/// Commits on a copy, in an open packet and behind links, and mounts what was saved.
fn saves(station: &Station) -> usize {
    let counts = [0, 1].map(|mode| {
        let mut before = station.clone();
        before.change(|volume| volume.mode = mode);
        let mut after = before.clone();
        let answer = after.call(Call::Commit);
        assert!(answer.is_done(), "{answer:?}");
        let count = assert_saved(&before, &after, answer.second);
        assert_eq!(after.call(Call::Mount), done(1));
        assert_eq!(after.volume().entries(), before.volume().entries());
        assert_eq!(after.volume().last_vat, answer.second);
        count
    });
    assert_eq!(counts[0], counts[1]);
    counts[0]
}

/// A name, the tables before a save of this map, of which the last is its previous one,
/// and how many sectors a save of so many numbers then names again.
type Previous = (&'static str, fn(&[u32]) -> Vec<Large>, fn(usize) -> usize);

const PREVIOUS: [Previous; 8] = [
    ("none", |_| vec![], |_| 0),
    (
        "of the same map",
        |map| vec![Large::recorded_from(DATA_BLOCKS, map, NONE)],
        |size| places(size) - 1,
    ),
    (
        "of the same map, reversed, behind attributes",
        |map| {
            let mut own: Vec<u32> = (DATA_BLOCKS..).take(places(map.len())).collect();
            own.reverse();
            let mut large = Large::lying_in(&own, 40, map, 3);
            large.attributes = vec![0xA7; 220];
            vec![large]
        },
        |size| places(size) - 1,
    ),
    (
        "with fewer places",
        |map| {
            vec![Large::recorded_from(
                DATA_BLOCKS,
                &map[..map.len() / 2],
                NONE,
            )]
        },
        |size| size / 2 / 512,
    ),
    (
        "with more places",
        |map| {
            let longer = [map, &[NONE; 4087][map.len()..]].concat();
            vec![Large::recorded_from(DATA_BLOCKS, &longer, NONE)]
        },
        |size| match size {
            4087 => 7,
            _ => size / 512,
        },
    ),
    (
        "of the same sectors, a place further on",
        |map| {
            let shifted = [&[NONE; 512], map].concat();
            let shifted = &shifted[..shifted.len().min(4087)];
            vec![Large::recorded_from(DATA_BLOCKS, shifted, NONE)]
        },
        |_| 0,
    ),
    (
        "of another map, behind one of the same",
        |map| {
            let other: Vec<u32> = map.iter().map(|_| 7).collect();
            let same = Large::recorded_from(DATA_BLOCKS, map, NONE);
            let newest = Large::recorded_from(same.block + 1, &other, same.block);
            vec![same, newest]
        },
        |_| 0,
    ),
    (
        "small, in an own sector",
        |_| vec![Large::recorded_from(DATA_BLOCKS, &[1, 2, NONE], NONE)],
        |_| 0,
    ),
];

/// Sizes of every number of places over every sort of previous table.
#[test]
fn every_size_over_every_previous_table() {
    for size in SIZES {
        let map = map_over(DATA_BLOCKS, size);
        for (name, previous, named_again) in PREVIOUS {
            let mut station = with_data(SECTORS, DATA_BLOCKS);
            for large in previous(&map) {
                for block in station.disc().recorded()..large.block {
                    station.put_sector(block, DATA, &BLOCK);
                }
                large.put(&mut station);
            }
            lend_map(&mut station, &map, 0);
            let recorded = match size {
                0..=458 => 0,
                _ => places(size) - named_again(size),
            };
            assert_eq!(saves(&station), recorded, "{size}, {name}");
        }
    }
    tell_compared("every_size_over_every_previous_table");
}

/// Over an embedded table, ours or another deck's, all is recorded.
#[test]
fn over_embedded_tables() {
    for size in SIZES {
        let map = map_over(DATA_BLOCKS, size);
        for attributes in [0, 220] {
            let held = &map[..size.min(400)];
            let mut station = with_data(SECTORS, DATA_BLOCKS);
            let table = vat_behind(&vec![0xA7; attributes], DATA_BLOCKS, held, NONE);
            station.put_sector(DATA_BLOCKS, DATA, &table);
            lend_map(&mut station, &map, 0);
            let expected = if size > 458 { places(size) } else { 0 };
            assert_eq!(saves(&station), expected, "{size}");
        }
    }
    tell_compared("over_embedded_tables");
}

/// One block at several places of the previous table, which hold the same: each is named
/// again as its own place.
#[test]
fn over_a_block_at_several_places() {
    let mut map = vec![4; 4087];
    let shared = [30, 30, 31, 30, 30, 30, 30, 32];
    let mut station = with_data(SECTORS, 33);
    Large::lying_in(&shared, 33, &map, NONE).put(&mut station);
    station.put_sector(31, DATA, station.clone().sector(30));
    lend_map(&mut station, &map, 0);
    assert_eq!(saves(&station), 1);
    map[600] = 5;
    lend_map(&mut station, &map, 0);
    assert_eq!(saves(&station), 2);
    tell_compared("over_a_block_at_several_places");
}

/// "the table named as previous" is the ledger's last: not a newer one of the disc, nor
/// any where the ledger has none, though their bytes are the same.
#[test]
fn over_the_ledgers_last_table_alone() {
    let map = map_over(DATA_BLOCKS, 1100);
    let other = vec![7; 1100];
    let mut station = with_data(SECTORS, DATA_BLOCKS);
    let older = Large::recorded_from(DATA_BLOCKS, &other, NONE);
    let newer = Large::recorded_from(older.block + 1, &map, older.block);
    older.put(&mut station);
    newer.put(&mut station);
    lend_map(&mut station, &map, 0);
    for (last, of_map, of_other) in [(newer.block, 1, 3), (older.block, 3, 1), (NONE, 3, 3)] {
        station.change(|volume| volume.last_vat = last);
        for (saved, recorded) in [(&map, of_map), (&other, of_other)] {
            station.change(|volume| volume.map[..1100].copy_from_slice(saved));
            assert_eq!(saves(&station), recorded, "over {last}");
        }
    }
    tell_compared("over_the_ledgers_last_table_alone");
}

/// Each number written anew changes the sector that holds its entry, and no other but
/// the last, which holds the previous block.
#[test]
fn each_number_changes_its_own_sector() {
    let map = map_over(DATA_BLOCKS, 1100);
    let mut station = with_data(40, DATA_BLOCKS);
    Large::recorded_from(DATA_BLOCKS, &map, NONE).put(&mut station);
    lend_map(&mut station, &map, 1);
    let saved = station.clone();
    let mut pair = Pair::holding(&saved);
    for v in 0..1100 {
        let other = if map[v] == 3 { 4 } else { 3 };
        let mut changed = saved.clone();
        changed.change(|volume| volume.map[v] = other);
        pair.lend_ledger(&changed.ledger);
        let expected = if v / 512 == 2 { 1 } else { 2 };
        let block = 24 + expected;
        assert_eq!(pair.call(Call::Commit, &[]), done(block), "{v}");
        let mut named = vec![20, 21, 24 + expected - 1];
        if expected == 2 {
            named[v / 512] = 24;
        }
        assert_eq!(named_by(pair.station().sector(block)), named, "{v}");
        pair.take_back(&saved);
    }
    tell_compared("each_number_changes_its_own_sector");
}

/// Each byte of the previous table's own sectors, of those that an entry may differ in:
/// one that differs is recorded anew.
#[test]
fn each_byte_is_compared() {
    let map = vec![NONE; 1100];
    let mut station = with_data(40, DATA_BLOCKS);
    Large::recorded_from(DATA_BLOCKS, &map, NONE).put(&mut station);
    lend_map(&mut station, &map, 1);
    let saved = station.clone();
    let mut pair = Pair::holding(&saved);
    for place in 0..2 {
        for entry in 0..512 {
            let mut bytes = *saved.sector(DATA_BLOCKS + place);
            put(&mut bytes, 4 * entry, &(entry as u32 % 20).to_le_bytes());
            pair.put_sector(DATA_BLOCKS + place, DATA, &bytes);
            assert_eq!(pair.call(Call::Commit, &[]), done(26), "{entry}");
            let named = named_by(pair.station().sector(26));
            assert_eq!(named[place as usize], 24, "{entry} of {place}");
            pair.take_back(&saved);
            pair.put_sector(DATA_BLOCKS + place, DATA, saved.sector(DATA_BLOCKS + place));
        }
    }
    assert_eq!(pair.call(Call::Commit, &[]), done(25));
    tell_compared("each_byte_is_compared");
}

/// "Commit needs blank sectors for what it records": to the sector, for each number of
/// own sectors that are recorded, with links and without.
#[test]
fn room_to_the_sector() {
    let map = map_over(DATA_BLOCKS, 4087);
    for changed in 0..8u32 {
        for (mode, links) in [(0, 7), (1, 0)] {
            let recorded = (changed + 1).min(8) as usize;
            let mut station = with_data(SECTORS, DATA_BLOCKS);
            Large::recorded_from(DATA_BLOCKS, &map, NONE).put(&mut station);
            let mut other = map.clone();
            for place in 0..changed as usize {
                let entry = &mut other[512 * place];
                *entry = if *entry == 3 { 4 } else { 3 };
            }
            lend_map(&mut station, &other, mode);
            let needed = 29 + links + recorded + 1;
            for (sectors, expected) in [
                (needed + 1, done(needed as u32 - 1)),
                (needed, done(needed as u32 - 1)),
                (needed - 1, refused(14)),
                (needed - 2, refused(14)),
            ] {
                let mut shortened = station.clone();
                shortened.shorten(sectors);
                let answer = shortened.clone().call(Call::Commit);
                assert_eq!(answer, expected, "{changed}, mode {mode}");
                assert_eq!(shortened.commit_at(&HALF_PAST), expected);
            }
        }
    }
    tell_compared("room_to_the_sector");
}

/// The reserve of 16 is room for close packet and a save of the largest table.
#[test]
fn the_reserve_is_room_for_the_largest_save() {
    let mut station = with_data(37, DATA_BLOCKS);
    lend_map(&mut station, &map_over(DATA_BLOCKS, 4086), 1);
    assert_eq!(station.write(4086, &BLOCK), done(20));
    assert_eq!(station.write(0, &BLOCK), refused(14));
    assert_eq!(station.call(Call::ClosePacket), done(0));
    assert_eq!(station.call(Call::Commit), done(36));
    assert_eq!(station.call(Call::Mount), done(1));
    tell_compared("the_reserve_is_room_for_the_largest_save");
}

/// CRC and sum of the ICB below, computed apart from this package.
const CRC_BYTES: [u8; 2] = [0x46, 0x35];
const TAG_SUM: u8 = 0x39;

/// 512 numbers on as many blocks, saved twice: the second ICB, byte for byte. With a
/// timestamp it has it three times, and other sums.
#[test]
fn bytes_of_an_icb() {
    let map: Vec<u32> = (0..512).collect();
    let mut station = with_data(600, 512);
    lend_map(&mut station, &map, 1);
    assert_eq!(station.call(Call::Commit), done(514));
    let saved = station.clone();
    assert_eq!(station.call(Call::Commit), done(516));
    let fields: [(usize, &[u8]); 19] = [
        (0, &[0x05, 0x01]),
        (2, &[0x02, 0x00]),
        (4, &[TAG_SUM]),
        (8, &CRC_BYTES),
        (10, &[176, 0]),
        (12, &[4, 2, 0, 0]),
        (20, &[4, 0]),
        (24, &[1, 0]),
        (36, &[0xFF; 8]),
        (56, &[0x24, 8, 0, 0, 0, 0, 0, 0]),
        (64, &[2, 0, 0, 0, 0, 0, 0, 0]),
        (108, &[1, 0, 0, 0]),
        (128, b"\0*Bench Station\0"),
        (168, &[0, 0, 0, 0]),
        (172, &[16, 0, 0, 0]),
        (176, &[0, 8, 0, 0]),
        (180, &[0, 2, 0, 0]),
        (184, &[36, 0, 0, 0]),
        (188, &[3, 2, 0, 0]),
    ];
    let mut expected = [0; SECTOR];
    for (at, field) in fields {
        put(&mut expected, at, field);
    }
    assert_eq!(station.sector(516), &expected);
    assert_eq!(station.sector(515)[..24], *b"\0*UDF Virtual Alloc Tbl\0");
    assert_eq!(station.sector(515)[24..32], [0x50, 1, 0, 0, 0, 0, 0, 0]);
    assert_eq!(station.sector(515)[32..36], [2, 2, 0, 0]);
    assert_eq!(station.sector(515)[36..], [0; SECTOR - 36]);
    let mut stamped = saved;
    assert_eq!(stamped.commit_at(&HALF_PAST), done(516));
    for at in [72, 84, 96] {
        put(&mut expected, at, &HALF_PAST);
    }
    seal(&mut expected, 516);
    assert_eq!(stamped.sector(516), &expected);
    assert_eq!(stamped.time_of(0), Ok((-30, 0)));
    tell_compared("bytes_of_an_icb");
}

/// A disc that grows from 457 numbers to 520 by writes, saved after each: embedded up to
/// 458, then in one sector, then in two.
#[test]
fn saves_on_the_way() {
    let mut station = with_data(900, 457);
    let map: Vec<u32> = (0..457).collect();
    lend_map(&mut station, &map, 1);
    let mut pair = Pair::holding(&station);
    for v in 457..520 {
        assert!(pair.call(Call::Write(v), &[v as u8; SECTOR]).is_done());
        let before = pair.station().clone();
        let answer = pair.call(Call::Commit, &[]);
        let recorded = assert_saved(&before, pair.station(), answer.second);
        let expected = match v + 1 {
            458 => 0,
            459..=503 => 1,
            504..=512 => 2,
            _ => 1,
        };
        assert_eq!(recorded, expected, "{} numbers", v + 1);
    }
    tell_compared("saves_on_the_way");
}
