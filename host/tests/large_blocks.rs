//! Rule 15 on a lent ICB that names own sectors: "the lent block would be a table sector
//! at the block it is about to take", with the sectors that it names on this disc
//! (document 02). Each call is made on the core and on the model, and compared.

mod common;

use common::large::{lend_map, map_over, places, with_data, Large, SIZES};
use common::pair::{tell_compared, Pair};
use common::station::{done, refused, Station};
use station_model::answer::Answer;
use station_model::calls::Call;
use station_model::disc::{DATA, LINK, UNREADABLE};
use station_model::extent::Extent;
use station_model::own::extents;
use station_model::table::{own_icb, seal, table_length, NONE, SECTOR};
use station_model::time::NO_STAMP;

/// The own sectors of a table of so many numbers from this block on, and no ICB.
fn with_own_sectors(size: usize, mode: u32) -> (Station, Vec<u32>) {
    let mut station = with_data(70, 20);
    let large = Large::recorded_from(5, &map_over(5, size), 3);
    for (block, bytes) in large.sectors() {
        station.put_sector(block, DATA, &bytes);
    }
    lend_map(&mut station, &[0, 1], mode);
    (station, large.own)
}

/// The ICB for the block that names these sectors.
fn icb(block: u32, size: usize, own: &[u32]) -> [u8; SECTOR] {
    own_icb(block, &extents(table_length(size), own), &NO_STAMP)
}

/// Numbered or not, on a copy.
fn write(station: &Station, block: &[u8]) -> Answer {
    let mut copy = station.clone();
    let answer = copy.write_unnumbered(block);
    assert_eq!(station.clone().write(1, block), answer);
    answer
}

/// In an open packet the write takes block 20, and otherwise block 27, behind the links:
/// 15 at this block alone.
#[test]
fn icbs_for_each_block() {
    for size in SIZES {
        for (mode, taken) in [(0, 27), (1, 20)] {
            let (station, own) = with_own_sectors(size, mode);
            for block in [0, 4, 19, 20, 21, 26, 27, 28] {
                let expected = match block == taken {
                    true => refused(15),
                    false => done(taken),
                };
                let answer = write(&station, &icb(block, size, &own));
                assert_eq!(answer, expected, "{size}, {block}");
            }
        }
    }
    tell_compared("icbs_for_each_block");
}

/// With the right ICB, but an own sector that the disc has with other bytes, another
/// kind, or not: the block is written.
#[test]
fn own_sectors_that_the_disc_has_not() {
    let size = 1100;
    for (mode, taken) in [(0, 27), (1, 20)] {
        let (station, own) = with_own_sectors(size, mode);
        let lent = icb(taken, size, &own);
        assert_eq!(write(&station, &lent), refused(15));
        for place in 0..3 {
            for kind in [LINK, UNREADABLE] {
                let mut other = station.clone();
                other.kinds[own[place] as usize] = kind;
                assert_eq!(write(&other, &lent), done(taken), "{place}, {kind}");
            }
            for location in [19, 20, 26, 27, 28, 69, 70, 1 << 20, NONE] {
                let mut elsewhere = own.clone();
                elsewhere[place] = location;
                let lent = icb(taken, size, &elsewhere);
                assert_eq!(write(&station, &lent), done(taken), "{place}, {location}");
            }
        }
        let mut other = station.clone();
        let mut bytes = *station.sector(own[2]);
        bytes[310] ^= 1;
        other.put_sector(own[2], DATA, &bytes);
        assert_eq!(write(&other, &lent), done(taken), "the regid");
    }
    tell_compared("own_sectors_that_the_disc_has_not");
}

/// Blank sectors that hold the right bytes are no own sectors, neither those that the
/// links are about to take nor those behind the block.
#[test]
fn own_sectors_that_are_blank() {
    let large = Large::lying_in(&[21], 27, &[0, 1], NONE);
    let mut station = with_data(70, 20);
    lend_map(&mut station, &[0, 1], 0);
    for (block, bytes) in large.sectors() {
        for place in [block, 20, 26, 28, 40] {
            station.put_sector(place, 0, &bytes);
        }
    }
    for own in [20, 21, 26, 28, 40] {
        let lent = Large::lying_in(&[own], 27, &[0, 1], NONE).icb();
        assert_eq!(write(&station, &lent), done(27), "{own}");
    }
    tell_compared("own_sectors_that_are_blank");
}

/// A table of the disc, tagged for the block that is taken: it would be one there too.
/// Copied as it is, it is written, and is none.
#[test]
fn copies_of_a_table() {
    let mut station = with_data(70, 20);
    lend_map(&mut station, &map_over(20, 1100), 1);
    assert_eq!(station.call(Call::Commit), done(23));
    let copy = *station.sector(23);
    let mut tagged = copy;
    seal(&mut tagged, 24);
    assert_eq!(write(&station, &tagged), refused(15));
    assert_eq!(station.write(7, &copy), done(24));
    assert_eq!(station.call(Call::Mount), done(0));
    assert_eq!(station.volume().last_vat, 23);
    let mut behind_links = copy;
    seal(&mut behind_links, 32);
    assert_eq!(write(&station, &behind_links), refused(15));
    seal(&mut behind_links, 25);
    assert_eq!(write(&station, &behind_links), done(32));
    tell_compared("copies_of_a_table");
}

/// A table's own sectors as blocks of ours, written one after another, and then the ICB:
/// it is refused, with or without an own sector that is not the last.
#[test]
fn a_table_written_block_by_block() {
    for size in [1, 459, 600, 1100] {
        let mut station = Station::begun(70);
        let large = Large::recorded_from(0, &vec![NONE; size], NONE);
        for (block, bytes) in large.sectors() {
            assert_eq!(station.write_unnumbered(&bytes), done(block));
        }
        assert_eq!(station.write(0, &large.icb()), refused(15));
        let mut missing = large.clone();
        missing.own[places(size) - 1] = large.block;
        assert_eq!(station.write(0, &missing.icb()), done(large.block));
    }
    tell_compared("a_table_written_block_by_block");
}

/// 12, 13 and 14 come before 15, and with 14 the test is not made.
#[test]
fn refusals_before_15() {
    let (mut station, own) = with_own_sectors(600, 1);
    let lent = icb(20, 600, &own);
    assert_eq!(station.clone().write(3, &lent), refused(12));
    assert_eq!(station.clone().write(4087, &lent), refused(13));
    station.shorten(37);
    assert_eq!(station.clone().write(1, &lent), refused(15));
    station.shorten(36);
    assert_eq!(station.clone().write(1, &lent), refused(14));
    tell_compared("refusals_before_15");
}

/// Every bit of the lent ICB's head and descriptors, under right sums and the old ones.
#[test]
fn each_bit_of_a_lent_icb() {
    let (station, own) = with_own_sectors(1100, 1);
    let right = icb(20, 1100, &own);
    let mut pair = Pair::holding(&station);
    let mut compare = |lent: &[u8; SECTOR]| {
        if pair.call(Call::Write(1), lent).is_done() {
            pair.take_back(&station);
        }
    };
    for bit in 0..8 * (176 + Extent::BYTES * own.len() + 2) {
        let mut lent = right;
        lent[bit / 8] ^= 1 << (bit % 8);
        compare(&lent);
        seal(&mut lent, 20);
        compare(&lent);
    }
    tell_compared("each_bit_of_a_lent_icb");
}
