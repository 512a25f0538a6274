//! "Every extent is recorded data below the entry's block, whole sectors but the last,
//! none empty" (document 02): each of these broken alone, at each place. Each entry is
//! held against the core and the model by a view.

mod common;

use common::pair::{tell_compared, Pair};
use common::runs::{extent, shows_a_run, three, with_run};
use common::station::Station;
use station_model::disc::{DATA, LINK, UNREADABLE};
use station_model::extent::Extent;
use station_model::table::{vat_sector, NONE, SECTOR};

fn run_shows(station: &Station) -> bool {
    shows_a_run(&mut Pair::holding(station))
}

/// Extents, and whether an entry at block 20 of a disc with 30 recorded data sectors
/// may name them.
type Variant = (Vec<Extent>, bool);

fn alone(length: usize, location: u32, held: bool) -> Variant {
    (vec![extent(length, location)], held)
}

/// Empty ones, overlapping ones, and some that end at the entry's block or beyond.
fn empty_overlapping_and_last() -> Vec<Variant> {
    let [a, b, c] = three();
    vec![
        (vec![a, b, c], true),
        (vec![a, b, extent(0, 12)], false),
        (vec![a, extent(0, 10), c], false),
        (vec![extent(0, 3), b, c], false),
        (vec![extent(0, 3)], false),
        (vec![a, a, a, b, a], true),
        (vec![a, extent(4096, 4), extent(6144, 2)], true),
        alone(2 * SECTOR, 18, true),
        alone(2 * SECTOR - 1, 18, true),
        alone(2 * SECTOR + 1, 18, false),
        alone(3 * SECTOR, 18, false),
        alone(20 * SECTOR, 0, true),
        alone(20 * SECTOR + 1, 0, false),
        alone(21 * SECTOR, 0, false),
        alone(SECTOR, 19, true),
        alone(1, 19, true),
        alone((1 << 30) - 1, 0, false),
        alone((1 << 30) - 1, 19, false),
    ]
}

/// From the entry's block on; the last sector's number may have more than 32 bits and
/// be low in 32.
fn not_below_the_entry() -> Vec<Variant> {
    let last = three()[2];
    let locations = [20, 21, 29, 30, 39, 40, 1 << 20, 1 << 31, NONE - 1, NONE];
    let each = |location| {
        [
            alone(1, location, false),
            alone(SECTOR, location, false),
            alone(10 * SECTOR, location, false),
            (vec![extent(SECTOR, location), last], false),
        ]
    };
    locations.into_iter().flat_map(each).collect()
}

/// "whole sectors but the last"
fn in_part() -> Vec<Variant> {
    let [_, b, c] = three();
    let each = |length| {
        let part = extent(length, 3);
        [
            (vec![part, b, c], false),
            (vec![b, part, c], false),
            (vec![b, c, part], false),
            (vec![b, b, part], true),
        ]
    };
    [1, 2047, 2049, 4095, 4097]
        .into_iter()
        .flat_map(each)
        .collect()
}

/// "of extent type 0": the type is in the length's high two bits.
fn of_other_types() -> Vec<Variant> {
    let [a, b, c] = three();
    let each = |kind: u32| {
        let of_type = |extent: Extent| Extent {
            length: extent.length | kind << 30,
            ..extent
        };
        [
            (vec![of_type(a), b, c], false),
            (vec![a, of_type(b), c], false),
            (vec![a, b, of_type(c)], false),
            (vec![of_type(a)], false),
        ]
    };
    (1..4).flat_map(each).collect()
}

#[test]
fn each_extent() {
    let variants = [
        empty_overlapping_and_last(),
        not_below_the_entry(),
        in_part(),
        of_other_types(),
    ];
    for (extents, expected) in variants.concat() {
        assert_eq!(run_shows(&with_run(&extents)), expected, "{extents:?}");
    }
    tell_compared("each_extent");
}

/// The number of extents and the place of the one that breaks a condition: each place
/// of 1 to 100 is looked at.
#[test]
fn each_place_of_an_extent() {
    for count in [1, 2, 3, 50, 99, 100] {
        for place in 0..count {
            let mut extents = vec![extent(SECTOR, 4); count];
            assert!(place > 0 || run_shows(&with_run(&extents)));
            let is_last = place + 1 == count;
            for (length, location, expected) in [
                (0, 4, false),
                (SECTOR - 1, 4, is_last),
                (SECTOR, 20, false),
                (SECTOR | 1 << 30, 4, false),
            ] {
                extents[place] = extent(length, location);
                assert_eq!(
                    run_shows(&with_run(&extents)),
                    expected,
                    "{place} of {count}"
                );
            }
        }
    }
    tell_compared("each_place_of_an_extent");
}

/// "Every extent is recorded data": each sector has kind 1, also the last, of which
/// perhaps one byte is named; a table sector is data.
#[test]
fn each_sector_has_kind_1() {
    let extents = [extent(4096, 3), extent(2048, 10), extent(SECTOR + 1, 12)];
    let named = [3, 4, 10, 12, 13];
    for block in 0..20 {
        for kind in [LINK, UNREADABLE] {
            let mut station = with_run(&extents);
            station.kinds[block as usize] = kind;
            assert_eq!(run_shows(&station), !named.contains(&block), "{block}");
        }
        let mut station = with_run(&extents);
        station.put_sector(block, DATA, &vat_sector(block, &[], NONE));
        assert!(run_shows(&station), "a table at {block}");
    }
    let mut station = with_run(&[extent(4096, 3), extent(2048, 10), extent(SECTOR, 12)]);
    station.kinds[13] = LINK;
    assert!(run_shows(&station));
    tell_compared("each_sector_has_kind_1");
}
