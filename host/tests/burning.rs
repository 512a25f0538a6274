//! A host that burns what each call recorded, sector after sector, has on its
//! medium the disc that the core left in the working buffers, and after each
//! sector a disc that mount takes.

mod common;

use std::collections::BTreeMap;

use common::built::{beside, BLOCK};
use common::closing::{disc_with_room, CLOSE};
use common::core::Core;
use common::forge;
use common::large;
use common::random::{cases, Random};
use common::stamps::HALF_PAST;
use common::station::{done, Station};
use station::{recorded, recorded_since, Sector};
use station_model::calls::Call;
use station_model::disc::{BLANK, DATA, LINK, UNREADABLE};
use station_model::table::SECTOR;

/// The sectors of the station from so many recorded on.
fn since(station: &Station, before: usize) -> Vec<Sector<'_>> {
    recorded_since(&station.image, &station.kinds, before).collect()
}

/// A data sector of the station.
fn data(station: &Station, block: u32) -> Sector<'_> {
    Sector {
        block,
        kind: DATA,
        bytes: Some(station.sector(block)),
    }
}

fn link(block: u32) -> Sector<'static> {
    Sector {
        block,
        kind: LINK,
        bytes: None,
    }
}

#[test]
fn calls_that_record_nothing() {
    let mut station = Station::begun(31);
    assert_eq!(recorded(&station.kinds), 0);
    assert_eq!(since(&station, 0), []);
    assert_eq!(station.write(0, &BLOCK), done(0));
    assert_eq!(station.call(Call::Commit), done(1));
    for call in [
        Call::Mount,
        Call::LookBack(0),
        Call::Commit,
        Call::CommitAt,
        CLOSE,
        Call::TimeOf(0),
        Call::Mount,
        Call::Release(0),
        Call::ClosePacket,
        Call::Begin,
    ] {
        station.call_lent(call, &mut beside(call).to_vec());
        assert_eq!(since(&station, 2), [], "{call:?}");
    }
}

#[test]
fn a_write_and_a_commit_behind_links() {
    let mut station = Station::begun(31);
    assert_eq!(station.write(0, &BLOCK), done(0));
    assert_eq!(since(&station, 0), [data(&station, 0)]);
    assert_eq!(station.call(Call::ClosePacket), done(0));
    assert_eq!(station.write(1, &[0xA5; SECTOR]), done(8));
    let links: Vec<Sector> = (1..8).map(link).collect();
    let behind_links = [&links[..], &[data(&station, 8)]].concat();
    assert_eq!(since(&station, 1), behind_links);
    assert_eq!(station.call(Call::Commit), done(9));
    assert_eq!(since(&station, 9), [data(&station, 9)]);
    let ends = [data(&station, 0), data(&station, 8), data(&station, 9)];
    assert_eq!(
        since(&station, 0),
        [&ends[..1], &links, &ends[1..]].concat()
    );
    assert_eq!(station.commit_at(&HALF_PAST), done(10));
    assert_eq!(since(&station, 10), [data(&station, 10)]);
}

/// A closing is burned as one list: links, the pointer, zeros and the table.
#[test]
fn a_closing_behind_links() {
    let mut station = Station::begun(300);
    assert_eq!(station.write(0, &BLOCK), done(0));
    assert_eq!(station.call(Call::ClosePacket), done(0));
    assert_eq!(station.call(CLOSE), done(264));
    let links: Vec<Sector> = (1..8).map(link).collect();
    let rest: Vec<Sector> = (8..=264).map(|block| data(&station, block)).collect();
    assert_eq!(since(&station, 1), [links, rest].concat());
}

/// Lengths that do not match, a count beyond what is recorded, a full disc, and
/// kinds that no call records.
#[test]
fn buffers_of_any_kind() {
    let image = [0x77; 3 * SECTOR];
    let count = |image: &[u8], kinds: &[u8], before| recorded_since(image, kinds, before).count();
    assert_eq!(count(&[], &[], 0), 0);
    assert_eq!(count(&[], &[], usize::MAX), 0);
    assert_eq!(count(&image, &[DATA; 3], 0), 3);
    assert_eq!(count(&image, &[DATA; 3], 2), 1);
    assert_eq!(count(&image, &[DATA; 3], 3), 0);
    assert_eq!(count(&image, &[DATA; 3], usize::MAX), 0);
    assert_eq!(count(&image, &[], 0), 0);
    assert_eq!(count(&image, &[DATA; 2], 0), 2);
    assert_eq!(count(&image, &[DATA; 5], 0), 3);
    assert_eq!(count(&image, &[DATA; 5], 4), 0);
    assert_eq!(count(&image[1..], &[DATA; 3], 0), 2);
    assert_eq!(count(&image[1..], &[DATA; 3], 2), 0);
    assert_eq!(recorded(&[DATA, BLANK, DATA]), 1);
    assert_eq!(count(&image, &[DATA, BLANK, DATA], 0), 1);
    let odd: Vec<u8> = recorded_since(&image, &[UNREADABLE, 255, LINK], 0)
        .map(|sector| {
            assert_eq!(sector.bytes, None);
            sector.kind
        })
        .collect();
    assert_eq!(odd, [UNREADABLE, 255, LINK]);
}

/// Whether two discs have the same kinds, and in each data sector the same bytes.
fn same_disc(one: &Core, two: &Core) -> bool {
    let data = |core: &Core, block| core.disc().data(block).copied();
    one.kinds[..] == two.kinds[..]
        && (0..one.kinds.len() as u32).all(|block| data(one, block) == data(two, block))
}

/// Burns what the call recorded. After each sector but the last, mount shows the
/// table that it showed before.
fn burn(medium: &mut Core, working: &Core) -> usize {
    let newest = |core: &Core| core.disc().newest_vat().map(|found| found.block);
    let old = newest(medium);
    let before = recorded(&medium.kinds);
    let sectors: Vec<Sector> = recorded_since(&working.image, &working.kinds, before).collect();
    for (burned, sector) in (1..).zip(&sectors) {
        medium.burn(*sector);
        assert!(medium.disc().is_sound());
        assert!(burned == sectors.len() || newest(medium) == old);
    }
    sectors.len()
}

/// Lists of random calls, done and refused, on random discs.
#[test]
fn what_is_burned_is_what_was_recorded() {
    let mut met = BTreeMap::new();
    let all = cases(2_000);
    let whole = all.len() > 1;
    for case in all {
        let mut random = Random::of_case(case);
        let disc = match random.below(6) {
            0 => disc_with_room(&mut random),
            1..=2 => large::disc_to_go_on(&mut random),
            _ => forge::disc_without_vat(&mut random),
        };
        let mut working = Core::holding(&disc, case);
        let mut medium = working.clone();
        if !working.call(Call::Begin).is_done() {
            working.call(Call::Mount);
        }
        for _ in 0..40 {
            let call = forge::call(&mut random, forge::size_in(&working.ledger), 3);
            let mut buffer = forge::buffer(&mut random, call, &working.image, &working.kinds);
            working.call_lent(call, &mut buffer);
            *met.entry(burn(&mut medium, &working)).or_default() += 1;
            assert!(same_disc(&medium, &working), "{call:?}, case {case}");
        }
    }
    println!("how often so many sectors were burned: {met:?}");
    let possible = |sectors: &usize| *sectors <= 16 || [257, 264].contains(sectors);
    assert!(met.keys().all(possible));
    let as_a_rule = [0, 1, 2, 3, 8, 9, 10, 257, 264];
    assert!(!whole || as_a_rule.iter().all(|sectors| met.get(sectors) > Some(&10)));
}
