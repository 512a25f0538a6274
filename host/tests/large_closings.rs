//! Closings of more than 458 numbers (document 02): "At a closing these sectors take the
//! last of the 255", so that the pointer stands 256 before the table as ever. Each call
//! is made on the core and on the model, and compared.

mod common;

use common::closing::{closed_by_another, mounted, ANCHOR, CLOSE, CLOSING};
use common::large::{lend_map, map_over, places, with_data, Large};
use common::pair::{tell_compared, Pair};
use common::saved::named_by;
use common::station::{done, refused, Station};
use station_model::anchor::pointer_sector;
use station_model::calls::Call;
use station_model::disc::{DATA, LINK, UNREADABLE};
use station_model::table::{table_bytes, SECTOR};

/// A map of 4,087 numbers, saved by a foreign table at block 28, and then changed so
/// that so many of its own sectors are to be recorded, the last among them.
fn to_close(sectors: usize, recorded: usize, mode: u32) -> Station {
    let mut map = map_over(20, 4087);
    let mut station = with_data(sectors, 20);
    Large::recorded_from(20, &map, 3).put(&mut station);
    for entry in map.iter_mut().step_by(512).take(recorded - 1) {
        *entry = if *entry == 3 { 4 } else { 3 };
    }
    lend_map(&mut station, &map, mode);
    station
}

/// After links: the pointer, 255 - u zero sectors, u own sectors in order, and the ICB,
/// all as data.
#[test]
fn sectors_of_a_closing() {
    for recorded in 1..=8 {
        for (mode, first) in [(0, 36), (1, 29)] {
            let before = to_close(400, recorded, mode);
            let mut station = before.clone();
            station.image[29 * SECTOR..].fill(0xE5);
            let table = first + 256;
            assert_eq!(station.call(CLOSE), done(table));
            let end = table as usize + 1;
            assert_eq!(
                station.kinds[29..first as usize],
                [LINK; 7][..first as usize - 29]
            );
            assert_eq!(station.kinds[first as usize..end], [DATA; CLOSING]);
            assert!(station.kinds[end..].iter().all(|kind| *kind == 0));
            assert_eq!(station.sector(first), &pointer_sector(first, &ANCHOR));
            let own = table - recorded as u32;
            for block in first + 1..own {
                assert_eq!(station.sector(block), &[0; SECTOR], "{block}");
            }
            assert_own_sectors(&before, &station, own, table);
            assert!(station.disc().is_closed());
            assert_eq!(station.call(Call::Mount), done(1));
            assert_eq!(station.volume().entries(), before.volume().entries());
        }
    }
    tell_compared("sectors_of_a_closing");
}

/// The recorded own sectors are the last before the table, in the order of their places;
/// the others are those of the table before.
fn assert_own_sectors(before: &Station, after: &Station, first: u32, table: u32) {
    let volume = before.volume();
    let mut bytes = table_bytes(volume.entries(), volume.last_vat);
    bytes.resize(8 * SECTOR, 0);
    let mut free = first..table;
    let named = named_by(after.sector(table));
    for (place, (block, bytes)) in named.iter().zip(bytes.chunks(SECTOR)).enumerate() {
        assert!(after.sector(*block) == bytes, "place {place}");
        if *block != 20 + place as u32 {
            assert_eq!(free.next(), Some(*block), "place {place}");
        }
    }
    assert_eq!(free.next(), None, "all are named");
}

/// "Closing needs links + 257 blank sectors": whatever it records of own sectors.
#[test]
fn room_for_a_closing() {
    for recorded in 1..=8 {
        for (mode, links) in [(0, 7), (1, 0)] {
            let needed = 29 + links + CLOSING;
            for (sectors, expected) in [
                (needed, done(needed as u32 - 1)),
                (needed - 1, refused(14)),
                (needed - 8, refused(14)),
            ] {
                let mut station = to_close(sectors, recorded, mode);
                assert_eq!(station.call(CLOSE), expected, "{recorded}, {sectors}");
            }
        }
    }
    tell_compared("room_for_a_closing");
}

/// Tables of every number of own sectors, with none to name again: also the first save
/// of a disc.
#[test]
fn closings_of_each_size() {
    for size in [458, 459, 503, 504, 1015, 1016, 3575, 3576, 4087] {
        let map = map_over(20, size);
        let own = if size > 458 { places(size) as u32 } else { 0 };
        let mut station = with_data(300, 20);
        lend_map(&mut station, &map, 0);
        assert_eq!(station.call(CLOSE), done(27 + 256));
        let named = named_by(station.sector(27 + 256));
        assert_eq!(named, (27 + 256 - own..27 + 256).collect::<Vec<u32>>());
        assert!(station.disc().is_closed());
        assert_eq!(station.call(Call::Mount), done(1));
        assert_eq!(station.volume().entries(), map);
        assert_eq!(station.call(Call::Commit), refused(17));
    }
    tell_compared("closings_of_each_size");
}

/// A disc that another deck closed, whose table lies in own sectors before the pointer,
/// behind it, or in the pointer's own place: closed as long as each has kind 1.
#[test]
fn closed_by_others() {
    let table = 20 + 256;
    for own in [[3, 11], [40, 275], [275, 21], [19, 100]] {
        let mut station = closed_by_another(20, 3);
        Large::lying_in(&own, table, &map_over(20, 600), 2).put(&mut station);
        mounted(&mut station);
        let mut pair = Pair::holding(&station);
        assert_eq!(pair.call(Call::ClosePacket, &[]), refused(17));
        for block in own {
            for kind in [LINK, UNREADABLE] {
                pair.put_sector(block, kind, station.sector(block));
                let mut unsaved = station.clone();
                unsaved.kinds[block as usize] = kind;
                mounted(&mut unsaved);
                pair.lend_ledger(&unsaved.ledger);
                assert_eq!(pair.call(Call::ClosePacket, &[]), done(0), "{block}");
            }
            pair.put_sector(block, DATA, station.sector(block));
        }
    }
    tell_compared("closed_by_others");
}

/// Twenty tables that share all they can, and a closing, which names again what the last
/// of them has: the disc then shows each save.
#[test]
fn a_closing_behind_many_saves() {
    let mut station = with_data(400, 20);
    let map = map_over(20, 4087);
    lend_map(&mut station, &map, 1);
    let mut pair = Pair::holding(&station);
    let mut tables = vec![pair.call(Call::Commit, &[]).second];
    for v in 0..20 {
        assert!(pair
            .call(Call::Write(200 * v), &[v as u8; SECTOR])
            .is_done());
        tables.push(pair.call(Call::Commit, &[]).second);
    }
    let answer = pair.call(CLOSE, &[]);
    assert!(answer.is_done());
    tables.push(answer.second);
    let named = named_by(pair.station().sector(answer.second));
    assert_eq!(named[7], answer.second - 1, "only the last is recorded");
    for (k, table) in (0..).zip(tables.iter().rev()) {
        assert_eq!(pair.call(Call::LookBack(k), &[]), done(*table));
    }
    pair.compare_whole();
    tell_compared("a_closing_behind_many_saves");
}
