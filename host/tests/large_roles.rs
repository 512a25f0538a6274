//! "In the roles each sector that a table names counts as table" (document 02): roles
//! worked out by hand, as digits. 0 is in use, 1 superseded, 2 without a number, 3 of a
//! table, 4 a link, 5 unreadable, and 6 blank. Each call is made on the core and on the
//! model, and compared.

mod common;

use common::built::BLOCK;
use common::closing::CLOSE;
use common::large::{lend_map, map_over, with_data, Large};
use common::pair::{tell_compared, Pair};
use common::roles::assert_roles;
use common::station::{done, Station};
use station_model::calls::Call;
use station_model::disc::{DATA, LINK, UNREADABLE};
use station_model::table::{vat_sector, NONE};

const LINKS: &str = "4444444";

/// A disc of 60 with so many sectors of data, of which these tables lie in some.
fn with_tables(data: u32, tables: &[Large]) -> Station {
    let mut station = with_data(60, data);
    for table in tables {
        table.put(&mut station);
    }
    station
}

/// Own sectors count as table, also where the map names them; data that the map does not
/// name is superseded.
#[test]
fn own_sectors_that_a_map_names() {
    let table = Large::lying_in(&[2], 5, &[0, 2, NONE, 3], NONE);
    let mut station = with_tables(5, &[table]);
    assert_eq!(station.call(Call::Mount), done(1));
    assert_roles(&station, "013013");
    for v in [1, 3] {
        assert_eq!(station.call(Call::Release(v)), done(0));
    }
    assert_roles(&station, "013113");
    assert_eq!(station.write(0, &BLOCK), done(13));
    assert_roles(&station, &format!("113113{LINKS}0"));
    tell_compared("own_sectors_that_a_map_names");
}

/// Each sector that some table names, not the newest alone, and whatever the map that is
/// looked at.
#[test]
fn own_sectors_of_earlier_tables() {
    let older = Large::lying_in(&[1, 3], 6, &map_over(5, 600), NONE);
    let newer = Large::lying_in(&[4], 8, &[0, 3, 6], 6);
    let mut station = with_tables(8, &[older, newer]);
    assert_eq!(station.call(Call::Mount), done(1));
    assert_roles(&station, "031331313");
    assert_eq!(station.call(Call::LookBack(1)), done(6));
    assert_roles(&station, "030331313");
    tell_compared("own_sectors_of_earlier_tables");
}

/// Two tables that name the same sectors, and one block at two places.
#[test]
fn own_sectors_that_are_shared() {
    let map = vec![0; 1100];
    let older = Large::lying_in(&[1, 1, 2], 4, &map, NONE);
    let newer = Large::lying_in(&[1, 1, 5], 6, &map, 4);
    let mut station = with_tables(6, &[older, newer]);
    assert_eq!(station.call(Call::Mount), done(1));
    assert_roles(&station, "0331333");
    tell_compared("own_sectors_that_are_shared");
}

/// An own sector that is lost: its ICB and its other sectors are of no table any more,
/// and what the map names of them is in use.
#[test]
fn tables_that_are_none_any_more() {
    let map = map_over(3, 600);
    let lost = Large::lying_in(&[1, 3], 4, &map, NONE);
    let newest = Large::lying_in(&[5], 6, &[3, 4, NONE], NONE);
    let mut station = with_tables(6, &[lost, newest]);
    assert_eq!(station.call(Call::Mount), done(1));
    assert_roles(&station, "1313333");
    for (kind, digit) in [(LINK, '4'), (UNREADABLE, '5')] {
        station.kinds[1] = kind;
        assert_eq!(station.call(Call::Mount), done(1));
        assert_roles(&station, &format!("1{digit}10033"));
    }
    tell_compared("tables_that_are_none_any_more");
}

/// An ICB that is nearly a table names nothing: a wrong sum.
#[test]
fn sectors_that_no_table_names() {
    let near = Large::lying_in(&[1], 3, &[0], NONE);
    let mut station = with_tables(4, &[near]);
    let mut bytes = *station.sector(3);
    bytes[8] ^= 1;
    station.put_sector(3, DATA, &bytes);
    station.put_sector(4, DATA, &vat_sector(4, &[1], NONE));
    assert_eq!(station.call(Call::Mount), done(1));
    assert_roles(&station, "10113");
    tell_compared("sectors_that_no_table_names");
}

/// What a save records of a large table is of that table; what it names again stays.
#[test]
fn saves() {
    let mut station = with_data(60, 3);
    lend_map(&mut station, &map_over(3, 1100), 0);
    station.roles = vec![6; 60];
    station.roles[..3].fill(0);
    assert_eq!(station.call(Call::Commit), done(13));
    assert_roles(&station, &format!("000{LINKS}3333"));
    assert_eq!(station.write(600, &BLOCK), done(14));
    assert_eq!(station.call(Call::Commit), done(17));
    assert_roles(&station, &format!("000{LINKS}33330333"));
    assert_eq!(station.call(Call::Mount), done(1));
    assert_roles(&station, &format!("000{LINKS}33330333"));
    assert_eq!(station.call(Call::LookBack(1)), done(13));
    assert_roles(&station, &format!("000{LINKS}33331333"));
    tell_compared("saves");
}

/// Whatever is lent, a save sets the roles of the sectors that it records, and leaves
/// those of the sectors that it names again.
#[test]
fn saves_set_what_they_record() {
    let mut station = with_data(60, 3);
    lend_map(&mut station, &map_over(3, 1100), 1);
    assert_eq!(station.call(Call::Commit), done(6));
    let mut pair = Pair::holding(&station);
    for byte in 0..=255 {
        pair.lend_roles(&[byte; 60]);
        assert_eq!(pair.call(Call::Commit, &[]), done(8));
        let mut roles = [byte; 60];
        roles[7..9].fill(3);
        assert_eq!(pair.station().roles, roles);
        pair.take_back(&station);
    }
    tell_compared("saves_set_what_they_record");
}

/// Own sectors of a save that was cut are superseded after the next mount, and those that
/// it would have named again stay with the table that has them.
#[test]
fn saves_that_were_cut() {
    let mut station = with_data(60, 3);
    lend_map(&mut station, &map_over(3, 1100), 1);
    assert_eq!(station.call(Call::Commit), done(6));
    assert_eq!(station.write(0, &BLOCK), done(7));
    for (j, kept) in [(0, ""), (1, "1"), (2, "11"), (3, "333")] {
        let mut cut = station.clone();
        cut.cut(Call::Commit, &[], j, None);
        let saved = j == 3;
        assert_eq!(cut.call(Call::Mount), done(u32::from(saved)));
        let written = if saved { 0 } else { 1 };
        assert_roles(&cut, &format!("0003333{written}{kept}"));
    }
    let mut torn = station.clone();
    torn.cut(Call::Commit, &[], 1, Some(&BLOCK));
    assert_eq!(torn.call(Call::Mount), done(0));
    assert_roles(&torn, "0003333115");
    tell_compared("saves_that_were_cut");
}

/// "A closing's sectors before its table are without a number", but its own sectors are
/// of the table.
#[test]
fn closings() {
    for (closes_packet, links) in [(false, ""), (true, LINKS)] {
        let mut station = with_data(300, 3);
        lend_map(&mut station, &map_over(3, 1100), 0);
        assert_eq!(station.write(0, &BLOCK), done(10));
        if closes_packet {
            assert_eq!(station.call(Call::ClosePacket), done(0));
        }
        station.roles.fill(6);
        station.roles[..11].copy_from_slice(&[0, 0, 0, 4, 4, 4, 4, 4, 4, 4, 0]);
        assert!(station.call(CLOSE).is_done());
        let recorded = |filled: &str| format!("000{LINKS}0{links}{}3333", filled.repeat(253));
        assert_roles(&station, &recorded("2"));
        assert_eq!(station.call(Call::Mount), done(1));
        assert_roles(&station, &recorded("1"));
    }
    tell_compared("closings");
}

/// "superseded exactly if the lent role is in use and no number of the map left names
/// it": each of the 256 bytes lent for the block that a number lets go, of whatever sort
/// that block is.
#[test]
fn letting_go_asks_the_role_that_is_lent() {
    let kinds = [DATA, DATA, LINK, UNREADABLE, DATA];
    let mut station = with_data(60, 5);
    for (block, kind) in (0..).zip(kinds) {
        station.put_sector(block, kind, &BLOCK);
    }
    let table = Large::lying_in(&[4], 5, &[0, 1, 2, 3, 4, 5, 1], NONE);
    table.put(&mut station);
    lend_map(&mut station, &table.map, 1);
    let mut pair = Pair::holding(&station);
    for byte in 0..=255 {
        for v in 0..6 {
            for call in [Call::Release(v), Call::Write(v)] {
                pair.lend_roles(&[byte; 60]);
                assert!(pair.call(call, &BLOCK).is_done());
                let role = pair.station().roles[v as usize];
                let is_left = v == 1;
                let expected = if byte == 0 && !is_left { 1 } else { byte };
                assert_eq!(role, expected, "{byte}, {call:?}");
                pair.take_back(&station);
            }
        }
    }
    tell_compared("letting_go_asks_the_role_that_is_lent");
}

/// A number on each own sector of a table lets go, and on other data: only the latter is
/// superseded, by a release and by a write.
#[test]
fn letting_go_of_own_sectors() {
    let own = [3, 6, 1];
    let mut map = map_over(3, 1100);
    map[..8].copy_from_slice(&[0, 1, 2, 3, 4, 5, 6, 7]);
    for entry in &mut map[8..] {
        *entry = NONE;
    }
    let table = Large::lying_in(&own, 8, &map, NONE);
    for writes in [false, true] {
        let mut station = with_tables(8, std::slice::from_ref(&table));
        assert_eq!(station.call(Call::Mount), done(1));
        assert_roles(&station, "030300303");
        let mut recorded = String::from("030300303");
        for v in 0..8u32 {
            let let_go = match own.contains(&v) {
                true => "3",
                false => "1",
            };
            recorded.replace_range(v as usize..=v as usize, let_go);
            if writes {
                assert!(station.write(v, &BLOCK).is_done());
                recorded += if v == 0 { LINKS } else { "" };
                recorded += "0";
            } else {
                assert_eq!(station.call(Call::Release(v)), done(0));
            }
            assert_roles(&station, &recorded);
        }
    }
    tell_compared("letting_go_of_own_sectors");
}
