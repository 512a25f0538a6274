//! Roles worked out by hand from document 02: after each call every byte is written
//! out here. 0 is in use, 1 superseded, 2 without a number, 3 a table, 4 a link, 5
//! unreadable, and 6 blank.

mod common;

use common::built::BLOCK;
use common::closing::{CLOSE, CLOSING};
use common::pair::{tell_compared, Pair};
use common::roles::assert_roles;
use common::stamps::HALF_PAST;
use common::station::{done, Station};
use station_model::calls::Call;
use station_model::disc::{DATA, LINK, UNREADABLE};
use station_model::table::{vat_sector, NONE, SECTOR};

const LINKS: &str = "4444444";

/// A disc of 60 with sectors of these kinds, and behind them a table of this map,
/// mounted.
fn mounted_behind(kinds: &[u8], map: &[u32]) -> Station {
    let mut station = Station::blank(60);
    for (block, kind) in (0..).zip(kinds) {
        station.put_sector(block, *kind, &BLOCK);
    }
    let table = kinds.len() as u32;
    station.put_sector(table, DATA, &vat_sector(table, map, NONE));
    assert_eq!(station.call(Call::Mount), done(1));
    station
}

#[test]
fn a_blank_disc_of_31() {
    let mut station = Station::blank(31);
    station.call(Call::Begin);
    assert_roles(&station, "");
    station.write(0, &BLOCK);
    assert_roles(&station, "0");
    station.call(Call::Commit);
    assert_roles(&station, "03");
    station.write(0, &BLOCK);
    assert_roles(&station, "130");
    station.call(Call::Release(0));
    assert_roles(&station, "131");
    station.call(Call::ClosePacket);
    assert_roles(&station, "131");
    station.call(Call::Commit);
    assert_roles(&station, "13144444443");
    let every_byte = [
        1, 3, 1, 4, 4, 4, 4, 4, 4, 4, 3, 6, 6, 6, 6, 6, 6, 6, 6, 6, 6, 6, 6, 6, 6, 6, 6, 6, 6, 6, 6,
    ];
    assert_eq!(station.roles, every_byte);
}

/// The example of document 01's listing program.
#[test]
fn the_disc_of_the_listing() {
    let mut station = Station::begun(31);
    station.write(0, &BLOCK);
    station.call(Call::Commit);
    station.write(1, &BLOCK);
    assert_roles(&station, "030");
    station.call(Call::Release(0));
    station.call(Call::Commit);
    assert_roles(&station, "1303");
    station.call(Call::ClosePacket);
    station.commit_at(&HALF_PAST);
    assert_roles(&station, "130344444443");
}

/// Blocks of a run have no number until a scan, which cannot tell them from others
/// that the map does not name.
#[test]
fn blocks_without_a_number() {
    let mut station = Station::begun(40);
    station.write_unnumbered(&BLOCK);
    station.write_unnumbered(&BLOCK);
    station.write(0, &BLOCK);
    assert_roles(&station, "220");
    station.call(Call::Commit);
    station.write(0, &BLOCK);
    assert_roles(&station, "22130");
    station.call(Call::ClosePacket);
    station.write_unnumbered(&BLOCK);
    assert_roles(&station, "2213044444442");
    station.call(Call::LookBack(0));
    assert_roles(&station, "1103144444441");
    station.call(Call::Mount);
    station.write_unnumbered(&BLOCK);
    assert_roles(&station, "110314444444144444442");
}

/// Also two writes of a number with no save between, and a number released and
/// written again.
#[test]
fn numbers_written_again() {
    let mut station = Station::begun(31);
    station.write(0, &BLOCK);
    station.write(0, &BLOCK);
    station.write(1, &BLOCK);
    assert_roles(&station, "100");
    station.call(Call::Release(0));
    assert_roles(&station, "110");
    station.write(0, &BLOCK);
    station.write(1, &BLOCK);
    assert_roles(&station, "11100");
}

/// A look back shows what an earlier map names, and the next mount the newest again.
#[test]
fn an_earlier_map() {
    let mut station = Station::begun(31);
    station.write(0, &BLOCK);
    station.call(Call::Commit);
    station.write(0, &BLOCK);
    station.write(1, &BLOCK);
    station.call(Call::Commit);
    assert_roles(&station, "13003");
    assert_eq!(station.call(Call::LookBack(1)), done(1));
    assert_roles(&station, "03113");
    assert_eq!(station.call(Call::LookBack(0)), done(4));
    assert_roles(&station, "13003");
    station.call(Call::LookBack(1));
    station.call(Call::Mount);
    assert_roles(&station, "13003");
}

/// What was written and not saved is superseded after a mount.
#[test]
fn unsaved_numbers() {
    let mut station = Station::begun(31);
    station.write(0, &BLOCK);
    station.call(Call::Commit);
    station.write(0, &BLOCK);
    station.write(1, &BLOCK);
    assert_roles(&station, "1300");
    assert_eq!(station.call(Call::Mount), done(0));
    assert_roles(&station, "0311");
}

/// Begin on a used disc without a table: no number names its data.
#[test]
fn a_used_disc() {
    let mut station = Station::blank(31);
    for (block, kind) in (0..).zip([DATA, LINK, UNREADABLE, DATA]) {
        station.put_sector(block, kind, &BLOCK);
    }
    station.call(Call::Begin);
    assert_roles(&station, "1451");
    station.write(0, &BLOCK);
    assert_roles(&station, &format!("1451{LINKS}0"));
}

/// A closing's pointer and zeros have no number, with links before them or without.
#[test]
fn closings() {
    let before_table = "2".repeat(CLOSING - 1);
    for (is_idle, links) in [(false, ""), (true, LINKS)] {
        let mut station = Station::begun(300);
        station.write(0, &BLOCK);
        station.write(1, &BLOCK);
        station.call(Call::Release(1));
        if is_idle {
            station.call(Call::ClosePacket);
        }
        assert!(station.call(CLOSE).is_done());
        assert_roles(&station, &format!("01{links}{before_table}3"));
        station.call(Call::Mount);
        let scanned = "1".repeat(CLOSING - 1);
        assert_roles(&station, &format!("01{links}{scanned}3"));
    }
    let mut station = Station::begun(257);
    assert_eq!(station.call(CLOSE), done(256));
    assert_roles(&station, &format!("{before_table}3"));
}

/// A foreign map names a block by three numbers: it is in use until the last lets go.
#[test]
fn three_numbers_on_a_block() {
    let mut station = mounted_behind(&[DATA, DATA], &[0, 0, NONE, 0]);
    assert_roles(&station, "013");
    station.call(Call::Release(1));
    assert_roles(&station, "013");
    station.write(0, &BLOCK);
    assert_roles(&station, &format!("013{LINKS}0"));
    station.write(3, &BLOCK);
    assert_roles(&station, &format!("113{LINKS}00"));
}

/// A foreign map names tables, links and unreadable sectors: their roles stay when
/// it names them and when the numbers let go.
#[test]
fn a_map_of_what_is_no_data() {
    let kinds = [DATA, LINK, UNREADABLE, DATA];
    let mut station = mounted_behind(&kinds, &[0, 1, 2, 3, 1, 0]);
    station.put_sector(0, DATA, &vat_sector(0, &[], NONE));
    station.call(Call::Mount);
    assert_roles(&station, "34503");
    for v in [0, 1, 2] {
        assert!(station.call(Call::Release(v)).is_done());
        assert_roles(&station, "34503");
    }
    let mut recorded = format!("34503{LINKS}");
    for v in [4, 5, 0] {
        station.write(v, &BLOCK);
        recorded.push('0');
        assert_roles(&station, &recorded);
    }
    station.call(Call::Release(3));
    assert_roles(&station, &format!("34513{LINKS}000"));
}

/// A map of 458 numbers that all name one block, released from the last to the first.
#[test]
fn all_numbers_on_a_block() {
    let mut station = mounted_behind(&[DATA], &[0; 458]);
    for v in (0..458).rev() {
        assert_roles(&station, "03");
        assert_eq!(station.call(Call::Release(v)), done(0));
    }
    assert_roles(&station, "13");
}

/// Discs of lengths about those at which a pass over the sectors may change its
/// stride, all data up to a table in the last sector: at each place every kind and a
/// table, in use or not.
#[test]
fn every_role_at_each_place() {
    for sectors in [2, 3, 8, 9, 16, 17, 31, 33, 64, 66, 129] {
        let table = sectors as u32 - 1;
        for block in 0..table {
            for (kind, roles) in [(DATA, "10"), (LINK, "44"), (UNREADABLE, "55")] {
                scanned(table, block, kind, &BLOCK, roles);
            }
            scanned(table, block, DATA, &vat_sector(block, &[], NONE), "33");
        }
    }
    tell_compared("every_role_at_each_place");
}

/// Mounts a disc of data, this sector and a table, which names it or does not: its
/// role is the second of these digits, or the first.
fn scanned(table: u32, block: u32, kind: u8, bytes: &[u8; SECTOR], roles: &str) {
    for (map, role) in [vec![NONE], vec![NONE, block]].iter().zip(roles.chars()) {
        let mut station = Station::blank(table as usize + 1);
        station.kinds.fill(DATA);
        station.put_sector(block, kind, bytes);
        station.put_sector(table, DATA, &vat_sector(table, map, NONE));
        assert_eq!(station.call(Call::Mount), done(1));
        let mut expected = "1".repeat(table as usize) + "3";
        expected.replace_range(block as usize..block as usize + 1, &role.to_string());
        assert_roles(&station, &expected);
    }
}

/// A map of 458 blocks among 600, from the last on: each number is written again, and
/// then released.
#[test]
fn a_full_map() {
    let map: Vec<u32> = (0..458).map(|v| 599 - v).collect();
    let mut station = Station::blank(1700);
    station.kinds[..600].fill(DATA);
    station.put_sector(600, DATA, &vat_sector(600, &map, NONE));
    let mut pair = Pair::holding(&station);
    assert_eq!(pair.call(Call::Mount, &[]), done(1));
    let some = |role: &str, times: u32| role.repeat(times as usize);
    let unnamed = some("1", 142);
    for v in 0..458 {
        assert_eq!(pair.call(Call::Write(v), &BLOCK), done(608 + v));
        let (old, let_go) = (some("0", 457 - v), some("1", v + 1));
        let new = some("0", v + 1);
        let recorded = format!("{unnamed}{old}{let_go}3{LINKS}{new}");
        assert_roles(pair.station(), &recorded);
    }
    for v in 0..458 {
        assert_eq!(pair.call(Call::Release(v), &[]), done(0));
        let (old, let_go) = (some("1", 600), some("1", v + 1));
        let new = some("0", 457 - v);
        let recorded = format!("{old}3{LINKS}{let_go}{new}");
        assert_roles(pair.station(), &recorded);
    }
    tell_compared("a_full_map");
}

/// A cut leaves an unreadable sector, and the next mount tells it from the rest.
#[test]
fn a_cut() {
    let mut station = Station::begun(40);
    station.write(0, &BLOCK);
    station.call(Call::Commit);
    station.call(Call::ClosePacket);
    station.cut(Call::Write(1), &BLOCK, 5, Some(&BLOCK));
    assert_eq!(station.call(Call::Mount), done(0));
    assert_roles(&station, "03444445");
    station.write(0, &BLOCK);
    assert_roles(&station, &format!("13444445{LINKS}0"));
}
