//! "When was that save" (document 02): commits that carry a timestamp, and what is
//! told of them later. Each call is made on the core and on the model, and
//! compared; `timestamps.rs` has the limits, and `calendar.rs` the calendar.

mod common;

use common::built::{saved, saved_at, BLOCK};
use common::pair::tell_compared;
use common::random::{cases, Random};
use common::stamps::{noon, put_modified, stamp, told_by_model, Told, HALF_PAST, NOON};
use common::station::{done, refused, Station};
use common::tables::vat_behind;
use station::Timestamp;
use station_model::calls::Call;
use station_model::disc::{DATA, LINK, UNREADABLE};
use station_model::fields::put;
use station_model::ledger::{Volume, LEDGER};
use station_model::table::{seal, stamped_vat_sector, vat_sector, LIMIT, NONE};
use station_model::time::{Stamp, NO_STAMP};

/// "Everything else is zero": so a plain commit tells no time.
#[test]
fn a_plain_commit_tells_no_time() {
    let mut station = saved(30);
    assert_eq!(station.sector(1)[72..108], [0; 36]);
    assert_eq!(station.time_of(0), Err(16));
    tell_compared("a_plain_commit_tells_no_time");
}

/// "records it as access, modification and attribute time": the sector is the
/// plain commit's but for these three and the two sums, whose bytes are 4, 8 and 9.
fn assert_stamped_three_times(station: &Station) {
    let (mut plain, mut stamped) = (station.clone(), station.clone());
    let answer = plain.call(Call::Commit);
    assert_eq!(stamped.commit_at(&NOON.to_bytes()), answer);
    assert!(plain.ledger == stamped.ledger && plain.kinds == stamped.kinds);
    let block = answer.second;
    let mut expected = *plain.sector(block);
    for at in [72, 84, 96] {
        put(&mut expected, at, &NOON.to_bytes());
    }
    seal(&mut expected, block);
    assert_eq!(stamped.sector(block), &expected);
    for other in (0..station.kinds.len() as u32).filter(|other| *other != block) {
        assert_eq!(stamped.sector(other), plain.sector(other));
    }
}

#[test]
fn a_timestamp_stands_three_times() {
    assert_stamped_three_times(&Station::begun(8));
    let mut station = saved(40);
    assert_stamped_three_times(&station);
    assert_eq!(station.call(Call::ClosePacket), done(0));
    assert_stamped_three_times(&station);
    station.change(|volume| {
        volume.map.fill(1);
        volume.size = LIMIT as u32;
    });
    assert_stamped_three_times(&station);
    tell_compared("a_timestamp_stands_three_times");
}

/// "the modification time": the two other times may be anything, and the table may
/// stand behind attributes, which do not move it.
#[test]
fn only_the_modification_time_is_told() {
    for attributes in [0, 4, 220] {
        let table = vat_behind(&vec![0xA7; attributes], 0, &[NONE], NONE);
        for others in [NO_STAMP, NOON.to_bytes(), [0xFF; 12]] {
            for (stamp, expected) in [(HALF_PAST, Ok((-30, 0))), (NO_STAMP, Err(16))] {
                let mut table = table;
                put(&mut table, 72, &others);
                put(&mut table, 96, &others);
                put_modified(&mut table, 0, &stamp);
                let mut station = Station::blank(1);
                station.put_sector(0, DATA, &table);
                assert_eq!(station.call(Call::Mount), done(1));
                assert_eq!(station.time_of(0), expected);
            }
        }
    }
    tell_compared("only_the_modification_time_is_told");
}

/// A timestamp for each number, and none for every third.
fn numbered(save: u16) -> Option<Timestamp> {
    let stamp = noon(
        1970 + save % 130,
        1 + (save % 12) as u8,
        1 + (save % 28) as u8,
    );
    let zone = Some(30 * (save as i16 - 20));
    (save % 3 != 2).then_some(Timestamp { zone, ..stamp })
}

/// What is told of such a save.
fn time_of_numbered(save: u16) -> Told {
    let stamp = numbered(save).map_or(NO_STAMP, Timestamp::to_bytes);
    told_by_model(&stamp)
}

/// "for k saves back": after further saves, in one packet and behind links, with
/// writes, mounts and looks back between them, each save tells its own time.
#[test]
fn each_save_tells_its_own_time() {
    let mut station = Station::begun(400);
    for save in 0..40 {
        match save % 5 {
            0 => assert!(station.write(0, &BLOCK).is_done()),
            1 => assert!(station.call(Call::ClosePacket).is_done()),
            2 => assert_eq!(station.call(Call::Mount), done(1)),
            _ => {}
        }
        match numbered(save) {
            Some(stamp) => assert!(station.commit_at(&stamp.to_bytes()).is_done()),
            None => assert!(station.call(Call::Commit).is_done()),
        }
        for k in 0..=save {
            let told = station.time_of(u32::from(k));
            assert_eq!(told, time_of_numbered(save - k), "{k} before {save}");
        }
        assert_eq!(station.time_of(u32::from(save) + 1), Err(9));
        if save % 7 == 6 {
            assert!(station.call(Call::LookBack(3)).is_done());
            assert_eq!(station.time_of(3), time_of_numbered(save - 3));
            assert_eq!(station.call(Call::Mount), done(1));
        }
    }
    tell_compared("each_save_tells_its_own_time");
}

/// A cut commit leaves the saves before it with their times, and its own is told
/// once its table sector was kept; the ledger is lost and not asked.
#[test]
fn times_after_a_cut() {
    let mut before = saved_at(40);
    assert_eq!(before.commit_at(&NOON.to_bytes()), done(2));
    assert_eq!(before.call(Call::ClosePacket), done(0));
    let later = noon(2030, 5, 6).to_bytes();
    let [later_time, noon_time] = [&later, &NOON.to_bytes()].map(told_by_model);
    let times = [later_time, noon_time, Ok((-30, 0)), Err(9)];
    let torn = stamped_vat_sector(3, &[0], 2, &later);
    for j in 0..=8 {
        for torn in [None, Some(&torn)] {
            let mut station = before.clone();
            station.cut(Call::CommitAt, &later, j, torn);
            let lost = station.ledger.clone();
            let shown = if j == 8 { &times[..] } else { &times[1..] };
            for (k, time) in (0..).zip(shown) {
                assert_eq!(station.time_of(k), *time, "{k} after {j} sectors");
            }
            assert!(station.ledger == lost);
        }
    }
    tell_compared("times_after_a_cut");
}

/// "The ledger is not read": whatever it holds, in every mode, the same is told,
/// and it stays.
#[test]
fn the_ledger_is_not_read() {
    let mut station = saved_at(30);
    assert_eq!(station.call(Call::Commit), done(2));
    let mut ledgers = vec![vec![0; LEDGER], vec![0xFF; LEDGER]];
    for mode in [0, 1, 2, 3, NONE] {
        for size in [0, 1, 459, 4087, 4088, NONE] {
            let mut volume = Volume::begun(&station.disc());
            volume.mode = mode;
            volume.size = size;
            ledgers.push(volume.to_bytes().to_vec());
        }
    }
    let mut random = Random::of_case(0);
    ledgers.extend((0..200).map(|_| random.bytes(LEDGER)));
    for ledger in ledgers {
        station.ledger = ledger.clone();
        assert_eq!(station.time_of(0), Err(16));
        assert_eq!(station.time_of(1), Ok((-30, 0)));
        assert_eq!(station.time_of(2), Err(9));
        assert!(station.ledger == ledger);
    }
    tell_compared("the_ledger_is_not_read");
}

/// "for k saves back", from the table that mount would find: data, links and
/// unreadable sectors behind it do not count, nor do unsaved writes.
#[test]
fn from_the_table_that_mount_would_find() {
    let mut station = saved_at(60);
    assert_eq!(station.write(1, &BLOCK), done(2));
    assert_eq!(station.time_of(0), Ok((-30, 0)));
    station.kinds[3..10].fill(LINK);
    station.kinds[10..12].fill(UNREADABLE);
    assert_eq!(station.time_of(0), Ok((-30, 0)));
    let elsewhere = stamped_vat_sector(11, &[], 1, &NOON.to_bytes());
    station.put_sector(12, DATA, &elsewhere);
    assert_eq!(station.time_of(0), Ok((-30, 0)));
    let newest = stamped_vat_sector(13, &[], 1, &NOON.to_bytes());
    station.put_sector(13, DATA, &newest);
    assert_eq!(station.time_of(0), told_by_model(&NOON.to_bytes()));
    assert_eq!(station.time_of(1), Ok((-30, 0)));
    tell_compared("from_the_table_that_mount_would_find");
}

/// A disc full of tables, each naming the one before, with these modification
/// times.
fn chain_of(stamps: &[Stamp]) -> Station {
    let mut station = Station::blank(stamps.len());
    for (block, stamp) in (0u32..).zip(stamps) {
        let previous = block.checked_sub(1).unwrap_or(NONE);
        let mut table = vat_sector(block, &[], previous);
        put_modified(&mut table, block, stamp);
        station.put_sector(block, DATA, &table);
    }
    station
}

/// A time that breaks the limits stops nobody on the way back: only the table that
/// k names is judged.
#[test]
fn broken_times_on_the_way_back() {
    for case in cases(300) {
        let mut random = Random::of_case(case);
        let stamps: Vec<Stamp> = (0..12).map(|_| stamp(&mut random)).collect();
        let mut station = chain_of(&stamps);
        for (k, stamp) in (0..).zip(stamps.iter().rev()) {
            let told = station.time_of(k);
            assert_eq!(told, told_by_model(stamp), "{k} back, case {case}");
        }
        assert_eq!(station.time_of(12), Err(9));
    }
    tell_compared("broken_times_on_the_way_back");
}

/// A table sector with a timestamp is one like any other: written as a block it
/// gives 15 at its own place, and is accepted at another.
#[test]
fn a_stamped_table_as_a_block() {
    let mut station = saved_at(40);
    let copy = *station.sector(1);
    assert_eq!(station.clone().write(1, &copy), done(2));
    let mut moved = copy;
    seal(&mut moved, 2);
    assert_eq!(station.write(1, &moved), refused(15));
    tell_compared("a_stamped_table_as_a_block");
}
