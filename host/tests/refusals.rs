//! "The lowest applicable number is given, never another, and none without
//! its condition", where lowest "means first in the order of tests" (document
//! 02); a refusal "alters no lent byte". Each call is made on the core and on the
//! model, and compared.

mod common;

use common::built::{saved, saved_at, BLOCK};
use common::closing::{pointer, starting, CLOSE};
use common::pair::tell_compared;
use common::runs::{extent, with_run, ENTRY, VIEWED};
use common::stamps::{ANSWER, HALF_PAST};
use common::station::{done, refused, Station};
use station_model::calls::Call;
use station_model::disc::{BLANK, DATA, LINK, UNREADABLE};
use station_model::ledger::Volume;
use station_model::table::{vat_sector, LIMIT, NONE};
use station_model::time::NO_STAMP;

/// Makes the call on a copy and checks that a refusal alters nothing.
fn outcome(station: &Station, call: Call, buffer: &[u8]) -> u32 {
    let mut copy = station.clone();
    let mut lent = buffer.to_vec();
    let answer = copy.call_lent(call, &mut lent);
    if !answer.is_done() {
        assert_eq!(answer.second, 0);
        assert!(copy == *station && lent == buffer, "{call:?} altered bytes");
    }
    answer.outcome
}

/// Adds the conditions of 5, 4, 3, 2 and 1, those that the call has, to the
/// ones there are; each is tested earlier, so its number is given.
fn earlier_refusals_win(mut station: Station, call: Call, buffer: &[u8]) {
    let reads_ledger = !matches!(
        call,
        Call::Begin | Call::Mount | Call::LookBack(_) | Call::TimeOf(_)
    );
    if reads_ledger && !matches!(call, Call::Read(_) | Call::View { .. }) {
        station.change(|volume| volume.mode = 2);
        assert_eq!(outcome(&station, call, buffer), 5, "{call:?}");
    }
    if reads_ledger {
        station.change(|volume| volume.size = 4088);
        assert_eq!(outcome(&station, call, buffer), 4, "{call:?}");
    }
    station.kinds[0] = 4;
    assert_eq!(outcome(&station, call, buffer), 3, "{call:?}");
    if call.lent_length().is_some() {
        let longer = [buffer, &[0]].concat();
        assert_eq!(outcome(&station, call, &longer), 2, "{call:?}");
    }
    if call.is_lent_roles() {
        let mut longer = station.clone();
        longer.roles.push(0);
        assert_eq!(outcome(&longer, call, buffer), 2, "{call:?}");
    }
    station.ledger.pop();
    assert_eq!(outcome(&station, call, buffer), 2, "{call:?}");
    station.image.pop();
    assert_eq!(outcome(&station, call, buffer), 1, "{call:?}");
}

#[test]
fn write() {
    let mut station = Station::begun(17);
    assert_eq!(outcome(&station, Call::Write(0), &BLOCK), 0);
    let table = vat_sector(0, &[], NONE);
    assert_eq!(outcome(&station, Call::Write(0), &table), 15);
    station.shorten(16);
    assert_eq!(outcome(&station, Call::Write(0), &table), 14);
    for v in [1, 457, 458, 500, 4086] {
        assert_eq!(outcome(&station, Call::Write(v), &table), 12);
    }
    for size in [0, 458, 4086, 4087] {
        station.change(|volume| volume.size = size);
        for v in [4087, 4088, 5000, NONE] {
            assert_eq!(outcome(&station, Call::Write(v), &table), 13);
        }
    }
    earlier_refusals_win(station, Call::Write(5000), &table);
    tell_compared("write");
}

/// "Unnumbered writes are writes in all but the entry" (document 02): no number can
/// be too high, also where all are taken, and the rest comes as on a write.
#[test]
fn write_unnumbered() {
    let call = Call::WriteUnnumbered;
    let mut station = Station::begun(17);
    for size in [0, 1, 458, 4086, 4087] {
        station.change(|volume| volume.size = size);
        assert_eq!(outcome(&station, call, &BLOCK), 0);
    }
    let table = vat_sector(0, &[], NONE);
    assert_eq!(outcome(&station, call, &table), 15);
    assert_eq!(outcome(&station, call, &pointer(0, 0)), 15);
    station.shorten(16);
    assert_eq!(outcome(&station, call, &BLOCK), 14);
    assert_eq!(outcome(&station, call, &table), 14);
    earlier_refusals_win(station, call, &table);
    let mut taken = saved(30);
    taken.change(|volume| {
        volume.map.fill(0);
        volume.size = LIMIT as u32;
    });
    assert_eq!(outcome(&taken, Call::Write(LIMIT as u32), &BLOCK), 13);
    assert_eq!(taken.write_unnumbered(&BLOCK), done(2));
    tell_compared("write_unnumbered");
}

/// "Testing for 15 at the block before the links" goes wrong.
#[test]
fn table_sector_behind_the_links() {
    let mut station = saved(30);
    assert_eq!(station.call(Call::ClosePacket), done(0));
    let before_links = vat_sector(2, &[0], 1);
    let behind_links = vat_sector(9, &[0], 1);
    assert_eq!(outcome(&station, Call::Write(1), &behind_links), 15);
    assert_eq!(outcome(&station, Call::WriteUnnumbered, &behind_links), 15);
    assert_eq!(station.write(1, &before_links), done(9));
    tell_compared("table_sector_behind_the_links");
}

#[test]
fn release_and_read() {
    let mut station = saved(30);
    for call in [Call::Release, Call::Read] {
        assert_eq!(outcome(&station, call(0), &BLOCK), 0);
        assert_eq!(outcome(&station, call(1), &BLOCK), 10);
        assert_eq!(outcome(&station, call(NONE), &BLOCK), 10);
    }
    for kind in [LINK, UNREADABLE] {
        station.kinds[0] = kind;
        assert_eq!(outcome(&station, Call::Read(0), &BLOCK), 11);
        assert_eq!(outcome(&station, Call::Release(0), &BLOCK), 0);
    }
    assert_eq!(station.call(Call::Release(0)), done(0));
    for call in [Call::Release(0), Call::Read(0)] {
        assert_eq!(outcome(&station, call, &BLOCK), 10);
        earlier_refusals_win(station.clone(), call, &BLOCK);
    }
    tell_compared("release_and_read");
}

/// 19 is "tested after 11", and 20 "tested after 19" (document 02): an entry whose
/// run is shorter than the offset, then one that is none, then one that cannot be
/// read, then a number that is not in use.
#[test]
fn view() {
    let beyond = Call::View { v: 0, offset: 5001 };
    let mut station = with_run(&[extent(5000, 3)]);
    for (v, offset, expected) in [(0, 5000, 0), (0, 5001, 20), (0, u64::MAX, 20), (1, 0, 10)] {
        let call = Call::View { v, offset };
        assert_eq!(outcome(&station, call, &VIEWED), expected);
        station.change(|volume| volume.mode = 2);
        assert_eq!(outcome(&station, call, &VIEWED), expected);
        station.change(|volume| volume.mode = 0);
    }
    earlier_refusals_win(station.clone(), beyond, &VIEWED);
    station.kinds[5] = LINK;
    assert_eq!(outcome(&station, beyond, &VIEWED), 19);
    earlier_refusals_win(station.clone(), beyond, &VIEWED);
    for kind in [LINK, UNREADABLE] {
        station.kinds[ENTRY as usize] = kind;
        assert_eq!(outcome(&station, beyond, &VIEWED), 11);
    }
    earlier_refusals_win(station.clone(), beyond, &VIEWED);
    assert_eq!(station.call(Call::Release(0)), done(0));
    for v in [0, 1, LIMIT as u32, NONE] {
        let call = Call::View { v, offset: 5001 };
        assert_eq!(outcome(&station, call, &VIEWED), 10);
        earlier_refusals_win(station.clone(), call, &VIEWED);
    }
    tell_compared("view");
}

/// "Commit links + 1": on the last blank sector in an open packet, on the last
/// eight otherwise.
#[test]
fn commit_and_close_packet() {
    let mut station = saved(30);
    station.kinds[2..29].fill(DATA);
    station.change(|volume| volume.recorded = 29);
    assert_eq!(outcome(&station, Call::Commit, &[]), 0);
    assert_eq!(station.call(Call::ClosePacket), done(0));
    assert_eq!(station.call(Call::ClosePacket), done(0));
    assert_eq!(outcome(&station, Call::Commit, &[]), 14);
    station.kinds[22..].fill(BLANK);
    station.change(|volume| volume.recorded = 22);
    assert_eq!(outcome(&station, Call::Commit, &[]), 0);
    station.kinds[22] = DATA;
    station.change(|volume| volume.recorded = 23);
    assert_eq!(outcome(&station, Call::Commit, &[]), 14);
    earlier_refusals_win(station.clone(), Call::Commit, &[]);
    earlier_refusals_win(station, Call::ClosePacket, &[]);
    tell_compared("commit_and_close_packet");
}

/// 16 "is tested after 5 on a commit" (document 02), and so before 14; a
/// timestamp that keeps the limits gives 14 where the plain commit does.
#[test]
fn commit_at() {
    let mut station = saved(30);
    station.kinds[2..29].fill(DATA);
    station.change(|volume| volume.recorded = 29);
    assert_eq!(outcome(&station, Call::CommitAt, &HALF_PAST), 0);
    assert_eq!(outcome(&station, Call::CommitAt, &NO_STAMP), 16);
    assert_eq!(station.call(Call::ClosePacket), done(0));
    assert_eq!(outcome(&station, Call::CommitAt, &HALF_PAST), 14);
    assert_eq!(outcome(&station, Call::CommitAt, &NO_STAMP), 16);
    earlier_refusals_win(station.clone(), Call::CommitAt, &HALF_PAST);
    earlier_refusals_win(station, Call::CommitAt, &NO_STAMP);
    tell_compared("commit_at");
}

#[test]
fn begin_and_mount() {
    let mut station = saved(30);
    assert_eq!(outcome(&station, Call::Begin, &[]), 6);
    earlier_refusals_win(station.clone(), Call::Begin, &[]);
    assert_eq!(station.call(Call::Mount), done(1));
    assert_eq!(station.write(1, &BLOCK), done(9));
    assert_eq!(station.call(Call::Mount), done(0));
    station.kinds[1] = UNREADABLE;
    assert_eq!(outcome(&station, Call::Mount, &[]), 7);
    earlier_refusals_win(station.clone(), Call::Mount, &[]);
    assert_eq!(station.call(Call::Begin), done(0));
    tell_compared("begin_and_mount");
}

/// "Look back stops at its first failing step."
#[test]
fn look_back() {
    let mut station = saved(30);
    assert_eq!(station.call(Call::Commit), done(2));
    assert_eq!(station.call(Call::Commit), done(3));
    for (k, answer) in [(0, done(3)), (1, done(2)), (2, done(1)), (3, refused(9))] {
        assert_eq!(station.call(Call::LookBack(k)), answer);
    }
    assert_eq!(outcome(&station, Call::LookBack(NONE), &[]), 9);
    assert_eq!(outcome(&station, Call::ClosePacket, &[]), 5);
    assert_eq!(outcome(&station, Call::Read(0), &BLOCK), 0);
    station.kinds[2] = UNREADABLE;
    assert_eq!(outcome(&station, Call::LookBack(0), &[]), 0);
    for k in [1, 2, 3, NONE] {
        assert_eq!(outcome(&station, Call::LookBack(k), &[]), 8);
    }
    station.kinds[..4].fill(LINK);
    assert_eq!(outcome(&station, Call::LookBack(0), &[]), 7);
    earlier_refusals_win(station, Call::LookBack(0), &[]);
    tell_compared("look_back");
}

/// 16 is tested "after 9 when asking" (document 02), of the one table that k
/// names; so 7, 8 and 9 come before it.
#[test]
fn time_of() {
    let asked = |station: &Station, k| outcome(station, Call::TimeOf(k), &ANSWER);
    let mut station = saved_at(30);
    assert_eq!(station.call(Call::Commit), done(2));
    assert_eq!(station.commit_at(&HALF_PAST), done(3));
    assert_eq!(station.call(Call::Commit), done(4));
    assert_eq!(
        [0, 1, 2, 3, 4].map(|k| asked(&station, k)),
        [16, 0, 16, 0, 9]
    );
    assert_eq!(asked(&station, NONE), 9);
    earlier_refusals_win(station.clone(), Call::TimeOf(0), &ANSWER);
    station.kinds[2] = UNREADABLE;
    assert_eq!(
        [0, 1, 2, 3, 4].map(|k| asked(&station, k)),
        [16, 0, 8, 8, 8]
    );
    assert_eq!(asked(&station, NONE), 8);
    earlier_refusals_win(station.clone(), Call::TimeOf(2), &ANSWER);
    station.kinds[..5].fill(LINK);
    assert_eq!(asked(&station, 0), 7);
    assert_eq!(asked(&station, NONE), 7);
    earlier_refusals_win(station, Call::TimeOf(0), &ANSWER);
    tell_compared("time_of");
}

/// 18 is "tested directly after 17" (document 02), and so before 14.
#[test]
fn close_session() {
    let close = |start| Call::CloseSession(starting(start));
    let mut station = saved(259);
    assert_eq!(outcome(&station, close(400_000), &[]), 0);
    assert_eq!(outcome(&station, close(400_001), &[]), 18);
    assert_eq!(station.write(1, &BLOCK), done(2));
    assert_eq!(outcome(&station, close(400_000), &[]), 14);
    assert_eq!(outcome(&station, close(400_001), &[]), 18);
    assert_eq!(outcome(&station, close(NONE), &[]), 18);
    earlier_refusals_win(station.clone(), close(400_000), &[]);
    earlier_refusals_win(station, close(400_001), &[]);
    tell_compared("close_session");
}

/// 17 is "tested directly after 5" (document 02): on a disc that is closed and full
/// it comes before all that follows 5, and 5, 4, 3, 2 and 1 come before it.
#[test]
fn closed_disc() {
    let mut station = saved(259);
    assert_eq!(station.call(CLOSE), done(258));
    let table = vat_sector(259, &[], NONE);
    for (call, buffer) in [
        (Call::Write(0), &BLOCK[..]),
        (Call::Write(0), &table),
        (Call::Write(2), &table),
        (Call::Write(5000), &table),
        (Call::WriteUnnumbered, &BLOCK),
        (Call::WriteUnnumbered, &table),
        (Call::Release(0), &[]),
        (Call::Release(7), &[]),
        (Call::ClosePacket, &[]),
        (Call::Commit, &[]),
        (Call::CommitAt, &HALF_PAST),
        (Call::CommitAt, &NO_STAMP),
        (CLOSE, &[]),
        (Call::CloseSession(starting(400_001)), &[]),
    ] {
        assert_eq!(outcome(&station, call, buffer), 17, "{call:?}");
        earlier_refusals_win(station.clone(), call, buffer);
    }
    for (call, buffer, expected) in [
        (Call::Begin, &[][..], 6),
        (Call::Mount, &[], 0),
        (Call::Read(0), &BLOCK, 0),
        (Call::Read(1), &BLOCK, 10),
        (Call::LookBack(1), &[], 0),
        (Call::TimeOf(0), &ANSWER, 16),
        (Call::View { v: 0, offset: 0 }, &VIEWED, 19),
    ] {
        assert_eq!(outcome(&station, call, buffer), expected, "{call:?}");
    }
    tell_compared("closed_disc");
}

/// Refusal 4, clause by clause; each state next to it fits.
#[test]
fn ledger_that_does_not_fit() {
    let saved = saved(30);
    let outcome_with = |edit: &dyn Fn(&mut Volume)| {
        let mut station = saved.clone();
        station.change(edit);
        outcome(&station, Call::Read(5), &BLOCK)
    };
    let (fits, does_not_fit) = (10, 4);
    assert_eq!(outcome_with(&|_| ()), fits);
    assert_eq!(outcome_with(&|volume| volume.size = 458), fits);
    assert_eq!(outcome_with(&|volume| volume.size = 4087), fits);
    assert_eq!(outcome_with(&|volume| volume.size = 4088), does_not_fit);
    assert_eq!(outcome_with(&|volume| volume.size = NONE), does_not_fit);
    assert_eq!(outcome_with(&|volume| volume.map[1] = 0), does_not_fit);
    assert_eq!(outcome_with(&|volume| volume.map[457] = 0), does_not_fit);
    assert_eq!(outcome_with(&|volume| volume.map[4086] = 0), does_not_fit);
    assert_eq!(outcome_with(&|volume| volume.map[0] = 1), fits);
    assert_eq!(outcome_with(&|volume| volume.map[0] = 2), does_not_fit);
    assert_eq!(outcome_with(&|volume| volume.map[0] = NONE), fits);
    assert_eq!(outcome_with(&|volume| volume.recorded = 1), does_not_fit);
    assert_eq!(outcome_with(&|volume| volume.recorded = 3), does_not_fit);
    assert_eq!(outcome_with(&|volume| volume.last_vat = NONE), fits);
    assert_eq!(outcome_with(&|volume| volume.last_vat = 0), does_not_fit);
    assert_eq!(outcome_with(&|volume| volume.last_vat = 30), does_not_fit);
    assert_eq!(outcome_with(&|volume| volume.mode = 2), fits);
    assert_eq!(outcome_with(&|volume| volume.mode = 3), does_not_fit);
    tell_compared("ledger_that_does_not_fit");
}

/// "mode 1 where the last recorded sector is missing or not kind 1"
#[test]
fn open_packet_needs_a_last_data_sector() {
    let mut blank = Station::begun(30);
    blank.change(|volume| volume.mode = 1);
    assert_eq!(outcome(&blank, Call::Commit, &[]), 4);
    for (kind, expected) in [(DATA, 0), (LINK, 4), (UNREADABLE, 4)] {
        let mut station = Station::begun(30);
        station.kinds[0] = kind;
        station.change(|volume| {
            volume.recorded = 1;
            volume.mode = 1;
        });
        assert_eq!(outcome(&station, Call::Commit, &[]), expected);
    }
    tell_compared("open_packet_needs_a_last_data_sector");
}

/// "It has 1 to 360,000 sectors." The most are in `full_size.rs`.
#[test]
fn fewest_sectors() {
    for (sectors, expected) in [(0, 1), (1, 0)] {
        let mut station = Station::blank(sectors);
        assert_eq!(station.call(Call::Begin).outcome, expected);
    }
    tell_compared("fewest_sectors");
}
