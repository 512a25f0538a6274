//! The largest disc, 360,000 sectors, and a walk back through 360,000 tables: each call
//! is compared, and the whole image at the end of each part.

mod common;

use common::closing::{starting, CLOSE};
use common::core::Short;
use common::full::{FullSize, SECTORS};
use common::roles::KEEPING;
use common::runs::extent;
use common::stamps::HALF_PAST;
use common::station::{done, refused};
use common::tables::vat_behind;
use station_model::anchor::pointer_sector;
use station_model::calls::Call;
use station_model::disc::{DATA, LINK, MOST_SECTORS, UNREADABLE};
use station_model::run::{entry_sector, MOST_VIEWED};
use station_model::table::{stamped_vat_sector, vat_sector, NONE, SECTOR};

/// "more than 360,000": one more is refused before anything is read.
fn one_sector_too_many(disc: &mut FullSize) {
    for call in every_call() {
        assert_eq!(disc.call_short(call, Short::default()), refused(1));
    }
}

fn every_call() -> impl Iterator<Item = Call> {
    let view = Call::View { v: 0, offset: 0 };
    let telling = [Call::Read(0), Call::TimeOf(0), view];
    KEEPING.into_iter().chain(telling)
}

/// A block and a table at the start, and what is shown of them.
fn recorded_at_the_start(disc: &mut FullSize) {
    assert_eq!(disc.call(Call::Begin), done(0));
    assert_eq!(disc.call(Call::Write(0)), done(0));
    assert_eq!(disc.call(Call::Commit), done(1));
    assert_eq!(disc.call(Call::Mount), done(1));
    assert_eq!(disc.call(Call::LookBack(0)), done(1));
    assert_eq!(disc.call(Call::LookBack(1)), refused(9));
    assert_eq!(disc.call(Call::TimeOf(0)), refused(16));
    assert_eq!(disc.call(Call::Read(0)), done(0));
    assert_eq!(disc.call(Call::Begin), refused(6));
}

/// Data up to the 273rd sector before the end: room for seven links, two writes and
/// their reserve of 264, and for no third write.
fn recorded_at_the_end(disc: &mut FullSize) {
    disc.kinds()[2..MOST_SECTORS - 273].fill(DATA);
    assert_eq!(disc.call(Call::Mount), done(0));
    assert_eq!(disc.call(Call::LookBack(0)), done(1));
    assert_eq!(disc.call(Call::Mount), done(0));
    assert_eq!(disc.call(Call::WriteUnnumbered), done(SECTORS - 266));
    assert_eq!(disc.call(Call::Write(1)), done(SECTORS - 265));
    assert_eq!(disc.call(Call::Write(2)), refused(14));
    assert_eq!(disc.call(Call::WriteUnnumbered), refused(14));
    assert_eq!(disc.call(Call::Release(0)), done(0));
    assert_eq!(disc.call(Call::Read(1)), done(0));
    assert_eq!(disc.call(Call::CommitAt), done(SECTORS - 264));
    disc.assert_kept_up();
    assert_eq!(disc.call(Call::Mount), done(1));
    assert_eq!(disc.call(Call::LookBack(1)), done(1));
    assert_eq!(disc.call(Call::TimeOf(0)), done(0));
    assert_eq!(disc.call(Call::TimeOf(1)), refused(16));
}

/// A closing on the 263 sectors that are left, with the highest start: without links
/// it ends with the seventh sector before the end.
fn closed_at_the_end(disc: &mut FullSize) {
    assert_eq!(disc.call(Call::Mount), done(1));
    assert_eq!(disc.call(CLOSE), refused(14));
    disc.lend_ledger(|volume| volume.mode = 1);
    let close = Call::CloseSession(starting(400_000));
    assert_eq!(disc.call(close), done(SECTORS - 7));
    disc.assert_kept_up();
    for call in every_call().filter(|call| call.is_commit()) {
        assert_eq!(disc.call(call), refused(17));
    }
    assert_eq!(disc.call(Call::Write(0)), refused(17));
    assert_eq!(disc.call(Call::Release(1)), refused(17));
    assert_eq!(disc.call(Call::ClosePacket), refused(17));
    assert_eq!(disc.call(Call::Begin), refused(6));
    assert_eq!(disc.call(Call::Read(1)), done(0));
    assert_eq!(disc.call(Call::TimeOf(0)), refused(16));
    assert_eq!(disc.call(Call::TimeOf(1)), done(0));
    assert_eq!(disc.call(Call::LookBack(1)), done(SECTORS - 264));
    assert_eq!(disc.call(Call::Mount), done(1));
}

/// The closing's table cannot be read: the disc is not closed, and seven sectors
/// are no room for links and a table.
fn full_but_for_seven(disc: &mut FullSize) {
    disc.kinds()[MOST_SECTORS - 7] = UNREADABLE;
    disc.kinds()[MOST_SECTORS - 6..].fill(0);
    assert_eq!(disc.call(Call::Mount), done(0));
    assert_eq!(disc.call(Call::ClosePacket), done(0));
    assert_eq!(disc.call(Call::Commit), refused(14));
    assert_eq!(disc.call(Call::CommitAt), refused(14));
    assert_eq!(disc.call(CLOSE), refused(14));
}

/// A kind above 3 in the last sector, and a gap before it.
fn broken_at_the_end(disc: &mut FullSize) {
    for kind in [4, DATA] {
        disc.kinds()[MOST_SECTORS - 1] = kind;
        for call in every_call() {
            assert_eq!(disc.call(call), refused(3));
        }
    }
    disc.kinds()[MOST_SECTORS - 1] = 0;
}

/// 360,000 tables, each naming the one before, every tenth behind attributes and
/// every tenth, the oldest among them, with a timestamp.
fn chain(disc: &mut FullSize) {
    for block in 0..SECTORS {
        disc.put_sector(block, &link_of_the_chain(block));
    }
    disc.kinds().fill(DATA);
    assert_eq!(disc.call(Call::Mount), done(1));
    assert_eq!(disc.call(Call::LookBack(SECTORS - 1)), done(0));
    assert_eq!(disc.call(Call::LookBack(SECTORS)), refused(9));
    assert_eq!(disc.call(Call::LookBack(NONE)), refused(9));
    assert_eq!(disc.call(Call::TimeOf(0)), refused(16));
    assert_eq!(disc.call(Call::TimeOf(SECTORS - 1)), done(0));
    assert_eq!(disc.call(Call::TimeOf(SECTORS)), refused(9));
    assert_eq!(disc.call(Call::TimeOf(NONE)), refused(9));
    assert_eq!(disc.call(Call::Begin), refused(6));
    assert_eq!(disc.call(Call::Mount), done(1));
    assert_eq!(disc.call(Call::Write(0)), refused(14));
    assert_eq!(disc.call(Call::WriteUnnumbered), refused(14));
    assert_eq!(disc.call(Call::Commit), refused(14));
    assert_eq!(disc.call(Call::CommitAt), refused(14));
    assert_eq!(disc.call(CLOSE), refused(14));
    assert_eq!(disc.call(Call::Release(0)), refused(10));
    assert_eq!(disc.call(Call::Read(0)), refused(10));
    assert_eq!(disc.call(Call::ClosePacket), done(0));
}

fn link_of_the_chain(block: u32) -> [u8; SECTOR] {
    let previous = block.checked_sub(1).unwrap_or(NONE);
    match block % 10 {
        0 => stamped_vat_sector(block, &[], previous, &HALF_PAST),
        9 => vat_behind(&[0xA7; 220], block, &[], previous),
        _ => vat_sector(block, &[], previous),
    }
}

/// The oldest table cannot be read: the last step names no table.
fn broken_chain(disc: &mut FullSize) {
    disc.kinds()[0] = UNREADABLE;
    assert_eq!(disc.call(Call::LookBack(SECTORS - 2)), done(1));
    assert_eq!(disc.call(Call::LookBack(SECTORS - 1)), refused(8));
    assert_eq!(disc.call(Call::LookBack(NONE)), refused(8));
    assert_eq!(disc.call(Call::TimeOf(SECTORS - 11)), done(0));
    assert_eq!(disc.call(Call::TimeOf(SECTORS - 1)), refused(8));
}

/// One table in block 0 and data behind it: the search goes through the disc.
fn table_in_the_first_sector(disc: &mut FullSize) {
    disc.kinds().fill(UNREADABLE);
    disc.kinds()[0] = DATA;
    assert_eq!(disc.call(Call::Mount), done(0));
    assert_eq!(disc.call(Call::TimeOf(0)), done(0));
    disc.kinds()[0] = LINK;
    assert_eq!(disc.call(Call::Mount), refused(7));
    assert_eq!(disc.call(Call::TimeOf(0)), refused(7));
    assert_eq!(disc.call(Call::Begin), done(0));
    disc.lend_ledger(|volume| volume.mode = 1);
    assert_eq!(disc.call(Call::Commit), refused(4));
}

/// The entry of the last sector, for all sectors before it.
fn entry_of_all() -> [u8; SECTOR] {
    let all = extent((MOST_SECTORS - 1) * SECTOR, 0);
    entry_sector(SECTORS - 1, &[all])
}

/// A run of all sectors but the last, which is its entry.
fn run_over_the_disc(disc: &mut FullSize) {
    let view = |offset: usize| Call::View {
        v: 0,
        offset: offset as u64,
    };
    let length = (MOST_SECTORS - 1) * SECTOR;
    disc.kinds().fill(DATA);
    disc.put_sector(SECTORS - 1, &entry_of_all());
    disc.lend_ledger(|volume| {
        volume.map.fill(NONE);
        (volume.size, volume.recorded) = (0, SECTORS);
        (volume.last_vat, volume.mode) = (NONE, 2);
        volume.set(0, SECTORS - 1);
    });
    for offset in [0, 1, length / 2 + 77, length - MOST_VIEWED] {
        assert_eq!(disc.call(view(offset)), done(MOST_VIEWED as u32));
    }
    assert_eq!(disc.call(view(length - 1)), done(1));
    assert_eq!(disc.call(view(length)), done(0));
    assert_eq!(disc.call(view(length + 1)), refused(20));
    for block in [0, MOST_SECTORS / 2, MOST_SECTORS - 2] {
        disc.kinds()[block] = UNREADABLE;
        assert_eq!(disc.call(view(0)), refused(19));
        disc.kinds()[block] = DATA;
    }
}

#[test]
fn a_disc_of_360_000_sectors() {
    let mut disc = FullSize::blank();
    one_sector_too_many(&mut disc);
    recorded_at_the_start(&mut disc);
    recorded_at_the_end(&mut disc);
    closed_at_the_end(&mut disc);
    full_but_for_seven(&mut disc);
    broken_at_the_end(&mut disc);
    disc.compare_image(|block| match block {
        0 => [0x5A; SECTOR],
        1 => vat_sector(1, &[0], NONE),
        _ if block == SECTORS - 266 || block == SECTORS - 265 => [0x5A; SECTOR],
        _ if block == SECTORS - 264 => {
            stamped_vat_sector(block, &[NONE, SECTORS - 265], 1, &HALF_PAST)
        }
        _ if block == SECTORS - 263 => pointer_sector(block, &starting(400_000)),
        _ if block == SECTORS - 7 => vat_sector(block, &[NONE, SECTORS - 265], SECTORS - 264),
        _ => [0; SECTOR],
    });
    chain(&mut disc);
    broken_chain(&mut disc);
    table_in_the_first_sector(&mut disc);
    run_over_the_disc(&mut disc);
    disc.compare_image(|block| match block {
        SECTORS => [0; SECTOR],
        _ if block == SECTORS - 1 => entry_of_all(),
        _ => link_of_the_chain(block),
    });
    println!("{} calls compared at full size", disc.compared);
}
