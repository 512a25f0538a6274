//! Blocks without a number, and what the saves whose entries name them show
//! (document 02). Each call is made on the core and on the model, and compared.

mod common;

use common::built::{saved, BLOCK};
use common::pair::tell_compared;
use common::runs::extent;
use common::station::{done, refused, Station};
use station_model::calls::Call;
use station_model::disc::{BLANK, DATA, LINK};
use station_model::ledger::Volume;
use station_model::run::{entry_sector, MOST_VIEWED};
use station_model::table::SECTOR;

/// "Unnumbered writes are writes in all but the entry": beside a write from the same
/// state, in an open packet and behind links, all is the same but map and size.
#[test]
fn writes_in_all_but_the_entry() {
    for (mode, block) in [(1, 2), (0, 9)] {
        let mut station = saved(30);
        station.change(|volume| volume.mode = mode);
        let before = station.volume();
        let mut numbered = station.clone();
        assert_eq!(numbered.write(1, &BLOCK), done(block));
        assert_eq!(station.write_unnumbered(&BLOCK), done(block));
        assert!(station.image == numbered.image && station.kinds == numbered.kinds);
        let mut expected = numbered.volume();
        (expected.map, expected.size) = (before.map, before.size);
        assert_eq!(station.volume(), expected);
        assert_eq!(station.volume().mode, 1);
    }
    tell_compared("writes_in_all_but_the_entry");
}

/// The room that it needs is a write's, on short discs and on those of 1,000 sectors
/// or more, with links and without.
#[test]
fn room_for_an_unnumbered_write() {
    for (sectors, reserve) in [(28, 16), (999, 16), (1000, 264), (2000, 264)] {
        for (mode, links) in [(0, 7), (1, 0)] {
            let most = sectors - (links + 1 + reserve);
            for (recorded, has_room) in [(most - 1, true), (most, true), (most + 1, false)] {
                let mut station = Station::blank(sectors);
                station.kinds[..recorded].fill(DATA);
                let mut volume = Volume::begun(&station.disc());
                volume.mode = mode;
                station.ledger = volume.to_bytes().to_vec();
                let expected = match has_room {
                    true => done((recorded + links) as u32),
                    false => refused(14),
                };
                assert_eq!(station.clone().write(0, &BLOCK), expected);
                assert_eq!(station.write_unnumbered(&BLOCK), expected);
            }
        }
    }
    tell_compared("room_for_an_unnumbered_write");
}

/// Cut after each of its sectors, and torn, it leaves what a write does, and the save
/// before it is shown.
#[test]
fn an_unnumbered_write_that_is_cut() {
    let mut station = saved(30);
    assert_eq!(station.call(Call::ClosePacket), done(0));
    for j in 0..=8 {
        for torn in [None, Some(&[0x3C; SECTOR])] {
            let (mut one, mut other) = (station.clone(), station.clone());
            one.cut(Call::WriteUnnumbered, &BLOCK, j, torn);
            other.cut(Call::Write(0), &BLOCK, j, torn);
            assert!(one == other, "cut after {j}");
            let links = j.min(7);
            assert_eq!(one.kinds[2..2 + links], [LINK; 7][..links]);
            assert_eq!(one.kinds[10..], [BLANK; 20]);
            assert_eq!(
                one.call(Call::Mount),
                done(u32::from(j == 0 && torn.is_none()))
            );
            assert_eq!(one.read(0, 0x11), (done(0), BLOCK));
        }
    }
    tell_compared("an_unnumbered_write_that_is_cut");
}

/// A disc with two saves: number 0 is first the entry of three blocks that were
/// written without a number, and then of the last of these and two more.
fn two_saves() -> (Station, [Vec<u8>; 2]) {
    let mut station = Station::begun(60);
    let blocks: Vec<[u8; SECTOR]> = (1..=5).map(|byte| [byte; SECTOR]).collect();
    for (block, bytes) in (0..3).zip(&blocks) {
        assert_eq!(station.write_unnumbered(bytes), done(block));
    }
    let entry = entry_sector(3, &[extent(2 * SECTOR, 0), extent(5, 2)]);
    assert_eq!(station.write(0, &entry), done(3));
    assert_eq!(station.call(Call::Commit), done(4));
    assert_eq!(station.call(Call::ClosePacket), done(0));
    assert_eq!(station.write_unnumbered(&blocks[3]), done(12));
    assert_eq!(station.write_unnumbered(&blocks[4]), done(13));
    let older = [&blocks[0][..], &blocks[1], &blocks[2][..5]].concat();
    let newer = [&blocks[2][..], &blocks[3], &blocks[4][..9]].concat();
    assert_eq!(station.view(0, 0, MOST_VIEWED).as_ref(), Ok(&older));
    let entry = entry_sector(14, &[extent(SECTOR, 2), extent(SECTOR + 9, 12)]);
    assert_eq!(station.write(0, &entry), done(14));
    (station, [older, newer])
}

/// Unsaved numbers are seen; a look back, whose mode is 2, shows the older entry and
/// so the older run, and a mount the saved one.
#[test]
fn runs_of_each_save() {
    let (mut station, [older, newer]) = two_saves();
    let shown = |station: &mut Station| station.view(0, 0, MOST_VIEWED).expect("a run");
    assert_eq!(shown(&mut station), newer);
    let mut unsaved = station.clone();
    assert_eq!(unsaved.call(Call::LookBack(0)), done(4));
    assert_eq!(shown(&mut unsaved), older);
    assert_eq!(unsaved.call(Call::Mount), done(0));
    assert_eq!(shown(&mut unsaved), older);

    assert_eq!(station.call(Call::Commit), done(15));
    for (call, run) in [
        (Call::Mount, &newer),
        (Call::LookBack(0), &newer),
        (Call::LookBack(1), &older),
    ] {
        assert!(station.call(call).is_done());
        assert_eq!(shown(&mut station), *run, "{call:?}");
        assert_eq!(station.view(0, run.len() as u64 + 1, 1), Err(20));
    }
    assert_eq!(station.call(Call::Mount), done(1));
    assert_eq!(station.call(Call::Release(0)), done(0));
    assert_eq!(station.view(0, 0, 1), Err(10));
    tell_compared("runs_of_each_save");
}

/// "A later save never alters what an earlier entry shows": nor does what else is
/// recorded, cut or closed.
#[test]
fn what_an_entry_shows_stays() {
    let (mut station, runs) = two_saves();
    assert_eq!(station.call(Call::Commit), done(15));
    let both = |station: &Station, saves: u32| {
        for (back, run) in (0..).zip(runs.iter().rev()) {
            let mut copy = station.clone();
            assert!(copy.call(Call::LookBack(saves + back)).is_done());
            assert_eq!(copy.view(0, 0, MOST_VIEWED).as_ref(), Ok(run));
        }
    };
    both(&station, 0);
    for (call, torn) in [
        (Call::WriteUnnumbered, Some(&BLOCK)),
        (Call::Write(1), None),
        (Call::Commit, Some(&BLOCK)),
    ] {
        for j in 0..9 {
            let mut cut = station.clone();
            assert_eq!(cut.call(Call::ClosePacket), done(0));
            cut.cut(call, &BLOCK, j, torn);
            both(&cut, u32::from(call.is_commit() && j == 8));
        }
    }
    for saves in 1..5 {
        assert!(station.write_unnumbered(&BLOCK).is_done());
        assert!(station.write(0, &BLOCK).is_done());
        assert!(station.call(Call::Commit).is_done());
        both(&station, saves);
    }
    tell_compared("what_an_entry_shows_stays");
}
