//! A closing that is cut (document 02): "In the cut rule a closing counts as a
//! commit." Each call is made on the core and on the model, and compared; so is what
//! a cut leaves.

mod common;

use common::agreement::compare;
use common::built::{saved, BLOCK};
use common::closing::{pointer, CLOSE};
use common::core::Core;
use common::forge;
use common::pair::tell_compared;
use common::random::{seed, Random};
use common::station::{done, refused, Station};
use station_model::book::{Ending, Fed, History};
use station_model::calls::Call;
use station_model::table::SECTOR;

/// One save, one more write and close packet: the closing has 264 sectors. And the
/// book so far.
fn before_the_cut() -> (Station, History) {
    let mut station = saved(300);
    assert_eq!(station.write(1, &[0xA7; SECTOR]), done(2));
    assert_eq!(station.call(Call::ClosePacket), done(0));
    let mut history = History::begun();
    for (call, written, second) in [
        (Call::Write(0), Some(&BLOCK[..]), 0),
        (Call::Commit, None, 1),
        (Call::Write(1), Some(&[0xA7; SECTOR][..]), 2),
        (Call::ClosePacket, None, 0),
    ] {
        let ending = Ending::Answered(done(second));
        history.feed(&Fed {
            call,
            written,
            ending,
        });
    }
    (station, history)
}

/// What the sector behind a cut may hold: it "stays blank or has kind 3 with
/// arbitrary bytes"; those that were about to be recorded, any, a table sector's, and
/// a pointer's.
fn tears(random: &mut Random, whole: &Station, block: u32) -> [Option<[u8; SECTOR]>; 5] {
    let mut any = [0; SECTOR];
    random.fill(&mut any);
    let block = block.min(whole.kinds.len() as u32 - 1);
    [
        None,
        Some(*whole.sector(block)),
        Some(any),
        Some(forge::valid_vat(random, block)),
        Some(pointer(block, block + 257)),
    ]
}

/// After the cut, mount shows what the book has, and the disc is closed exactly if
/// the table was kept. If not, recording goes on behind links, and does not close it.
fn goes_on_after_the_cut(mut station: Station, kept: bool) {
    assert_eq!(station.call(Call::Mount), done(u32::from(kept)));
    assert_eq!(station.disc().is_closed(), kept);
    if kept {
        assert_eq!(station.write(0, &BLOCK), refused(17));
        return;
    }
    let next = station.disc().recorded() + 7;
    let table = match next + 1 + 16 <= station.kinds.len() as u32 {
        true => {
            assert_eq!(station.write(0, &BLOCK), done(next));
            next + 1
        }
        false => next,
    };
    assert_eq!(station.call(Call::Commit), done(table));
    assert!(!station.disc().is_closed());
}

/// "In the cut rule a closing counts as a commit": cut after each j of its 264
/// sectors, with each tear, it makes its page only where all were kept.
#[test]
fn closing_cut_after_each_sector() {
    let (station, book) = before_the_cut();
    let mut random = Random::seeded(seed());
    let mut whole = station.clone();
    assert_eq!(whole.call(CLOSE), done(266));
    for j in 0..=264 {
        let kept = j == 264;
        let mut history = book.clone();
        history.feed(&Fed {
            call: CLOSE,
            written: None,
            ending: Ending::Cut { vat_kept: kept },
        });
        for torn in tears(&mut random, &whole, 3 + j as u32) {
            let mut cut = station.clone();
            cut.cut(CLOSE, &[], j, torn.as_ref());
            let agrees = compare(&Core::holding(&cut, j), &history, &mut random);
            assert_eq!(agrees, Ok(()), "cut after {j}");
            goes_on_after_the_cut(cut, kept);
        }
    }
    tell_compared("closing_cut_after_each_sector");
}

/// Writes one block after another up to the block.
fn write_up_to(station: &mut Station, block: u32) {
    while station.disc().recorded() < block {
        assert!(station.write(0, &BLOCK).is_done());
    }
}

/// The pointer of a closing that was cut closes nothing: what is recorded behind it
/// begins with links, also where a table then stands 256 sectors behind it.
#[test]
fn a_pointer_that_was_cut_off() {
    let (station, _) = before_the_cut();
    for j in [8, 9, 100, 200, 240] {
        for torn in [None, Some(&[0; SECTOR])] {
            let mut cut = station.clone();
            cut.cut(CLOSE, &[], j, torn);
            assert_eq!(cut.call(Call::Mount), done(0));
            write_up_to(&mut cut, 10 + 256);
            assert_eq!(cut.call(Call::Commit), done(10 + 256));
            assert!(!cut.disc().is_closed(), "cut after {j}");
            assert_eq!(cut.write(0, &BLOCK), done(267));
        }
    }
    tell_compared("a_pointer_that_was_cut_off");
}

/// A closing that was cut is made again, behind what was kept of it.
#[test]
fn a_closing_again() {
    for j in [0, 7, 8, 100, 263] {
        let mut station = saved(600);
        assert_eq!(station.call(Call::ClosePacket), done(0));
        station.cut(CLOSE, &[], j, Some(&[0xB1; SECTOR]));
        assert_eq!(station.call(Call::Mount), done(0));
        let table = station.disc().recorded() + 7 + 256;
        assert_eq!(station.call(CLOSE), done(table));
        assert!(station.disc().is_closed());
        assert_eq!(station.call(Call::LookBack(1)), done(1));
    }
    tell_compared("a_closing_again");
}
