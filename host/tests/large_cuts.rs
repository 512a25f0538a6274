//! Saves of more than 458 numbers that are cut: "A page only with the ICB". The core's
//! disc after each cut is held against the book and against the model's, with every tear.

mod common;

use common::agreement::compare;
use common::built::BLOCK;
use common::closing::{pointer, CLOSE};
use common::core::Core;
use common::forge;
use common::large::{map_over, with_data, Large};
use common::pair::tell_compared;
use common::random::{seed, Random};
use common::stamps::HALF_PAST;
use common::station::{done, Station};
use station_model::book::{Ending, Fed, History};
use station_model::calls::Call;
use station_model::disc::DATA;
use station_model::table::{seal, NONE, SECTOR};

/// A disc and its book, since a mount.
struct Booked {
    station: Station,
    history: History,
}

impl Booked {
    /// A disc with a table of 4,087 numbers in own sectors, mounted.
    fn mounted() -> Booked {
        let mut station = with_data(130, 20);
        Large::recorded_from(20, &map_over(20, 4087), NONE).put(&mut station);
        let found = station.disc().newest_vat().expect("a table");
        let history = History::mounted(&station.disc(), &found.vat);
        assert_eq!(station.call(Call::Mount), done(1));
        Booked { station, history }
    }

    fn call(&mut self, call: Call, lent: &[u8]) {
        let answer = self.station.call_lent(call, &mut lent.to_vec());
        assert!(answer.is_done(), "{call:?}: {answer:?}");
        self.feed(call, lent, Ending::Answered(answer));
    }

    fn feed(&mut self, call: Call, lent: &[u8], ending: Ending) {
        let written = (!lent.is_empty()).then_some(lent);
        self.history.feed(&Fed {
            call,
            written,
            ending,
        });
    }

    /// One number of each of so many own sectors is written, so that a save records
    /// these and the last.
    fn with_written(numbers: u32) -> Booked {
        let mut booked = Booked::mounted();
        for place in 0..numbers {
            booked.call(Call::Write(512 * place), &[place as u8; SECTOR]);
        }
        booked
    }
}

/// What the sector behind a cut may hold: it "stays blank or has kind 3 with arbitrary
/// bytes"; those that were about to be recorded, any, a table sector's, a pointer's, and
/// those of the ICB for that block.
fn tears(random: &mut Random, whole: &Station, block: u32) -> [Option<[u8; SECTOR]>; 6] {
    let block = block.min(whole.kinds.len() as u32 - 1);
    let last = whole.disc().recorded() - 1;
    let mut any = [0; SECTOR];
    random.fill(&mut any);
    let mut icb = *whole.sector(last);
    seal(&mut icb, block);
    [
        None,
        Some(*whole.sector(block)),
        Some(any),
        Some(forge::valid_vat(random, block)),
        Some(pointer(block, block + 257)),
        Some(icb),
    ]
}

/// Cuts the call after each of its sectors, with each tear, and compares with the book.
fn cut_after_each(booked: &Booked, call: Call, lent: &[u8], sectors: usize) {
    let mut random = Random::seeded(seed());
    let mut whole = booked.station.clone();
    assert!(whole.call_lent(call, &mut lent.to_vec()).is_done());
    let before = booked.station.disc().recorded();
    assert_eq!((whole.disc().recorded() - before) as usize, sectors);
    for j in 0..=sectors {
        let kept = j == sectors && call.is_commit();
        let mut history = booked.history.clone();
        history.feed(&Fed {
            call,
            written: (!lent.is_empty()).then_some(lent),
            ending: Ending::Cut { vat_kept: kept },
        });
        for torn in tears(&mut random, &whole, before + j as u32) {
            let mut cut = booked.station.clone();
            cut.cut(call, lent, j, torn.as_ref());
            let agrees = compare(&Core::holding(&cut, j), &history, &mut random);
            assert_eq!(agrees, Ok(()), "{call:?} cut after {j}");
            goes_on(cut, kept, before);
        }
    }
}

/// After the cut mount is dirty, unless the table was kept, and of what the save left
/// behind its links all is superseded; the next save is made.
fn goes_on(mut station: Station, kept: bool, before: u32) {
    let recorded = station.disc().recorded();
    assert_eq!(station.call(Call::Mount), done(u32::from(kept)));
    let left = &station.roles[before as usize..recorded as usize];
    let of_no_table = left.iter().all(|role| [1, 4, 5].contains(role));
    assert!(kept || of_no_table, "{left:?}");
    assert_eq!(station.write(5, &BLOCK), done(recorded + 7));
    assert!(station.call(Call::Commit).is_done());
    assert_eq!(station.call(Call::Mount), done(1));
}

/// Seven links, eight own sectors and the ICB: cut after each of the 16.
#[test]
fn the_largest_save_behind_links() {
    let mut booked = Booked::with_written(8);
    booked.call(Call::ClosePacket, &[]);
    cut_after_each(&booked, Call::Commit, &[], 16);
    cut_after_each(&booked, Call::CommitAt, &HALF_PAST, 16);
    tell_compared("the_largest_save_behind_links");
}

/// Each number of own sectors that are recorded, without links.
#[test]
fn saves_that_name_some_again() {
    for numbers in 1..=8 {
        let booked = Booked::with_written(numbers);
        let own = numbers.min(7) as usize + 1;
        cut_after_each(&booked, Call::Commit, &[], own + 1);
    }
    tell_compared("saves_that_name_some_again");
}

/// A save behind a save that was cut: it names again what the last whole table has, and
/// nothing of the one that was cut, though it has the same bytes.
#[test]
fn a_save_again() {
    for j in 0..4 {
        let mut booked = Booked::with_written(2);
        let before = booked.station.disc().recorded();
        booked.station.cut(Call::Commit, &[], j, Some(&BLOCK));
        booked.feed(Call::Commit, &[], Ending::Cut { vat_kept: false });
        booked.call(Call::Mount, &[]);
        let cut = booked.station.disc().recorded();
        assert_eq!(cut, before + j as u32 + 1);
        for place in 0..2 {
            booked.call(Call::Write(512 * place), &[place as u8; SECTOR]);
        }
        let answer = booked.station.clone().call(Call::Commit);
        assert_eq!(answer, done(cut + 7 + 2 + 3));
        let mut saved = booked.station.clone();
        saved.call(Call::Commit);
        let own = saved.disc().vat_at(answer.second).expect("a table").own;
        assert_eq!(own, [cut + 9, cut + 10, 22, 23, 24, 25, 26, cut + 11]);
        booked.call(Call::Commit, &[]);
        let mut random = Random::seeded(seed());
        let core = Core::holding(&booked.station, j);
        assert_eq!(compare(&core, &booked.history, &mut random), Ok(()));
    }
    tell_compared("a_save_again");
}

/// A closing of a large table, cut about its pointer, in the zeros, among its own sectors
/// and about its table.
#[test]
fn closings() {
    let mut booked = Booked::with_written(8);
    let blank = booked.station.kinds.len();
    booked.station.kinds.resize(blank + 300, 0);
    booked.station.roles.resize(blank + 300, 6);
    booked.station.image.resize((blank + 300) * SECTOR, 0);
    booked.call(Call::ClosePacket, &[]);
    let mut random = Random::seeded(seed());
    for j in [0, 6, 7, 8, 9, 130, 254, 255, 256, 257, 258, 262, 263, 264] {
        let kept = j == 264;
        let mut history = booked.history.clone();
        history.feed(&Fed {
            call: CLOSE,
            written: None,
            ending: Ending::Cut { vat_kept: kept },
        });
        for torn in [None, Some(BLOCK)] {
            let mut cut = booked.station.clone();
            cut.cut(CLOSE, &[], j, torn.as_ref());
            let agrees = compare(&Core::holding(&cut, j), &history, &mut random);
            assert_eq!(agrees, Ok(()), "closing cut after {j}");
            assert_eq!(cut.disc().is_closed(), kept, "{j}");
            assert!(cut.call(Call::Mount).is_done());
            let superseded = cut.roles.iter().filter(|role| **role == 1).count();
            // The eight blocks that were not saved, and what was kept behind the links;
            // or the pointer and the zeros.
            let expected = if kept {
                256 - 8
            } else {
                8 + j.saturating_sub(7)
            };
            assert_eq!(superseded, expected, "{j}");
        }
    }
    tell_compared("closings");
}

/// Own sectors that a map names as numbers, by a table of another deck: they read as
/// data, whatever is saved or cut since.
#[test]
fn own_sectors_that_are_read_as_numbers() {
    let mut station = with_data(80, 20);
    let mut map = map_over(20, 600);
    map[..3].copy_from_slice(&[20, 21, 5]);
    Large::recorded_from(20, &map, NONE).put(&mut station);
    let found = station.disc().newest_vat().expect("a table");
    let history = History::mounted(&station.disc(), &found.vat);
    assert_eq!(station.call(Call::Mount), done(1));
    let mut booked = Booked { station, history };
    booked.call(Call::Write(2), &BLOCK);
    booked.call(Call::ClosePacket, &[]);
    cut_after_each(&booked, Call::Commit, &[], 10);
    assert_eq!(booked.station.kinds[20], DATA);
    let own = *booked.station.sector(21);
    assert_eq!(booked.station.read(1, 0), (done(0), own));
    tell_compared("own_sectors_that_are_read_as_numbers");
}
