//! Stations built at each bound of the rules, and every call on each of them,
//! on the core and on the model, compared.

mod common;

use common::built::{every_call, saved, BLOCK};
use common::forge;
use common::pair::{tell_compared, Pair};
use common::random::{cases, seed, Random};
use common::stamps::{put_modified, ANSWER, HALF_PAST};
use common::station::{done, refused, Station};
use common::tables::vat_behind;
use station_model::calls::Call;
use station_model::disc::{BLANK, DATA, LINK, UNREADABLE};
use station_model::ledger::{Volume, LEDGER};
use station_model::table::{LIMIT, NONE, SECTOR};

/// A table sector in each block, naming the one before, every other one behind
/// attributes, every third one without a timestamp, and a ledger for the recorded
/// ones.
fn all_tables(kinds: &[u8]) -> Station {
    let mut station = Station::blank(kinds.len());
    for (block, kind) in (0..).zip(kinds) {
        let previous = u32::checked_sub(block, 1).unwrap_or(NONE);
        let attributes = vec![0xA7; 8 * (block as usize % 2)];
        let mut table = vat_behind(&attributes, block, &[previous], previous);
        if block % 3 != 2 {
            put_modified(&mut table, block, &HALF_PAST);
        }
        station.put_sector(block, *kind, &table);
    }
    let volume = Volume::begun(&station.disc());
    station.ledger = volume.to_bytes().to_vec();
    station
}

/// The digits of a number to the base 6 as kinds: 4 and 255 are none.
fn kinds_of(number: usize, sectors: u32) -> Vec<u8> {
    let kind = |place| [0, 1, 2, 3, 4, 255][number / 6usize.pow(place) % 6];
    (0..sectors).map(kind).collect()
}

/// All kinds of discs of up to four sectors, with every mode and last table.
#[test]
fn all_kinds_of_small_discs() {
    for sectors in 1..=4 {
        for number in 0..6usize.pow(sectors) {
            let mut station = all_tables(&kinds_of(number, sectors));
            for (mode, last_vat) in [(0, NONE), (1, NONE), (0, 0), (2, sectors - 1)] {
                station.change(|volume| {
                    volume.mode = mode;
                    volume.last_vat = last_vat;
                });
                every_call(&station);
            }
        }
    }
    tell_compared("all_kinds_of_small_discs");
}

/// Sectors about the lengths at which a pass over the kinds may change its
/// stride.
const LENGTHS: [usize; 22] = [
    1, 2, 3, 7, 8, 9, 15, 16, 17, 31, 32, 33, 34, 63, 64, 65, 127, 128, 129, 255, 257, 600,
];

/// Begin and close packet, whose answers turn on the kinds alone.
fn passes_over_kinds(pair: &mut Pair, ledger: &[u8]) {
    pair.lend_ledger(ledger);
    pair.call(Call::ClosePacket, &[]);
    pair.call(Call::Begin, &[]);
}

/// The recorded sectors end at each place, and a kind that breaks the rules
/// stands at each place: "a kind above 3, or a recorded sector after a blank one".
#[test]
fn broken_kinds_at_each_place() {
    for sectors in LENGTHS {
        let bounds: Vec<usize> = match sectors {
            0..=65 => (0..=sectors).collect(),
            _ => vec![0, 1, sectors / 2, sectors - 1, sectors],
        };
        let blank = Station::blank(sectors);
        for recorded in bounds {
            let mut station = blank.clone();
            station.kinds[..recorded].fill(LINK);
            station.ledger = Volume::begun(&station.disc()).to_bytes().to_vec();
            let mut pair = Pair::shifted(&station, recorded);
            passes_over_kinds(&mut pair, &station.ledger);
            for at in 0..sectors {
                for kind in [BLANK, DATA, 4] {
                    pair.put_sector(at as u32, kind, &[0; SECTOR]);
                    passes_over_kinds(&mut pair, &station.ledger);
                }
                pair.put_sector(at as u32, station.kinds[at], &[0; SECTOR]);
            }
            pair.compare_whole();
        }
    }
    tell_compared("broken_kinds_at_each_place");
}

/// A station of 30 with four entries, of which one is unused, and two tables.
fn with_four_entries() -> Station {
    let mut station = saved(30);
    for v in 1..4 {
        assert_eq!(station.write(v, &BLOCK), done(v + 1));
    }
    assert_eq!(station.call(Call::Release(2)), done(0));
    assert_eq!(station.commit_at(&HALF_PAST), done(5));
    station
}

/// Refusal 4, clause by clause, and each state next to it that fits.
#[test]
fn each_clause_of_a_ledger_that_does_not_fit() {
    let station = with_four_entries();
    let with = |edit: &dyn Fn(&mut Volume)| {
        let mut edited = station.clone();
        edited.change(edit);
        every_call(&edited);
    };
    for number in [
        0,
        1,
        2,
        3,
        4,
        5,
        6,
        7,
        29,
        30,
        31,
        458,
        459,
        4086,
        4087,
        4088,
        1 << 16,
        1 << 31,
        NONE,
    ] {
        with(&|volume| volume.size = number);
        with(&|volume| volume.recorded = number);
        with(&|volume| volume.last_vat = number);
        with(&|volume| volume.mode = number);
        for v in [0, 1, 3, 4, 5, 458, 4086] {
            with(&|volume| volume.map[v] = number);
        }
    }
    tell_compared("each_clause_of_a_ledger_that_does_not_fit");
}

/// Each of 4,087 entries is looked at, below size and from size on.
#[test]
fn each_entry_of_a_ledger() {
    let station = with_four_entries();
    let mut pair = Pair::holding(&station);
    for v in 0..LIMIT {
        for size in [v, v + 1] {
            for entry in [5, 6, NONE - 1] {
                let mut volume = Volume::begun(&station.disc());
                volume.size = size as u32;
                volume.map[v] = entry;
                pair.lend_ledger(&volume.to_bytes());
                pair.call(Call::Read(v as u32), &BLOCK);
                pair.call(Call::Release(v as u32), &[]);
            }
        }
    }
    tell_compared("each_entry_of_a_ledger");
}

/// Discs of 1 to 34 sectors, recorded up to each place: write needs links + 1 + 16
/// blank sectors, commit, of a table that is embedded, links + 1.
#[test]
fn each_amount_of_room() {
    for sectors in 1..=34 {
        for recorded in 0..=sectors {
            let mut station = Station::blank(sectors);
            for kind in [DATA, LINK, UNREADABLE] {
                station.kinds[..recorded].fill(DATA);
                if recorded > 0 {
                    station.kinds[recorded - 1] = kind;
                }
                for mode in 0..3 {
                    let mut volume = Volume::begun(&station.disc());
                    volume.mode = mode;
                    station.ledger = volume.to_bytes().to_vec();
                    every_call(&station);
                }
            }
        }
    }
    tell_compared("each_amount_of_room");
}

/// The smallest disc: room for a table and nothing else.
#[test]
fn disc_of_one_sector() {
    let mut station = Station::begun(1);
    every_call(&station);
    assert_eq!(station.write(0, &BLOCK), refused(14));
    assert_eq!(station.commit_at(&HALF_PAST), done(0));
    assert_eq!(station.call(Call::Mount), done(1));
    assert_eq!(station.call(Call::LookBack(0)), done(0));
    assert_eq!(station.call(Call::LookBack(1)), refused(9));
    assert_eq!(station.time_of(0), Ok((-30, 0)));
    assert_eq!(station.time_of(1), Err(9));
    assert_eq!(station.call(Call::Mount), done(1));
    assert_eq!(station.call(Call::Commit), refused(14));
    assert_eq!(station.commit_at(&HALF_PAST), refused(14));
    every_call(&station);
    tell_compared("disc_of_one_sector");
}

/// A ledger of each size near 0 and near the limit, on a disc with room: all
/// entries in use, and the number after the last.
#[test]
fn sizes_about_the_limit() {
    let saved = saved(40);
    for size in [0, 1, 2, 457, 458, 459, 512, 4085, 4086, 4087] {
        for mode in 0..3 {
            let mut station = saved.clone();
            station.change(|volume| {
                volume.map[..size].fill(1);
                volume.map[size..].fill(NONE);
                volume.size = size as u32;
                volume.mode = mode;
            });
            every_call(&station);
        }
    }
    tell_compared("sizes_about_the_limit");
}

/// Embedded tables of 0 to 459 entries, behind attributes of 0 to 1,836 bytes, as the
/// newest: mounted, looked back to, and gone on from.
#[test]
fn tables_of_each_size() {
    for (attributes, entries, is_table) in [
        (0, 0, true),
        (0, 1, true),
        (0, 2, true),
        (0, 457, true),
        (0, 458, true),
        (0, 459, false),
        (4, 0, true),
        (4, 457, true),
        (4, 458, false),
        (218, 2, false),
        (220, 2, true),
        (220, 403, true),
        (220, 404, false),
        (1832, 0, true),
        (1832, 1, false),
        (1836, 0, false),
    ] {
        let mut station = saved(40);
        let attributes = vec![0xA7; attributes];
        let table = vat_behind(&attributes, 2, &vec![1; entries], 1);
        station.put_sector(2, DATA, &table);
        let answer = station.call(Call::Mount);
        assert_eq!(answer, done(u32::from(is_table)));
        every_call(&station);
        let looked = station.call(Call::LookBack(1));
        assert_eq!(looked.is_done(), is_table);
        every_call(&station);
    }
    tell_compared("tables_of_each_size");
}

/// The block that a write takes is a table sector for a block near it, also one
/// whose table stands behind attributes: 15 at its own block alone, behind the
/// links if there are any.
#[test]
fn blocks_that_are_tables() {
    let saved = with_four_entries();
    for (mode, taken) in [(0, 13), (1, 6)] {
        let mut station = saved.clone();
        station.change(|volume| volume.mode = mode);
        for attributes in [0, 2, 4, 218, 220, 1828, 1832] {
            let is_table = attributes % 4 == 0 && attributes < 1832;
            let attributes = vec![0xA7; attributes];
            let mut pair = Pair::holding(&station);
            for block in 0..30 {
                let table = vat_behind(&attributes, block, &[NONE], NONE);
                let expected = if is_table && block == taken {
                    refused(15)
                } else {
                    done(taken)
                };
                assert_eq!(pair.call(Call::Write(4), &table), expected);
                if expected.is_done() {
                    pair.take_back(&station);
                }
            }
        }
    }
    tell_compared("blocks_that_are_tables");
}

/// A copy of a table at every other block is none there.
#[test]
fn copies_of_a_table() {
    let station = with_four_entries();
    let behind_attributes = vat_behind(&[0xA7; 220], 5, &[0, 2], 1);
    for table in [*station.sector(5), behind_attributes] {
        for block in 6..30 {
            let mut copied = station.clone();
            copied.put_sector(5, DATA, &table);
            copied.kinds[6..=block as usize].fill(LINK);
            copied.put_sector(block, DATA, &table);
            assert_eq!(copied.call(Call::Mount), done(0));
            assert_eq!(copied.volume().last_vat, 5);
            copied.put_sector(5, UNREADABLE, &table);
            assert_eq!(copied.call(Call::LookBack(0)), done(1));
            every_call(&copied);
        }
    }
    tell_compared("copies_of_a_table");
}

/// Chains that end, break, leap over tables or meet copies: each k.
#[test]
fn chains() {
    for case in cases(3000) {
        let mut random = Random::of_case(case);
        let sectors = 2 + random.below(14);
        let station = forge::disc_of_chains(&mut random, sectors);
        let mut pair = Pair::of_case(&station, case);
        for k in (0..18).chain([1 << 31, NONE - 1, NONE]) {
            pair.call(Call::LookBack(k), &[]);
            pair.call(Call::TimeOf(k), &ANSWER);
        }
        pair.call(Call::Mount, &[]);
        pair.call(Call::Commit, &[]);
        pair.call(Call::LookBack(1), &[]);
    }
    tell_compared("chains");
}

/// A list that fills the map: 4,087 writes, commits on the way, rewrites and
/// releases, on a disc whose image is compared in parts and then whole.
#[test]
fn map_filled_to_the_limit() {
    let mut random = Random::of_case(0);
    let mut pair = Pair::holding(&Station::blank(9000));
    assert_eq!(pair.call(Call::Begin, &[]), done(0));
    for v in 0..LIMIT as u32 {
        assert!(pair.call(Call::Write(v), &random.bytes(SECTOR)).is_done());
        match random.below(30) {
            0 => pair.call(Call::Commit, &[]),
            1 => pair.call(Call::CommitAt, &HALF_PAST),
            2 => pair.call(Call::ClosePacket, &[]),
            3..=5 => pair.call(Call::Release(random.below(v as usize + 1) as u32), &[]),
            6..=8 => {
                let again = random.below(v as usize + 1) as u32;
                pair.call(Call::Write(again), &random.bytes(SECTOR))
            }
            _ => pair.call(Call::Read(v), &BLOCK),
        };
    }
    assert_eq!(pair.call(Call::Write(LIMIT as u32), &BLOCK), refused(13));
    assert!(pair.call(Call::CommitAt, &HALF_PAST).is_done());
    assert_eq!(pair.call(Call::Mount, &[]), done(1));
    assert_eq!(pair.call(Call::TimeOf(0), &ANSWER), done(0));
    for v in 0..=LIMIT as u32 {
        pair.call(Call::Read(v), &BLOCK);
    }
    pair.compare_whole();
    tell_compared("map_filled_to_the_limit");
}

/// The model's own ledger, by which these tests edit the lent one: load and store
/// are inverse on any 16,364 bytes, and other lengths are none.
#[test]
fn ledger_bytes() {
    let mut random = Random::seeded(seed());
    for _ in 0..100 {
        let bytes = random.bytes(LEDGER);
        let volume = Volume::load(&bytes).expect("16,364 bytes");
        assert_eq!(volume.to_bytes().to_vec(), bytes);
    }
    assert_eq!(4 * LIMIT + 16, LEDGER);
    assert!(Volume::load(&[0; LEDGER - 1]).is_none());
    assert!(Volume::load(&[0; LEDGER + 1]).is_none());
}
