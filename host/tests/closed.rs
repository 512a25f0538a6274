//! What a closed disc is, and which blocks have such a tag as its pointer (document
//! 02): "A disc is closed exactly if its last recorded sector is a table, the 256
//! before it have kind 1, and the first of these has tag identifier 2, a right tag
//! checksum and a tag location from its block to its block + 400,000"; rule 15 "also
//! covers every block with such a tag". Each call is made on the core and on the
//! model, and compared.

mod common;

use common::built::{every_call, saved, BLOCK};
use common::closing::{closed_by_another, disc_of_closings, mounted, pointer, CLOSE};
use common::forge;
use common::pair::{tell_compared, Pair};
use common::random::{cases, Random};
use common::stamps::HALF_PAST;
use common::station::{done, refused, Station};
use common::tables::{put_sum, vat_behind, MOST_EMBEDDED};
use station_model::answer::Answer;
use station_model::calls::Call;
use station_model::disc::{BLANK, DATA, LINK, UNREADABLE};
use station_model::fields::put;
use station_model::ledger::Volume;
use station_model::table::{vat_sector, NONE, SECTOR};

/// Whether close packet, which records nothing, says that the disc is closed. The
/// core and the model do, and the crate.
fn is_closed(station: &Station) -> bool {
    let mut copy = station.clone();
    mounted(&mut copy);
    let answer = copy.call(Call::ClosePacket);
    assert!(answer == done(0) || answer == refused(17), "{answer:?}");
    let closed = answer == refused(17);
    assert_eq!(
        station::is_closed(&station.image, &station.kinds),
        Ok(closed)
    );
    closed
}

/// The pair's disc, whose ledger fits.
fn pair_is_closed(pair: &mut Pair) -> bool {
    let answer = pair.call(Call::ClosePacket, &[]);
    assert!(answer == done(0) || answer == refused(17), "{answer:?}");
    answer == refused(17)
}

/// A pointer of block 20 with other fields, its tag's checksum right or not, and
/// whether it has such a tag there.
type Variant = (&'static str, fn(&mut [u8; SECTOR]), bool);

const VARIANTS: [Variant; 20] = [
    ("as it is", |_| {}, true),
    ("location one below", |s| put_location(s, 19), false),
    ("location two below", |s| put_location(s, 18), false),
    ("location 0", |s| put_location(s, 0), false),
    ("location one above", |s| put_location(s, 21), true),
    ("location two above", |s| put_location(s, 22), true),
    ("location one nearer", |s| put_location(s, 400_019), true),
    ("location farthest", |s| put_location(s, 400_020), true),
    ("location one farther", |s| put_location(s, 400_021), false),
    ("location two farther", |s| put_location(s, 400_022), false),
    ("location none", |s| put_location(s, NONE), false),
    ("checksum one more", |s| s[4] = s[4].wrapping_add(1), false),
    ("checksum 0", |s| s[4] = 0, false),
    ("identifier 1", |s| put_summed(s, 0, &[1, 0]), false),
    ("identifier 3", |s| put_summed(s, 0, &[3, 0]), false),
    ("identifier 258", |s| put_summed(s, 0, &[2, 1]), false),
    ("version 3", |s| put_summed(s, 2, &[3, 0]), true),
    ("byte 5 not zero", |s| put_summed(s, 5, &[9]), true),
    (
        "CRC and its length wrong",
        |s| put_summed(s, 8, &[7; 4]),
        true,
    ),
    ("any bytes behind the tag", |s| s[16..].fill(0xB7), true),
];

/// Other bytes in the tag, under the right checksum.
fn put_summed(sector: &mut [u8; SECTOR], at: usize, bytes: &[u8]) {
    put(sector, at, bytes);
    put_sum(sector);
}

fn put_location(sector: &mut [u8; SECTOR], location: u32) {
    put_summed(sector, 12, &location.to_le_bytes());
}

/// Rule 15 for each variant at the block that the write takes: in an open packet at
/// once, otherwise behind the links. At the block before the links it is none.
#[test]
fn blocks_with_a_pointers_tag() {
    for (recorded, mode, taken) in [(20, 1, 20), (13, 0, 20)] {
        let mut station = Station::blank(60);
        station.kinds[..recorded].fill(DATA);
        let mut volume = Volume::begun(&station.disc());
        volume.mode = mode;
        station.ledger = volume.to_bytes().to_vec();
        for (name, change, has_tag) in VARIANTS {
            let mut sector = pointer(taken, taken);
            change(&mut sector);
            let expected = if has_tag { refused(15) } else { done(taken) };
            assert_eq!(station.clone().write(0, &sector), expected, "{name}");
        }
    }
    tell_compared("blocks_with_a_pointers_tag");
}

/// The tag for every block near the one that the write takes: from there on up to
/// 400,000 above it is refused.
#[test]
fn pointers_at_each_distance() {
    for (mode, taken) in [(1, 2), (0, 9)] {
        let mut station = saved(60);
        station.change(|volume| volume.mode = mode);
        let mut pair = Pair::holding(&station);
        let farthest = taken + 400_000;
        for location in (0..20).chain(farthest - 9..farthest + 9).chain([NONE]) {
            let expected = match (taken..=farthest).contains(&location) {
                true => refused(15),
                false => done(taken),
            };
            let answer = pair.call(Call::Write(1), &pointer(taken, location));
            assert_eq!(answer, expected, "location {location}");
            if answer.is_done() {
                pair.take_back(&station);
            }
        }
    }
    tell_compared("pointers_at_each_distance");
}

/// Each bit of the tag, and each byte behind it, under the right checksum and under
/// the old one.
#[test]
fn each_bit_of_a_pointers_tag() {
    let station = saved(60);
    let mut pair = Pair::holding(&station);
    let mut compare = |sector: &[u8; SECTOR], expected: Option<Answer>| {
        let answer = pair.call(Call::Write(1), sector);
        assert_eq!(answer, expected.unwrap_or(answer));
        if answer.is_done() {
            pair.take_back(&station);
        }
    };
    for bit in 0..16 * 8 {
        for location in [2, 3, 255, 65_536, 400_001, 400_002] {
            let mut sector = pointer(2, location);
            sector[bit / 8] ^= 1 << (bit % 8);
            compare(&sector, Some(done(2)));
            put_sum(&mut sector);
            compare(&sector, None);
        }
    }
    for at in 16..SECTOR {
        let mut sector = pointer(2, 2);
        sector[at] ^= 0xFF;
        compare(&sector, Some(refused(15)));
    }
    tell_compared("each_bit_of_a_pointers_tag");
}

/// A block of another length than 2,048 gives 2, whatever it begins with; 12, 13 and
/// 14 come before 15.
#[test]
fn refusals_before_15() {
    let station = saved(60);
    let sector = pointer(2, 2);
    for length in [0, 16, SECTOR - 1] {
        assert_eq!(station.clone().write(1, &sector[..length]), refused(2));
    }
    assert_eq!(station.clone().write(2, &sector), refused(12));
    assert_eq!(station.clone().write(4087, &sector), refused(13));
    let mut full = saved(18);
    assert_eq!(full.write(1, &sector), refused(14));
    tell_compared("refusals_before_15");
}

/// A foreign disc with a pointer, and behind it 255 blocks of our own in one packet;
/// a plain commit, in either form, then closes it by chance.
#[test]
fn closed_by_a_plain_commit() {
    for stamped in [false, true] {
        let mut station = Station::blank(290);
        station.put_sector(0, LINK, &[0; SECTOR]);
        station.put_sector(1, DATA, &pointer(1, 300));
        mounted(&mut station);
        station.change(|volume| volume.mode = 1);
        for v in 0..255 {
            assert_eq!(station.write(v, &BLOCK), done(v + 2));
        }
        let mut later = station.clone();
        assert!(!is_closed(&station));
        let table = match stamped {
            true => station.commit_at(&HALF_PAST),
            false => station.call(Call::Commit),
        };
        assert_eq!(table, done(257));
        assert!(is_closed(&station));
        assert_eq!(station.write(0, &BLOCK), refused(17));
        assert_eq!(later.write(255, &BLOCK), done(257));
        assert_eq!(later.call(Call::Commit), done(258));
        assert!(!is_closed(&later));
    }
    tell_compared("closed_by_a_plain_commit");
}

/// The pointer stands 256 sectors before the table, and neither nearer nor farther,
/// from the disc's beginning on.
#[test]
fn pointer_256_before_the_table() {
    for before in [0, 1, 2, 30] {
        for blank in [0, 1, 40] {
            assert!(is_closed(&closed_by_another(before, blank)));
        }
        for place in 0..before + 255 {
            let mut station = closed_by_another(before, 3);
            station.put_sector(before, DATA, &[0x77; SECTOR]);
            station.put_sector(place, DATA, &pointer(place, place));
            assert_eq!(is_closed(&station), place == before, "{place} of {before}");
        }
    }
    tell_compared("pointer_256_before_the_table");
}

/// With fewer than 257 recorded sectors no disc is closed, whatever they hold.
#[test]
fn fewer_than_257_sectors() {
    for recorded in [1, 2, 255, 256] {
        let mut station = Station::blank(300);
        for block in 0..recorded {
            station.put_sector(block, DATA, &pointer(block, block));
        }
        let table = recorded - 1;
        station.put_sector(table, DATA, &vat_sector(table, &[], NONE));
        assert!(!is_closed(&station), "{recorded} recorded");
    }
    tell_compared("fewer_than_257_sectors");
}

/// "the 256 before it have kind 1": a link or an unreadable sector at each place of
/// the disc; before the pointer it is no matter.
#[test]
fn each_of_the_256_has_kind_1() {
    let station = closed_by_another(20, 3);
    let mut pair = Pair::holding(&station);
    for block in 0..20 + 256 {
        let bytes = station.sector(block);
        for kind in [LINK, UNREADABLE] {
            pair.put_sector(block, kind, bytes);
            pair.lend_ledger(&station.ledger);
            assert_eq!(pair_is_closed(&mut pair), block < 20, "block {block}");
        }
        pair.put_sector(block, DATA, bytes);
    }
    tell_compared("each_of_the_256_has_kind_1");
}

/// "its last recorded sector is a table": not a table of another kind or block, nor
/// one before it; also one of another deck, behind attributes, of any size.
#[test]
fn last_sector_is_a_table() {
    let station = closed_by_another(20, 3);
    let table = 20 + 256;
    for kind in [BLANK, LINK, UNREADABLE] {
        let mut other = station.clone();
        other.kinds[table as usize] = kind;
        assert!(!is_closed(&other), "kind {kind}");
    }
    let full = [7; MOST_EMBEDDED];
    for (sector, expected) in [
        (vat_sector(table, &full, NONE), true),
        (vat_behind(&[0xA7; 220], table, &[3], 2), true),
        (vat_behind(&[0xA7; 2], table, &[3], 2), false),
        (vat_sector(table - 1, &[], NONE), false),
        (vat_sector(table + 1, &[], NONE), false),
        ([0; SECTOR], false),
        (pointer(table, table), false),
    ] {
        let mut other = station.clone();
        other.put_sector(table, DATA, &sector);
        assert_eq!(is_closed(&other), expected);
    }
    let mut behind = station.clone();
    behind.put_sector(table + 1, DATA, &BLOCK);
    assert!(!is_closed(&behind));
    tell_compared("last_sector_is_a_table");
}

/// Each variant of the pointer on a disc that is closed but for it: the tag alone
/// decides, and no byte of the 255 behind it.
#[test]
fn variants_of_the_pointer() {
    for (name, change, has_tag) in VARIANTS {
        let mut station = closed_by_another(20, 3);
        let mut sector = pointer(20, 20);
        change(&mut sector);
        station.put_sector(20, DATA, &sector);
        assert_eq!(is_closed(&station), has_tag, "{name}");
        every_call(&station);
    }
    tell_compared("variants_of_the_pointer");
}

/// "A disc is closed": the ledger has no part in it. Its last table may be none or an
/// earlier one, and its mode 0 or 1.
#[test]
fn whatever_the_ledger_says() {
    for blank in [0, 3, 300] {
        let mut station = closed_by_another(20, blank);
        station.put_sector(5, DATA, &vat_sector(5, &[], NONE));
        for last_vat in [NONE, 5, 20 + 256] {
            for mode in 0..=1 {
                let mut lent = station.clone();
                lent.change(|volume| (volume.last_vat, volume.mode) = (last_vat, mode));
                assert_eq!(lent.clone().call(Call::ClosePacket), refused(17));
                every_call(&lent);
            }
        }
    }
    tell_compared("whatever_the_ledger_says");
}

/// A closed disc shows all that it did: mount, read, look back and time of go on, and
/// begin gives 6.
#[test]
fn what_a_closed_disc_shows() {
    let mut station = saved(300);
    assert_eq!(station.commit_at(&HALF_PAST), done(2));
    assert_eq!(station.call(CLOSE), done(259));
    assert!(is_closed(&station));
    for (k, block, told) in [(0, 259, Err(16)), (1, 2, Ok((-30, 0))), (2, 1, Err(16))] {
        assert_eq!(station.call(Call::LookBack(k)), done(block));
        assert_eq!(station.read(0, 0), (done(0), BLOCK));
        assert_eq!(station.time_of(k), told);
    }
    assert_eq!(station.call(Call::Begin), refused(6));
    assert_eq!(station.call(Call::Mount), done(1));
    assert_eq!(station.read(0, 0), (done(0), BLOCK));
    assert_eq!(station.call(Call::LookBack(3)), refused(9));
    tell_compared("what_a_closed_disc_shows");
}

/// Discs that are closed or nearly, with any pointer: every call on each.
#[test]
fn discs_about_a_closing() {
    let mut closed = 0;
    let all = cases(200);
    let count = all.len();
    for case in all {
        let mut random = Random::of_case(case);
        let mut station = disc_of_closings(&mut random);
        closed += usize::from(is_closed(&station));
        let fitting = forge::fitting(&mut random, &station.disc());
        station.ledger = fitting.to_bytes().to_vec();
        every_call(&station);
    }
    println!("{closed} of {count} discs are closed");
    assert!(count == 1 || (count / 8..count).contains(&closed));
    tell_compared("discs_about_a_closing");
}
