//! "Closing a session" (document 02): what a closing records, the room that it
//! needs, and the room that a write leaves for it. Each call is made on the core and
//! on the model, and compared.

mod common;

use common::built::{every_call, saved, BLOCK};
use common::closing::{starting, ANCHOR, CLOSE};
use common::pair::tell_compared;
use common::station::{done, refused, Station};
use station_model::answer::Answer;
use station_model::calls::Call;
use station_model::disc::{DATA, LINK};
use station_model::ledger::Volume;
use station_model::table::{vat_sector, NONE, SECTOR};

/// "an Anchor Volume Descriptor Pointer [...] has tag identifier 2, version 2,
/// right sums, CRC length 496, the extents at bytes 16 and 24 (length, location, 32
/// bits each), and zeros elsewhere": that of [`ANCHOR`] at block 8. Its CRC, hex
/// 5A84, was computed apart from this package.
#[rustfmt::skip]
const POINTER_AT_8: [u8; 32] = [
    0x02, 0x00, 0x02, 0x00, // tag identifier, version
    0xDD, 0x00, 0x00, 0x00, // checksum, a zero, serial number
    0x84, 0x5A, 0xF0, 0x01, // CRC, CRC length
    0x09, 0x01, 0x00, 0x00, // tag location: 257 + 8
    0x00, 0x80, 0x01, 0x00, 0x04, 0x03, 0x02, 0x01, // main extent
    0x21, 0x43, 0x65, 0x87, 0x98, 0xBA, 0xDC, 0xFE, // reserve extent
];

/// So many data sectors recorded, and a ledger in the mode.
fn recorded(sectors: usize, recorded: usize, mode: u32) -> Station {
    let mut station = Station::blank(sectors);
    station.kinds[..recorded].fill(DATA);
    let mut volume = Volume::begun(&station.disc());
    volume.mode = mode;
    station.ledger = volume.to_bytes().to_vec();
    station
}

/// What the call answers, on a copy.
fn answer(station: &Station, call: Call, buffer: &[u8]) -> Answer {
    station.clone().call_lent(call, &mut buffer.to_vec())
}

/// One write and close packet, on a disc whose blank sectors' bytes are not zero;
/// then the closing, whose 264 sectors are looked at byte for byte.
#[test]
fn bytes_of_a_closing_behind_links() {
    let mut station = Station::blank(300);
    station.image.fill(0xE5);
    assert_eq!(station.call(Call::Begin), done(0));
    assert_eq!(station.write(0, &BLOCK), done(0));
    assert_eq!(station.call(Call::ClosePacket), done(0));
    assert_eq!(station.call(CLOSE), done(264));
    assert_eq!(station.kinds[1..8], [LINK; 7]);
    assert_eq!(station.kinds[8..265], [DATA; 257]);
    assert_eq!(station.kinds[265..], [0; 35]);
    for block in (1..8).chain(265..300) {
        assert_eq!(station.sector(block), &[0xE5; SECTOR], "block {block}");
    }
    assert_eq!(station.sector(8)[..32], POINTER_AT_8);
    assert_eq!(station.sector(8)[32..], [0; SECTOR - 32]);
    for block in 9..264 {
        assert_eq!(station.sector(block), &[0; SECTOR], "block {block}");
    }
    assert_eq!(station.sector(264), &vat_sector(264, &[0], NONE));
    tell_compared("bytes_of_a_closing_behind_links");
}

/// "The second number and ledger are as after a commit": but for the block.
#[test]
fn ledger_after_a_closing() {
    let mut station = saved(300);
    assert_eq!(station.write(1, &BLOCK), done(2));
    assert_eq!(station.call(Call::Release(0)), done(0));
    let mut committed = station.clone();
    assert_eq!(committed.call(Call::Commit), done(3));
    assert_eq!(station.call(CLOSE), done(259));
    let after_commit = committed.volume();
    let mut expected = after_commit.clone();
    (expected.recorded, expected.last_vat) = (260, 259);
    assert_eq!(station.volume(), expected);
    assert_eq!((after_commit.recorded, after_commit.last_vat), (4, 3));
    assert_eq!(station.sector(259), &vat_sector(259, &[NONE, 2], 1));
    tell_compared("ledger_after_a_closing");
}

/// Any numbers are taken for the extents, and a start up to 400,000.
#[test]
fn numbers_that_the_host_gives() {
    for number in [0, 1, 0xFF, 0x1234_5678, 1 << 31, NONE] {
        for place in 0..4 {
            let mut anchor = ANCHOR;
            *[
                &mut anchor.main.length,
                &mut anchor.main.location,
                &mut anchor.reserve.length,
                &mut anchor.reserve.location,
            ][place] = number;
            let mut station = Station::begun(257);
            assert_eq!(station.call(Call::CloseSession(anchor)), done(256));
            assert_eq!(
                station.sector(0)[16 + 4 * place..][..4],
                number.to_le_bytes()
            );
        }
    }
    for (start, expected) in [
        (0, done(256)),
        (257, done(256)),
        (400_000, done(256)),
        (400_001, refused(18)),
        (1 << 31, refused(18)),
        (NONE, refused(18)),
    ] {
        let mut station = Station::begun(257);
        let call = Call::CloseSession(starting(start));
        assert_eq!(station.call(call), expected, "start {start}");
        assert_eq!(station.disc().is_closed(), expected.is_done());
    }
    tell_compared("numbers_that_the_host_gives");
}

/// What a closed disc shows: mount clean at the closing's table, each number as
/// before, and the saves before it by looking back.
fn shows_its_saves(station: &mut Station, table: u32) {
    assert_eq!(station.call(Call::Mount), done(1));
    assert_eq!(station.volume().last_vat, table);
    assert_eq!(station.read(0, 0x11), (done(0), BLOCK));
    assert_eq!(station.read(1, 0x11), (done(0), [0xA7; SECTOR]));
    assert_eq!(station.read(2, 0x11).0, refused(10));
    assert_eq!(station.time_of(0), Err(16));
    for (k, answer) in [(0, done(table)), (1, done(1)), (2, refused(9))] {
        assert_eq!(station.call(Call::LookBack(k)), answer);
    }
    assert_eq!(station.call(Call::LookBack(1)), done(1));
    assert_eq!(station.read(0, 0x11), (done(0), BLOCK));
    assert_eq!(station.read(1, 0x11).0, refused(10));
}

/// One save, one more write, and a closing in an open packet or behind links, on a
/// disc of so many sectors.
fn closed_after_a_save(sectors: usize) {
    for (closes_packet, first) in [(false, 3), (true, 10)] {
        let mut station = saved(sectors);
        assert_eq!(station.write(1, &[0xA7; SECTOR]), done(2));
        if closes_packet {
            assert_eq!(station.call(Call::ClosePacket), done(0));
        }
        let table = first + 256;
        if table as usize >= sectors {
            assert_eq!(station.call(CLOSE), refused(14), "{sectors} sectors");
            continue;
        }
        assert_eq!(station.call(CLOSE), done(table), "{sectors} sectors");
        shows_its_saves(&mut station, table);
    }
}

#[test]
fn closings_on_discs_of_257_to_300_sectors() {
    for sectors in 257..=300 {
        closed_after_a_save(sectors);
    }
    tell_compared("closings_on_discs_of_257_to_300_sectors");
}

#[test]
fn closings_on_discs_of_1000_sectors_and_more() {
    for sectors in [998, 999, 1000, 1001, 1300, 2000] {
        closed_after_a_save(sectors);
    }
    tell_compared("closings_on_discs_of_1000_sectors_and_more");
}

/// "Closing needs links + 257 blank sectors, else 14": recorded up to each place
/// about the bound, in each mode; and commit needs "links + 1" as ever.
#[test]
fn room_for_a_closing() {
    for sectors in [1usize, 255, 256, 257, 258, 264, 265, 272, 300, 999, 1000] {
        let most = sectors.saturating_sub(257);
        for before in most.saturating_sub(9)..=sectors.min(most + 2) {
            for mode in 0..=u32::from(before > 0) {
                closes_or_has_no_room(&recorded(sectors, before, mode));
            }
        }
    }
    assert_eq!(answer(&Station::begun(256), CLOSE, &[]), refused(14));
    assert_eq!(answer(&Station::begun(257), CLOSE, &[]), done(256));
    tell_compared("room_for_a_closing");
}

fn closes_or_has_no_room(station: &Station) {
    let sectors = station.kinds.len() as u32;
    let first = station.disc().recorded() + station.volume().links();
    let needing = |data: u32| match first + data <= sectors {
        true => done(first + data - 1),
        false => refused(14),
    };
    assert_eq!(answer(station, CLOSE, &[]), needing(257));
    assert_eq!(answer(station, Call::Commit, &[]), needing(1));
}

/// "On discs of 1,000 sectors or more a write must leave 264", and on others 16: at the
/// bound and one sector beyond it, with links and without.
#[test]
fn room_that_a_write_leaves() {
    for (sectors, reserve) in [
        (300, 16),
        (998, 16),
        (999, 16),
        (1000, 264),
        (1001, 264),
        (3000, 264),
    ] {
        for (mode, links) in [(0, 7), (1, 0)] {
            let most = sectors - (links + 1 + reserve);
            for (before, expected) in [
                (most - 1, done((most - 1 + links) as u32)),
                (most, done((most + links) as u32)),
                (most + 1, refused(14)),
                (most + 2, refused(14)),
            ] {
                let station = recorded(sectors, before, mode);
                let written = answer(&station, Call::Write(0), &BLOCK);
                assert_eq!(written, expected, "{before} of {sectors}, mode {mode}");
            }
        }
    }
    tell_compared("room_that_a_write_leaves");
}

/// On a disc of 1,000 sectors the last write that is done leaves room for close
/// packet and a closing, which then fills the disc; a commit takes some of it.
#[test]
fn the_reserve_is_room_for_a_closing() {
    let mut station = recorded(1000, 735, 1);
    assert_eq!(station.write(0, &BLOCK), done(735));
    assert_eq!(station.write(1, &BLOCK), refused(14));
    let mut committed = station.clone();
    assert_eq!(station.call(Call::ClosePacket), done(0));
    assert_eq!(station.call(CLOSE), done(999));
    assert_eq!(station.call(Call::Mount), done(1));
    assert_eq!(committed.call(Call::Commit), done(736));
    assert_eq!(answer(&committed, CLOSE, &[]), done(993));
    assert_eq!(committed.call(Call::ClosePacket), done(0));
    assert_eq!(committed.call(CLOSE), refused(14));
    assert_eq!(committed.call(Call::Commit), done(744));
    tell_compared("the_reserve_is_room_for_a_closing");
}

/// Every call before a closing and after it, on discs of which some have no room.
#[test]
fn every_call_about_a_closing() {
    for sectors in [264, 265, 266, 267, 274, 300, 1000] {
        let mut station = saved(sectors);
        every_call(&station);
        assert_eq!(station.call(Call::ClosePacket), done(0));
        every_call(&station);
        station.call(CLOSE);
        every_call(&station);
        assert_eq!(station.call(Call::Mount), done(1));
        every_call(&station);
    }
    tell_compared("every_call_about_a_closing");
}
