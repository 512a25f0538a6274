//! Every row of "Bench examples" of document 01, rows of the same kind for what
//! document 02 says, and document 01's example disc of 31. Each call is made on
//! the core and on the model, and compared; so is what a cut leaves.

mod common;

use common::built::{beside, BLOCK};
use common::large::{lend_map, map_over, with_data, Large};
use common::pair::tell_compared;
use common::stamps::{Told, HALF_PAST};
use common::station::{done, refused, Station};
use common::tables::{vat_behind, MOST_EMBEDDED};
use station_model::answer::Answer;
use station_model::calls::Call;
use station_model::disc::{DATA, LINK};
use station_model::fields::{u16_at, u32_at};
use station_model::table::{
    crc, seal, stamped_vat_sector, table_length, vat_sector, LIMIT, NONE, SECTOR,
};

/// Begin, one write, and close packet.
fn written_and_closed(sectors: usize) -> Station {
    let mut station = Station::begun(sectors);
    assert_eq!(station.write(0, &BLOCK), done(0));
    assert_eq!(station.call(Call::ClosePacket), done(0));
    station
}

/// Begin and writes of 0, 1, ... up to the size.
fn of_size(sectors: usize, size: u32) -> Station {
    let mut station = Station::begun(sectors);
    for v in 0..size {
        assert_eq!(station.write(v, &BLOCK), done(v));
    }
    station
}

/// Block, size and entries in use of the table that look back k shows.
fn row(station: &Station, k: u32) -> (u32, u32, usize) {
    let mut looking = station.clone();
    let answer = looking.call(Call::LookBack(k));
    assert_eq!(answer.outcome, 0);
    let volume = looking.volume();
    let used = volume.entries().iter().filter(|b| **b != NONE).count();
    (answer.second, volume.size, used)
}

/// "CRC of hex 70 6A 77 is hex 3299." No call shows the CRC of three bytes: this
/// is the model's, and the core is compared with it by every table sector.
#[test]
fn crc_of_ecma_167() {
    assert_eq!(crc(&[0x70, 0x6A, 0x77]), 0x3299);
}

/// "N 0: table 36 bytes, CRC length 196."
#[test]
fn table_of_no_entries() {
    let mut station = Station::begun(8);
    assert_eq!(station.call(Call::Commit), done(0));
    let sector = station.sector(0);
    assert_eq!(u32_at(sector, 172), 36);
    assert_eq!(u16_at(sector, 10), 196);
    assert_eq!(station.call(Call::Mount), done(1));
    assert_eq!(station.volume().entries(), []);
    tell_compared("table_of_no_entries");
}

/// "N 458: 1,868 and 2,028."
#[test]
fn table_of_458_entries() {
    let mut station = of_size(600, 458);
    assert_eq!(station.call(Call::Commit), done(458));
    let sector = station.sector(458);
    assert_eq!(u32_at(sector, 172), 1868);
    assert_eq!(u16_at(sector, 10), 2028);
    assert_eq!(station.call(Call::Mount), done(1));
    let map: Vec<u32> = (0..458).collect();
    assert_eq!(station.volume().entries(), map);
    tell_compared("table_of_458_entries");
}

/// What mount answers and shows of a disc whose last recorded sector, at block 5,
/// is this one.
fn mounted_at_5(sector: &[u8; SECTOR]) -> (Answer, Vec<u32>) {
    let mut station = Station::blank(6);
    station.kinds[..5].fill(LINK);
    station.put_sector(5, DATA, sector);
    let answer = station.call(Call::Mount);
    (answer, station.volume().entries().to_vec())
}

/// N 459, embedded: "not a table sector." One entry less, made alike, is one.
#[test]
fn table_of_459_entries() {
    assert_eq!(176 + table_length(459), SECTOR);
    for (entries, answer) in [(459, refused(7)), (MOST_EMBEDDED, done(1))] {
        let table = vat_sector(5, &vec![NONE; entries], NONE);
        assert_eq!(mounted_at_5(&table).0, answer);
    }
    tell_compared("table_of_459_entries");
}

/// The table of a commit of so many numbers on 20 blocks, which is not embedded: its
/// length, and the CRC length and descriptor length of its ICB.
fn saved_in_own_sectors(size: usize) -> (u32, u16, u32) {
    let map = map_over(20, size);
    let mut station = with_data(60, 20);
    lend_map(&mut station, &map, 1);
    let answer = station.call(Call::Commit);
    assert!(answer.is_done());
    let sector = *station.sector(answer.second);
    assert_eq!(sector[34], 0, "in own sectors");
    assert_eq!(station.call(Call::Mount), done(1));
    assert_eq!(station.volume().entries(), map);
    (
        u32_at(&sector, 56),
        u16_at(&sector, 10),
        u32_at(&sector, 172),
    )
}

/// N 459 in an own sector: 1,872 bytes and CRC length 168. N 4,087: 16,384 and 224,
/// in 8 sectors. There is none with N 4,088, which would need 9.
#[test]
fn tables_in_own_sectors() {
    assert_eq!(saved_in_own_sectors(459), (1872, 168, 8));
    assert_eq!(saved_in_own_sectors(4087), (16_384, 224, 64));
    for (size, answer) in [(LIMIT, done(1)), (LIMIT + 1, refused(7))] {
        let mut station = with_data(60, 20);
        Large::recorded_from(20, &vec![NONE; size], NONE).put(&mut station);
        assert_eq!(station.call(Call::Mount), answer);
    }
    tell_compared("tables_in_own_sectors");
}

/// "The table [...] starts at 176 + attribute length (a multiple of 4)"
/// (document 02): 220 bytes of attributes, as `mkudffs` records them, and a table
/// at byte 396. Behind two bytes of attributes there is none.
#[test]
fn table_behind_attributes() {
    let table = vat_behind(&[0xA7; 220], 5, &[3, NONE], NONE);
    assert_eq!(u32_at(&table, 168), 220);
    assert_eq!(u16_at(&table, 10), 160 + 220 + 44);
    assert_eq!(u32_at(&table, 396), 3);
    assert_eq!(mounted_at_5(&table), (done(1), vec![3, NONE]));
    let (answer, _) = mounted_at_5(&vat_behind(&[0xA7; 2], 5, &[3, NONE], NONE));
    assert_eq!(answer, refused(7));
    tell_compared("table_behind_attributes");
}

/// "the whole must stay below one sector" (document 02): N 457 behind 4 bytes of
/// attributes ends where N 458 behind none does, and N 458 with the sector.
#[test]
fn most_entries_behind_attributes() {
    for (entries, answer) in [(457, done(1)), (MOST_EMBEDDED, refused(7))] {
        let table = vat_behind(&[0xA7; 4], 5, &vec![NONE; entries], NONE);
        assert_eq!(mounted_at_5(&table).0, answer);
    }
    tell_compared("most_entries_behind_attributes");
}

/// The rows on space, with 16 sectors that a write leaves (document 02). Blank disc of
/// 16: "write gives 14; commit is done at block 0."
#[test]
fn blank_disc_of_16() {
    let mut station = Station::begun(16);
    assert_eq!(station.write(0, &BLOCK), refused(14));
    assert_eq!(station.call(Call::Commit), done(0));
    tell_compared("blank_disc_of_16");
}

/// Disc of 17: "first write done, second 14."
#[test]
fn disc_of_17() {
    let mut station = Station::begun(17);
    assert_eq!(station.write(0, &BLOCK), done(0));
    assert_eq!(station.write(1, &BLOCK), refused(14));
    tell_compared("disc_of_17");
}

/// Disc of 18: "two writes done, third 14."
#[test]
fn disc_of_18() {
    let mut station = Station::begun(18);
    assert_eq!(station.write(0, &BLOCK), done(0));
    assert_eq!(station.write(1, &BLOCK), done(1));
    assert_eq!(station.write(2, &BLOCK), refused(14));
    tell_compared("disc_of_18");
}

/// "One write, then close packet": with 25 sectors "the next write takes block 8".
#[test]
fn write_after_close_packet_on_25() {
    let mut station = written_and_closed(25);
    assert_eq!(station.write(1, &BLOCK), done(8));
    assert_eq!(station.kinds[..9], [1, 2, 2, 2, 2, 2, 2, 2, 1]);
    tell_compared("write_after_close_packet_on_25");
}

/// With 24 "it gives 14".
#[test]
fn write_after_close_packet_on_24() {
    let mut station = written_and_closed(24);
    assert_eq!(station.write(1, &BLOCK), refused(14));
    tell_compared("write_after_close_packet_on_24");
}

/// "Write of 1 at size 0: 12."
#[test]
fn write_above_size() {
    let mut station = Station::begun(30);
    assert_eq!(station.write(1, &BLOCK), refused(12));
    tell_compared("write_above_size");
}

/// Write of 458 at size 458 is done, and of 4,087 at size 4,087 with space gives 13, as
/// does 4,088, above size.
#[test]
fn write_at_limit() {
    let mut station = of_size(600, 458);
    assert_eq!(station.write(458, &BLOCK), done(458));
    let mut station = with_data(60, 20);
    lend_map(&mut station, &[3; LIMIT], 1);
    assert_eq!(station.write(4087, &BLOCK), refused(13));
    assert_eq!(station.write(4088, &BLOCK), refused(13));
    assert_eq!(station.write(4086, &BLOCK), done(20));
    tell_compared("write_at_limit");
}

/// "500 at size 3: 12 again", and "a number at or above the limit gives 13, even above
/// size" (document 02). The last number below the limit leaves a gap.
#[test]
fn write_above_size_and_limit() {
    let mut station = of_size(30, 3);
    assert_eq!(station.write(500, &BLOCK), refused(12));
    assert_eq!(station.write(458, &BLOCK), refused(12));
    assert_eq!(station.write(4086, &BLOCK), refused(12));
    assert_eq!(station.write(4087, &BLOCK), refused(13));
    tell_compared("write_above_size_and_limit");
}

/// "00:30 on that day with zone 60 is -30. Zone -2047 counts as 0 and is marked"
/// (document 02).
#[test]
fn minutes_before_1970() {
    let mut station = of_size(30, 1);
    assert_eq!(station.commit_at(&HALF_PAST), done(1));
    assert_eq!(station.time_of(0), Ok((-30, 0)));
    let mut marked = HALF_PAST;
    marked[..2].copy_from_slice(&[0x01, 0x18]);
    assert_eq!(station.commit_at(&marked), done(2));
    assert_eq!(station.time_of(0), Ok((30, 1)));
    assert_eq!(station.time_of(1), Ok((-30, 0)));
    tell_compared("minutes_before_1970");
}

/// A disc of 30 whose block 0 is data and block 1 a table sector; the next
/// write takes block 2.
fn with_table_at_1() -> Station {
    let mut station = of_size(30, 1);
    assert_eq!(station.call(Call::Commit), done(1));
    station
}

/// "A table sector of block 1, written as a block at 2: accepted."
#[test]
fn copied_table_sector() {
    let mut station = with_table_at_1();
    let copy = *station.sector(1);
    assert_eq!(station.write(1, &copy), done(2));
    assert_eq!(station.call(Call::Mount), done(0));
    assert_eq!(station.volume().last_vat, 1);
    tell_compared("copied_table_sector");
}

/// "The same with location 2 and right sums: 15."
#[test]
fn table_sector_for_its_own_block() {
    let mut station = with_table_at_1();
    let mut forged = *station.sector(1);
    seal(&mut forged, 2);
    assert_eq!(station.write(1, &forged), refused(15));
    tell_compared("table_sector_for_its_own_block");
}

/// The same for a table that stands behind attributes: accepted at 2 with
/// location 1, and 15 with location 2.
#[test]
fn table_sector_behind_attributes() {
    let mut station = with_table_at_1();
    let mut table = vat_behind(&[0xA7; 220], 1, &[0], NONE);
    assert_eq!(station.clone().write(1, &table), done(2));
    seal(&mut table, 2);
    assert_eq!(station.write(1, &table), refused(15));
    tell_compared("table_sector_behind_attributes");
}

/// The map that mount shows after the call was cut, and the time of that save.
fn shown_after_cut(
    saved: &Station,
    call: Call,
    j: usize,
    torn: Option<&[u8; SECTOR]>,
) -> (Vec<u32>, Told) {
    let mut station = saved.clone();
    station.cut(call, &HALF_PAST, j, torn);
    assert_eq!(station.call(Call::Mount).outcome, 0);
    (station.volume().entries().to_vec(), station.time_of(0))
}

/// "Commit after close packet, cut after j of 8 sectors: 0 to 7 show the old
/// save, 8 the new"; and so with a timestamp, whose time is then told.
#[test]
fn commit_cut_after_each_sector() {
    let mut saved = with_table_at_1();
    assert_eq!(saved.write(1, &BLOCK), done(2));
    assert_eq!(saved.call(Call::ClosePacket), done(0));
    let table = stamped_vat_sector(10, &[0, 2], 1, &HALF_PAST);
    for (call, time) in [(Call::Commit, Err(16)), (Call::CommitAt, Ok((-30, 0)))] {
        for torn in [None, Some(&table)] {
            for j in 0..8 {
                let shown = shown_after_cut(&saved, call, j, torn);
                assert_eq!(shown, (vec![0], Err(16)));
            }
            let shown = shown_after_cut(&saved, call, 8, torn);
            assert_eq!(shown, (vec![0, 2], time));
        }
    }
    tell_compared("commit_cut_after_each_sector");
}

/// "Cut before the first table: mount 7; begin is done."
#[test]
fn cut_before_the_first_table() {
    let written = of_size(30, 2);
    for (call, j) in [(Call::Write(2), 1), (Call::Commit, 0), (Call::CommitAt, 0)] {
        for torn in [None, Some(&vat_sector(2, &[0, 1], NONE))] {
            let mut station = written.clone();
            station.cut(call, beside(call), j, torn);
            assert_eq!(station.time_of(0), Err(7));
            assert_eq!(station.call(Call::Mount), refused(7));
            assert_eq!(station.call(Call::Begin), done(0));
        }
    }
    tell_compared("cut_before_the_first_table");
}

/// "A blank disc of 31: begin, write 0, commit, write 1, release 0, commit,
/// close packet, commit." The blank sectors' bytes, which "mean nothing", are
/// not zero, so that it shows which of them stay.
fn disc_of_31() -> Station {
    let mut station = Station::begun(31);
    station.image.fill(0x77);
    assert_eq!(station.write(0, &BLOCK), done(0));
    assert_eq!(station.call(Call::Commit), done(1));
    assert_eq!(station.write(1, &BLOCK), done(2));
    assert_eq!(station.call(Call::Release(0)), done(0));
    assert_eq!(station.call(Call::Commit), done(3));
    assert_eq!(station.call(Call::ClosePacket), done(0));
    assert_eq!(station.call(Call::Commit), done(11));
    station
}

/// The rows that the listing program prints: block, size, used; then `clean`.
#[test]
fn listing_of_the_disc_of_31() {
    let mut station = disc_of_31();
    assert_eq!(row(&station, 0), (11, 2, 1));
    assert_eq!(row(&station, 1), (3, 2, 1));
    assert_eq!(row(&station, 2), (1, 1, 1));
    assert_eq!(station.call(Call::LookBack(3)), refused(9));
    assert_eq!(station.call(Call::Mount), done(1));
    tell_compared("listing_of_the_disc_of_31");
}

/// "For a link sector only its kind changes, to 2; its image bytes stay."
#[test]
fn links_of_the_disc_of_31() {
    let station = disc_of_31();
    assert_eq!(station.kinds[..4], [DATA; 4]);
    assert_eq!(station.kinds[4..11], [LINK; 7]);
    assert_eq!(station.kinds[11..], [&[DATA][..], &[0; 19]].concat());
    for block in (4..11).chain(12..31) {
        assert_eq!(station.sector(block), &[0x77; SECTOR]);
    }
    tell_compared("links_of_the_disc_of_31");
}

/// CRC and sum of the sector below, computed apart from this package.
const CRC_BYTES: [u8; 2] = [0xD9, 0x4A];
const TAG_SUM: u8 = 0x02;

/// "What commit records", byte for byte, at block 11.
#[test]
fn bytes_of_the_last_table_of_the_disc_of_31() {
    let fields: [(usize, &[u8]); 21] = [
        (0, &[0x05, 0x01]),
        (2, &[0x02, 0x00]),
        (4, &[TAG_SUM]),
        (8, &CRC_BYTES),
        (10, &[204, 0]),
        (12, &[11, 0, 0, 0]),
        (20, &[4, 0]),
        (24, &[1, 0]),
        (27, &[0]),
        (34, &[3, 0]),
        (36, &[0xFF; 4]),
        (40, &[0xFF; 4]),
        (56, &[44, 0, 0, 0, 0, 0, 0, 0]),
        (108, &[1, 0, 0, 0]),
        (128, b"\0*Bench Station\0"),
        (172, &[44, 0, 0, 0]),
        (176, &[0xFF; 4]),
        (180, &[2, 0, 0, 0]),
        (184, b"\0*UDF Virtual Alloc Tbl\0"),
        (208, &[0x50, 0x01, 0, 0, 0, 0, 0, 0]),
        (216, &[3, 0, 0, 0]),
    ];
    let mut expected = [0; SECTOR];
    for (at, field) in fields {
        expected[at..at + field.len()].copy_from_slice(field);
    }
    assert_eq!(disc_of_31().sector(11), &expected);
    tell_compared("bytes_of_the_last_table_of_the_disc_of_31");
}
