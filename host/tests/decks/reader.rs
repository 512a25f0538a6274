//! The core's saves on a writer's disc, read by an independent reader. `udfinfo`
//! tells where it found the table, and the name of the file set, which it reads
//! through the table: so it shows both the table's place and its entries.

use station::{Timestamp, SECTOR};

use super::descriptors::{entries, name_file_set, renamed_file_set, wipe_anchors};
use super::disc::Disc;
use super::udftools::{udfinfo, written_by_mkudffs};
use super::{assert_both_find, outcome, writers_vat, EDITION_150};

/// Room for the writes of any test here.
const ROOM: usize = 600;

/// What udfinfo tells as the name of a file set that mkudffs recorded.
const WRITERS_FILE_SET: &str = "LinuxUDF";

/// A 1.50 disc that the core has taken over: mounted by the writer's own table.
/// Number 0 is the file set descriptor and number 1 the root directory's file
/// entry; readers come to both through the table.
fn taken_over(volume: &[u8]) -> Disc {
    let mut disc = Disc::of_volume(volume).with_blank(ROOM);
    assert_eq!(disc.mount(), Ok(true), "clean");
    assert_eq!(
        disc.map().len(),
        2,
        "the writer's file set and root directory"
    );
    disc
}

/// The same of the plainest disc.
fn bench_disc() -> Disc {
    taken_over(&written_by_mkudffs(EDITION_150[0]))
}

/// A 1.50 disc whose writer was stopped before its table, and which the core has
/// begun; and the map that the writer meant.
fn begun(volume: &[u8]) -> (Disc, Vec<u32>) {
    let whole = Disc::of_volume(volume).with_blank(ROOM);
    let vat = writers_vat(&whole);
    let mut disc = whole.cut_to(vat);
    assert_eq!(outcome(disc.mount()), 7);
    assert_eq!(outcome(disc.begin()), 0);
    (disc, entries(whole.sector(vat)))
}

/// The first table on each disc is ours: the numbers of the writer's map, each
/// written with what that map shows for it.
#[test]
fn udfinfo_finds_our_first_table() {
    for recipe in EDITION_150 {
        let (mut disc, map) = begun(&written_by_mkudffs(recipe));
        for (v, block) in map.into_iter().enumerate() {
            let bytes = disc.sector(block as usize).to_vec();
            disc.write(v as u32, &bytes);
        }
        let table = disc.commit();
        let report = assert_both_find(&disc, table);
        report.expect("fsid", WRITERS_FILE_SET);
        report.expect_no_complaint();
        assert_eq!(outcome(disc.look_back(1)), 9, "{recipe:?}");
    }
}

/// A disc mounted by the writer's own table, behind its attributes, and saved on
/// with a timestamp: udfinfo shows the new save, look back shows the writer's, and
/// each save tells its own time.
#[test]
fn a_mounted_disc_of_the_writer_is_continued() {
    for recipe in EDITION_150 {
        let mut disc = taken_over(&written_by_mkudffs(recipe));
        let writers = writers_vat(&disc);
        let map = disc.map();
        let writers_time = disc.time_of(0);
        let renamed = renamed_file_set(disc.sector(map[0] as usize), "ours", 0);
        let block = disc.write(0, &renamed);
        let table = disc.commit_at(Timestamp::midnight(1970, 1, 2));
        assert_eq!((block, table), (writers + 8, writers + 9), "{recipe:?}");
        let report = assert_both_find(&disc, table);
        report.expect("fsid", "ours");
        report.expect_no_complaint();
        let ours = disc.time_of(0).expect("our time");
        assert_eq!((ours.minutes, ours.zone_given), (1440, true));
        assert!(writers_time.is_ok(), "{recipe:?}");
        assert_eq!(disc.time_of(1), writers_time, "{recipe:?}");
        assert_eq!(disc.look_back(1), Ok(writers), "{recipe:?}");
        assert_eq!(disc.map(), map, "{recipe:?}");
        assert_eq!(outcome(disc.look_back(2)), 9, "{recipe:?}");
        assert_eq!(outcome(disc.time_of(2)), 9, "{recipe:?}");
    }
}

/// A commit with size 0: a table of 36 bytes. Numbers above a table's size are
/// blocks to udfinfo, and block 0 is the writer's file set.
#[test]
fn udfinfo_finds_a_table_without_numbers() {
    let (mut disc, _) = begun(&written_by_mkudffs(EDITION_150[0]));
    let table = disc.commit();
    let report = assert_both_find(&disc, table);
    report.expect("fsid", WRITERS_FILE_SET);
    report.expect_no_complaint();
}

/// udfinfo looks 31 blocks back from the end of the file; mount has no limit.
#[test]
fn unsaved_writes_hide_no_table() {
    let mut disc = bench_disc();
    let table = disc.commit();
    let unsaved = renamed_file_set(disc.sector(0), "unsaved", 0);
    for behind in 1..=31 {
        disc.write(0, &unsaved);
        assert_eq!(disc.recorded() - 1 - table, behind);
        let report = assert_both_find(&disc, table);
        report.expect("fsid", WRITERS_FILE_SET);
        report.expect_no_complaint();
    }
    disc.write(0, &unsaved);
    assert_eq!(disc.mount(), Ok(false), "dirty");
    assert_eq!(disc.last_vat(), Some(table));
}

/// Each save renames the file set, which udfinfo reads through number 0: so its
/// name tells which save udfinfo shows. Every third one opens a packet. Look back
/// shows them all, and before them the writer's.
#[test]
fn udfinfo_shows_the_newest_of_several_saves() {
    let mut disc = bench_disc();
    let file_set = disc.sector(0).to_vec();
    let mut tables = vec![writers_vat(&disc)];
    for save in 0..13 {
        if save % 3 == 0 {
            disc.close_packet();
        }
        let name = format!("save {save}");
        disc.write(0, &renamed_file_set(&file_set, &name, 0));
        let table = disc.commit();
        let report = assert_both_find(&disc, table);
        report.expect("fsid", &name);
        report.expect_no_complaint();
        tables.push(table);
    }
    for (k, table) in tables.iter().rev().enumerate() {
        assert_eq!(disc.look_back(k as u32), Ok(*table), "{k} saves back");
    }
    assert_eq!(outcome(disc.look_back(14)), 9);
}

/// "Commit after close packet, cut after j of 8 sectors: 0 to 7 show the old
/// save, 8 the new." To udfinfo too.
#[test]
fn a_cut_commit_behind_links_shows_the_old_save() {
    let mut disc = bench_disc();
    let old = disc.commit();
    let renamed = renamed_file_set(disc.sector(0), "new", 0);
    disc.write(0, &renamed);
    disc.close_packet();
    let before = disc.recorded();
    let new = disc.commit();
    assert_eq!(new, before + 7, "seven links before the table");
    assert_eq!(disc.kinds[before..=new], [2, 2, 2, 2, 2, 2, 2, 1]);
    for j in 0..=8 {
        let (table, name) = if j < 8 {
            (old, WRITERS_FILE_SET)
        } else {
            (new, "new")
        };
        let report = assert_both_find(&disc.cut_to(before + j), table);
        report.expect("fsid", name);
        report.expect_no_complaint();
    }
}

/// A map of 458 numbers. The volume names number 457 as its file set, so udfinfo has to
/// read the last entry of the largest table that is embedded.
#[test]
fn udfinfo_reads_the_last_number_of_a_full_icb() {
    let mut volume = written_by_mkudffs(EDITION_150[0]);
    name_file_set(&mut volume, 457);
    let mut disc = taken_over(&volume);
    for v in 2..457 {
        disc.write(v, &[v as u8; SECTOR]);
    }
    let last = renamed_file_set(disc.sector(0), "number 457", 457);
    let block = disc.write(457, &last);
    assert_ne!(block, 457, "the number is not the block");
    let table = disc.commit();
    assert_eq!(disc.map().len(), 458);
    let report = assert_both_find(&disc, table);
    report.expect("fsid", "number 457");
    report.expect_no_complaint();
}

/// An unused entry is unused to udfinfo too: it does not read the file set.
#[test]
fn a_released_number_is_unused_to_udfinfo() {
    let mut disc = bench_disc();
    disc.release(0);
    let table = disc.commit();
    let report = assert_both_find(&disc, table);
    report.expect("fsid", "");
    report.expect_remark("File Set Descriptor cannot be read");
}

/// A copy of a table, ours or the writer's, recorded as data, stands at another
/// block than its tag says. Both readers pass over it to the table itself.
#[test]
fn a_copied_table_is_none_to_both() {
    let mut disc = bench_disc();
    let writers = writers_vat(&disc);
    let table = disc.commit();
    for copied in [table, writers] {
        let copy = disc.sector(copied).to_vec();
        disc.write(2, &copy);
        let report = assert_both_find(&disc, table);
        report.expect("fsid", WRITERS_FILE_SET);
        report.expect_remark("ignoring it");
    }
}

/// A volume without an anchor is none to udfinfo. Closed by us, with the extents of
/// the anchor that was taken away and the start that its partition descriptor names,
/// it is found by our pointer alone, at the last sector less 256; and the save is
/// ours. udfinfo misses the other two anchors, and it remarks that the pointer stands
/// in the partition, where a closing records it.
#[test]
fn udfinfo_finds_a_closed_volume_by_our_pointer() {
    for recipe in EDITION_150 {
        let mut volume = written_by_mkudffs(recipe);
        let extents = wipe_anchors(&mut volume);
        udfinfo(&volume).expect_remark("not Anchor Volume Descriptor Pointer");
        let mut disc = taken_over(&volume);
        assert!(!disc.is_closed(), "{recipe:?}");
        let renamed = renamed_file_set(disc.sector(0), "closed", 0);
        disc.write(0, &renamed);
        let table = disc.close_session(extents);
        assert!(disc.is_closed(), "{recipe:?}");
        let report = assert_both_find(&disc, table);
        report.expect_anchor(disc.start() + table - 256);
        report.expect("fsid", "closed");
        report.expect_complaints(&[
            "First and third Anchor Volume Descriptor Pointer not found, using second",
            "Partition Space overlaps with other blocks",
        ]);
    }
}
