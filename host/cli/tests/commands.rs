//! Each command: what it tells and what it leaves in the two files.

mod common;

use std::fs;
use std::os::unix::fs::{symlink, MetadataExt};

use common::{disc_file, padded, Folder};
use station::{LEDGER, SECTOR};

#[test]
fn new_makes_a_blank_disc_and_no_ledger() {
    let folder = Folder::new();
    assert_eq!(folder.done("new run.disc 31"), "blank disc, 31 sectors\n");
    assert_eq!(folder.names(), ["run.disc"]);
    let blank = disc_file(&[0; 31], &[0; 31 * SECTOR]);
    assert!(folder.bytes("run.disc") == blank);
    assert_eq!(folder.done("new one.disc 1"), "blank disc, 1 sector\n");
}

#[test]
fn new_overwrites_nothing() {
    let folder = Folder::new();
    folder.put("run.disc", b"somebody's");
    let told = folder.fails("new run.disc 31", 73);
    assert_eq!(
        told,
        "station: run.disc cannot be written: it is there already\n"
    );
    folder.done("new begun.disc 31");
    folder.done("begin begun.disc");
    let told = folder.fails("new begun.disc 31", 73);
    assert_eq!(
        told,
        "station: begun.disc cannot be written: it is there already\n"
    );
    folder.put("other.disc.ledger", b"another disc's");
    let told = folder.fails("new other.disc 31", 73);
    assert!(told.contains("its ledger is there already"), "{told}");
    assert!(folder
        .fails("new nowhere/run.disc 31", 66)
        .contains("no file or folder nowhere"));
}

#[test]
fn document_01s_example_step_by_step() {
    let folder = Folder::new();
    folder.done("new run.disc 31");
    assert_eq!(folder.done("begin run.disc"), "begun, size 0\n");
    assert_eq!(folder.write(0, "run A"), "block 0\n");
    let saved = "saved, table at block 1: 1 number in use, 1 new: 0\n";
    assert_eq!(folder.done("commit run.disc"), saved);
    assert_eq!(folder.write(1, "run B"), "block 2\n");
    assert_eq!(folder.done("release run.disc 0"), "released 0\n");
    let saved = "saved, table at block 3: 1 number in use, 1 new since the last save: 1; \
                 1 released: 0\n";
    assert_eq!(folder.done("commit run.disc"), saved);
    assert_eq!(folder.done("close run.disc"), "packet closed\n");
    assert_eq!(folder.done("close run.disc"), "packet closed\n");
    let saved = "saved, table at block 11: 1 number in use, none new since the last save\n";
    assert_eq!(folder.done("commit run.disc"), saved);
    assert_eq!(folder.kinds(), "1111222222210000000000000000000");
    assert_eq!(
        folder.names(),
        ["run.disc", "run.disc.ledger", "run.disc.roles"]
    );
}

/// The files are what the core itself leaves.
#[test]
fn files_hold_what_the_core_leaves() {
    let folder = Folder::example();
    let (mut image, mut kinds) = (vec![0; 31 * SECTOR], vec![0; 31]);
    let (mut roles, mut ledger) = (vec![0; kinds.len()], [0; LEDGER]);
    let (i, k, r, l) = (&mut image, &mut kinds, &mut roles, &mut ledger);
    station::begin(i, k, r, l).expect("begin");
    station::write(i, k, r, l, 0, &padded("run A")).expect("write");
    station::commit(i, k, r, l).expect("commit");
    station::write(i, k, r, l, 1, &padded("run B")).expect("write");
    station::release(i, k, r, l, 0).expect("release");
    station::commit(i, k, r, l).expect("commit");
    station::close_packet(i, k, r, l).expect("close packet");
    station::commit(i, k, r, l).expect("commit");
    assert!(folder.bytes("run.disc") == disc_file(&kinds, &image));
    assert!(folder.ledger() == ledger && folder.roles() == roles);
}

#[test]
fn mount_tells_the_last_finished_save() {
    let folder = Folder::begun(60);
    folder.done("commit run.disc");
    let empty = "clean, table at block 0\nsize 0, 0 in use\n";
    assert_eq!(folder.done("mount run.disc"), empty);
    for v in 0..8 {
        folder.write(v, "run");
    }
    folder.done("release run.disc 1");
    folder.done("release run.disc 6");
    let unsaved = "dirty, table at block 0\nsize 0, 0 in use\n\
                   6 numbers written since the last save are left out: 0, 2 to 5, 7\n";
    let before = folder.bytes("run.disc.ledger");
    assert_eq!(folder.done("mount run.disc"), unsaved);
    // Mounting dropped what was not saved; this ledger still has it.
    folder.put("run.disc.ledger", &before);
    folder.done("commit run.disc");
    let saved = "clean, table at block 16\nsize 8, 6 in use: 0, 2 to 5, 7\n";
    assert_eq!(folder.done("mount run.disc"), saved);
}

#[test]
fn write_takes_a_file_or_standard_input() {
    let folder = Folder::begun(31);
    let block: Vec<u8> = (0..SECTOR).map(|place| place as u8).collect();
    folder.put("block", &block);
    assert_eq!(folder.done("write run.disc 0 --from block"), "block 0\n");
    folder.done_with("write run.disc 1", &block);
    folder.done_with("write --from=- run.disc 2", &block);
    folder.done("write --from=block --pad -- run.disc 3");
    for sector in 0..4 {
        assert!(folder.sector(sector) == block, "sector {sector}");
    }
}

#[test]
fn padding_fills_up_with_zeros() {
    let folder = Folder::begun(31);
    folder.put("short", b"run A");
    folder.fails("write run.disc 0 --from short", 2);
    folder.done("write run.disc 0 --from short --pad");
    assert!(folder.sector(0) == padded("run A"));
    folder.done_with("write run.disc 1 --pad", &[7; SECTOR - 1]);
    assert_eq!(folder.sector(1)[SECTOR - 2..], [7, 0]);
    folder.fails_with("write run.disc 2 --pad", &[7; SECTOR + 1], 2);
}

#[test]
fn read_gives_2048_bytes_to_a_stream_or_a_file() {
    let folder = Folder::example();
    assert!(folder.done_with("read run.disc 1", b"") == padded("run B"));
    assert!(folder.done_with("read run.disc 1 --to -", b"") == padded("run B"));
    assert_eq!(folder.done("read run.disc 1 --to shown"), "");
    assert!(folder.bytes("shown") == padded("run B"));
    folder.put("shown", b"kept");
    folder.fails("read run.disc 0 --to shown", 10);
    symlink("shown", folder.path("link")).expect("a link");
    folder.done("read run.disc 1 --to link --replace");
    assert!(folder.path("link").is_symlink() && folder.bytes("shown") == padded("run B"));
    folder.done("read run.disc 1 --to /dev/null");
    let null = fs::metadata("/dev/null").expect("a device");
    assert!(!null.is_file(), "a device is not replaced");
}

/// A block in place of the disc would be the end of the disc.
#[test]
fn read_does_not_overwrite_the_disc() {
    let folder = Folder::example();
    symlink("run.disc", folder.path("link")).expect("a link");
    for file in [
        "run.disc",
        "./run.disc",
        "link",
        "run.disc.ledger",
        "run.disc.roles",
    ] {
        folder.fails(&format!("read run.disc 1 --to {file}"), 64);
        folder.fails(&format!("read run.disc 1 --to {file} --replace"), 64);
    }
}

#[test]
fn released_numbers_are_written_again() {
    let folder = Folder::example();
    assert_eq!(folder.write(0, "run C"), "block 12\n");
    assert!(folder.done_with("read run.disc 0", b"") == padded("run C"));
    // A number in use is rewritten by recording it further on.
    assert_eq!(folder.write(0, "run D"), "block 13\n");
    assert!(folder.done_with("read run.disc 0", b"") == padded("run D"));
    assert!(folder.sector(12) == padded("run C"));
}

#[test]
fn look_back_shows_each_save() {
    let folder = Folder::example();
    let told = folder.done("look-back run.disc 2");
    let first = "looking only, 2 back, table at block 1\nsize 1, 1 in use: 0\n";
    assert_eq!(told, first);
    assert!(folder.done_with("read run.disc 0", b"") == padded("run A"));
    let told = folder.done("look-back run.disc 0");
    let newest = "looking only, 0 back, table at block 11\nsize 2, 1 in use: 1\n";
    assert_eq!(told, newest);
    folder.fails("read run.disc 0", 10);
    folder.done("mount run.disc");
    folder.done("commit run.disc");
}

/// The disc file is written in place, and only by what records: the very same
/// file is there afterwards, and of its bytes only those that were recorded.
#[test]
fn only_what_is_recorded_is_written() {
    let folder = Folder::example_on(60);
    let file = || fs::metadata(folder.path("run.disc")).expect("the disc");
    let before = file();
    let lines = "mount run.disc;release run.disc 1;close run.disc;look-back run.disc 1;\
                 read run.disc 1;view run.disc 1;store run.disc 0;time run.disc 0;list run.disc --times;mount run.disc;\
                 write run.disc 9;begin run.disc";
    for line in lines.split(';') {
        folder.run(line.trim());
        let now = file();
        let changed = |about: &fs::Metadata| (about.mtime(), about.mtime_nsec());
        assert_eq!(changed(&now), changed(&before), "{line}");
    }
    let mut bytes = folder.bytes("run.disc");
    folder.write(0, "run C");
    assert_eq!(file().ino(), before.ino());
    bytes[9 + 12..9 + 20].copy_from_slice(b"22222221");
    let place = 9 + 60 + 1 + 19 * SECTOR;
    bytes[place..place + SECTOR].copy_from_slice(&padded("run C"));
    assert!(folder.bytes("run.disc") == bytes);
}

/// A full CD. What is blank takes no space in its file: it was never written.
#[test]
fn the_largest_disc() {
    let folder = Folder::begun(360_000);
    for line in ["commit run.disc", "mount run.disc", "list run.disc"] {
        folder.write(0, "run A");
        folder.done(line);
    }
    assert!(folder.done_with("read run.disc 0", b"") == padded("run A"));
    folder.done_with("store run.disc 0", &[7; 5000]);
    assert!(folder.done_with("view run.disc 0", b"") == [7; 5000]);
    folder.done("look-back run.disc 0");
    let about = fs::metadata(folder.path("run.disc")).expect("the disc");
    assert_eq!(about.len(), 9 + 360_000 + 1 + 360_000 * SECTOR as u64);
    assert!(about.blocks() * 512 < 1_000_000, "{}", about.blocks());
}
