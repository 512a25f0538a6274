//! How a disc stands, what is on it, and what is not saved yet.

mod common;

use std::fs::{self, Permissions};
use std::os::unix::fs::PermissionsExt;

use common::{padded, Folder, CLOSE_SESSION};
use station::SECTOR;

/// What `status` tells; it changes nothing.
fn status(folder: &Folder) -> Vec<String> {
    let before = folder.files();
    let told = folder.done("status run.disc");
    assert!(folder.files() == before);
    told.lines().map(String::from).collect()
}

#[test]
fn from_a_blank_disc_to_a_closed_one() {
    let folder = Folder::new();
    folder.done("new run.disc 300");
    let blank = "0 of 300 sectors recorded; room for 284 more blocks, or for a run of 579584 bytes";
    assert_eq!(status(&folder), ["not begun", "no save yet", blank]);
    folder.done("begin run.disc");
    let begun = [
        "open, with no packet open",
        "size 0, 0 in use",
        "nothing waits to be saved",
        "no save yet",
        blank,
    ];
    assert_eq!(status(&folder), begun);
    folder.write(0, "run A");
    folder.done("commit run.disc --at 2026-11-15T14:05+01:00");
    folder.write(1, "run B");
    folder.done("release run.disc 0");
    let open = [
        "open, with a packet open",
        "size 2, 1 in use: 1",
        "not saved yet, written: 1",
        "not saved yet, released: 0",
        "newest save: table at block 1, 2026-11-15 14:05 +01:00 (13:05 UTC)",
        "3 of 300 sectors recorded; room for 281 more blocks, or for a run of 573440 bytes",
    ];
    assert_eq!(status(&folder), open);
    folder.done("cut 0 commit run.disc");
    let cut = status(&folder);
    assert_eq!(cut[0], "not mounted: it has no ledger");
    assert_eq!(cut[1], "size 1, 1 in use: 0");
    folder.done("look-back run.disc 0");
    let looking = "looking only, at the save with its table at block 1: mount it to record again";
    assert_eq!(status(&folder)[0], looking);
    folder.done("mount run.disc");
    assert_eq!(folder.run(CLOSE_SESSION).status, 0);
    let closed = [
        "closed: nothing can be recorded on this disc any more",
        "size 1, 1 in use: 0",
        "nothing waits to be saved",
        "newest save: table at block 266, without a time",
    ];
    assert_eq!(status(&folder), closed);
}

/// Counts of a thousand and more are told with commas by every command; bytes are not, as
/// no other program does, nor what can be typed.
#[test]
fn large_counts() {
    let folder = Folder::new();
    let told = folder.done("new run.disc 1500");
    assert_eq!(told, "blank disc, 1,500 sectors\n");
    folder.done("begin run.disc");
    let blank = "0 of 1,500 sectors recorded; room for 1,236 more blocks, \
                 or for a run of 2529280 bytes";
    assert_eq!(status(&folder).last().map(String::as_str), Some(blank));
    let space = folder.done("space run.disc");
    let end = "blank               1,500   100.0 %\n\
               Nothing is recorded: the disc is blank, 1,500 sectors.\n";
    assert!(space.ends_with(end), "{space}");
    folder.put("long", &[7; 1235 * SECTOR + 1]);
    let told = folder.fails("store run.disc 0 --from long", 14);
    let room = "1,500 sectors are blank; this store takes 1,237 and must leave 264.";
    assert!(told.contains(room), "{told}");
    folder.put("long", &[7; 1200 * SECTOR]);
    let told = folder.done("store run.disc 0 --from long");
    let stored = "run of 2457600 bytes in 1,200 blocks, entry at block 1200\n";
    assert_eq!(told, stored);
    let told = folder.done("export run.disc run.img");
    assert_eq!(told, "1,201 sectors exported\n");
    let told = folder.done("import run.img x.disc --start 0 --sectors 3000");
    assert!(told.starts_with("1,201 sectors imported, 1,799 blank\n"));
}

/// The room that is told is the room that there is: so many blocks can be written, and no
/// more; a run of so many bytes can be stored, and no longer one.
#[test]
fn the_room_that_is_left() {
    for (sectors, packet_open) in [
        (31, true),
        (31, false),
        (17, true),
        (999, true),
        (1000, false),
    ] {
        let folder = Folder::begun(sectors);
        folder.done("commit run.disc");
        if !packet_open {
            folder.done("close run.disc");
        }
        let told = status(&folder).pop().expect("a line").replace(',', "");
        let numbers = told.split(|letter: char| !letter.is_ascii_digit());
        let numbers: Vec<usize> = numbers.filter_map(|word| word.parse().ok()).collect();
        let [1, all, blocks, bytes] = numbers[..] else {
            panic!("{told}");
        };
        assert_eq!((all, bytes), (sectors, blocks.saturating_sub(1) * SECTOR));
        let files = folder.files();
        folder.fails_with("store run.disc 0", &vec![7; bytes + 1], 14);
        if bytes > 0 {
            folder.done_with("store run.disc 0", &vec![7; bytes]);
        }
        for (path, bytes) in files {
            fs::write(path, bytes).expect("a file as it was");
        }
        for _ in 0..blocks.min(40) {
            folder.write(0, "run");
        }
        if blocks <= 40 {
            folder.fails_with("write run.disc 0 --pad", b"run", 14);
        }
    }
}

#[test]
fn a_row_for_each_number_in_use() {
    let folder = Folder::begun(60);
    assert_eq!(folder.done("contents run.disc"), "no number is in use\n");
    folder.write(0, "run A");
    folder.done_with("store run.disc 1", &[7; SECTOR + 1]);
    folder.write(2, "run C");
    folder.done("commit run.disc");
    folder.done("release run.disc 0");
    folder.write(2, "run C again");
    let rows = "number   block  kind         bytes  saved\n     \
                1       3  run           2049  yes\n     \
                2       6  block         2048  no\n";
    assert_eq!(folder.done("contents run.disc"), rows);
    let saved = "number   block  kind         bytes  saved\n     \
                 0       0  block         2048  yes\n     \
                 1       3  run           2049  yes\n     \
                 2       4  block         2048  yes\n";
    assert_eq!(folder.done("contents run.disc --back 0"), saved);
    folder.set_kind(4, b'3');
    let told = folder.done("contents run.disc --back 0");
    let row = "     2       4  unreadable       -  yes\n";
    assert!(told.ends_with(row), "{told}");
}

/// What a begin, a mount and a look back leave out.
#[test]
fn what_is_not_saved_is_told_when_it_is_left_out() {
    let folder = Folder::begun(90);
    folder.write(0, "run A");
    folder.write(1, "run B");
    let told = folder.done("begin run.disc --anyway");
    let left_out = "begun, size 0\n2 numbers written and not saved are left out: 0 to 1\n";
    assert_eq!(told, left_out);
    for v in 0..6 {
        folder.write(v, "run");
    }
    folder.done("commit run.disc");
    for v in [1, 4] {
        folder.write(v, "again");
    }
    let left_out = "2 numbers written since the last save are left out: 1, 4\n";
    let told = folder.done("mount run.disc");
    assert!(
        told.starts_with("dirty, ") && told.ends_with(left_out),
        "{told}"
    );
    assert!(!folder.done("mount run.disc").contains("left out"));
    folder.write(1, "again");
    folder.done("release run.disc 0");
    folder.done("release run.disc 5");
    let told = folder.done("look-back run.disc 0");
    let left_out = "1 number written since the last save is left out: 1\n\
                    2 numbers released since the last save are in use again: 0, 5\n";
    assert!(told.ends_with(left_out), "{told}");
    assert!(!folder.done("mount run.disc").contains("left out"));
}

/// A mount between a write and the commit: the save says that nothing new is in it.
#[test]
fn what_a_save_has() {
    let folder = Folder::begun(60);
    folder.write(0, "run A");
    let first = "saved, table at block 1: 1 number in use, 1 new: 0\n";
    assert_eq!(folder.done("commit run.disc"), first);
    folder.write(1, "run B");
    folder.done("mount run.disc");
    let none = "saved, table at block 10: 1 number in use, none new since the last save\n";
    assert_eq!(folder.done("commit run.disc"), none);
    folder.write(1, "run B");
    folder.done("release run.disc 0");
    let both = "saved, table at block 12: 1 number in use, 1 new since the last save: 1; \
                1 released: 0\n";
    assert_eq!(folder.done("commit run.disc"), both);
}

/// `--back` leaves the ledger alone: what the bench has not saved is there afterwards, and
/// the next write is not turned away.
#[test]
fn looking_beside_one_who_records() {
    let folder = Folder::example();
    folder.done_with("store run.disc 0", &[7; 3000]);
    let before = folder.files();
    assert!(folder.done_with("read run.disc 1 --back 1", b"") == padded("run B"));
    assert!(folder.done_with("read run.disc 0 --back 2", b"") == padded("run A"));
    let entry = folder.done_with("read run.disc 0", b"");
    assert!(entry != padded("run A"));
    folder.fails("view run.disc 0 --back 2", 19);
    for line in ["space", "map", "contents", "map --svg -"] {
        for k in 0..3 {
            folder.done(&format!("{line} run.disc --back {k}"));
        }
    }
    let told = folder.done("space run.disc --back 2");
    assert!(told.starts_with("in use                  1 "), "{told}");
    assert!(
        told.ends_with("in use is what the save at block 1 names.\n"),
        "{told}"
    );
    assert!(folder.files() == before);
    let saved = folder.done("commit run.disc");
    assert!(saved.ends_with("1 new since the last save: 0\n"), "{saved}");
    assert!(folder.done_with("view run.disc 0 --back 0", b"") == [7; 3000]);
}

/// Without a ledger, and in a folder that cannot be written.
#[test]
fn looking_where_nothing_can_be_written() {
    let folder = Folder::example();
    fs::remove_file(folder.path("run.disc.ledger")).expect("the ledger");
    fs::remove_file(folder.path("run.disc.roles")).expect("the roles");
    fs::set_permissions(folder.path("run.disc"), Permissions::from_mode(0o444)).expect("closed");
    folder.fails("read run.disc 1", 4);
    for line in [
        "read run.disc 1 --back 0",
        "space run.disc --back 0",
        "map run.disc --back 1",
        "contents run.disc --back 2",
        "list run.disc",
        "status run.disc",
    ] {
        let told = folder.run_without_privileges(line);
        assert_eq!(told.status, 0, "{line}: {}", told.err);
    }
    assert_eq!(folder.names(), ["run.disc"]);
}
