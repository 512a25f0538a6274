//! Each refusal of what is asked for: a block, a number, a run or a place in one, a time,
//! room for a call. And every refusal explained.

mod common;

use common::refusals::{refused, refused_with};
use common::{disc_file, Folder, CLOSE_SESSION};
use station::{Refusal, LIMIT, SECTOR};

const BLOCK: [u8; SECTOR] = [7; SECTOR];

#[test]
fn number_2_a_block_of_another_length() {
    let folder = Folder::begun(31);
    let shorter = "a block has 2048 (--pad fills up a shorter one).";
    for (length, told) in [
        (1, "This block has 1 byte"),
        (2047, "This block has 2047 bytes"),
    ] {
        let why = refused_with(&folder, "write run.disc 0", &vec![7; length], 2);
        assert_eq!(why, format!("{told}; {shorter}"));
    }
    for length in [SECTOR + 1, 3 * SECTOR] {
        let why = refused_with(&folder, "write run.disc 0", &vec![7; length], 2);
        assert!(
            why.starts_with("This block has more than 2048 bytes"),
            "{why}"
        );
        assert!(why.ends_with("store takes a run of any length."), "{why}");
    }
}

#[test]
fn number_10_a_number_not_in_use() {
    let folder = Folder::example();
    for v in ["0", "2", "4087", "4294967295"] {
        let why = if v == "0" {
            "was released"
        } else {
            "is not in use"
        };
        for line in ["read", "view", "release"] {
            let told = refused(&folder, &format!("{line} run.disc {v}"), 10);
            assert_eq!(told, format!("Number {v} {why}. In use: 1."));
        }
    }
    let why = refused(&folder, "read run.disc 1 --back 2", 10);
    let shown = "In use in the save that is shown: 0.";
    assert_eq!(why, format!("Number 1 is not in use. {shown}"));
    folder.done("release run.disc 1");
    let why = refused(&folder, "read run.disc 1", 10);
    assert_eq!(why, "Number 1 was released. No number is in use.");
}

#[test]
fn number_12_a_number_above_the_size() {
    let folder = Folder::example();
    for v in ["3", "4", "500", "4086"] {
        for line in ["write", "store"] {
            let why = refused_with(&folder, &format!("{line} run.disc {v}"), &BLOCK, 12);
            let told = format!("The next new number is 2; {v} would leave a gap.");
            assert_eq!(why, told);
        }
    }
}

/// Document 02: "a number at or above the limit gives 13, even above size."
#[test]
fn number_13_a_number_above_the_size_and_the_limit() {
    let folder = Folder::example();
    for v in ["4087", "5000", "4294967295"] {
        for line in ["write", "store"] {
            let why = refused_with(&folder, &format!("{line} run.disc {v}"), &BLOCK, 13);
            assert_eq!(why, "Numbers end at 4086; the next new one is 2.");
        }
    }
}

/// "4,087 at size 4,087: 13", with space.
#[test]
fn number_13_a_number_beyond_the_limit() {
    let folder = Folder::numbered(4500, LIMIT);
    let told = folder.done("mount run.disc");
    let mounted = "size 4,087, 4,087 in use: 0 to 4086\n";
    assert!(told.ends_with(mounted), "{told}");
    let why = refused_with(&folder, "write run.disc 4087", &BLOCK, 13);
    let start = "Numbers end at 4086, and all of them are taken";
    assert!(why.starts_with(start), "{why}");
}

/// "disc of 16: write 14, [...] 17: second write 14", and a commit uses what was kept.
#[test]
fn number_14_no_room() {
    refused_with(&Folder::begun(16), "write run.disc 0", &BLOCK, 14);
    let folder = Folder::begun(17);
    folder.done_with("write run.disc 0", &BLOCK);
    let why = refused_with(&folder, "write run.disc 1", &BLOCK, 14);
    let told = "16 sectors are blank; this write takes 1 and must leave 16. \
                Commit what is written, and take another disc.";
    assert_eq!(why, told);
    let why = refused_with(&folder, "store run.disc 1", &BLOCK, 14);
    let start = "16 sectors are blank; this store takes at least 2 and must leave 16.";
    assert!(why.starts_with(start), "{why}");
    folder.done("close run.disc");
    let why = refused_with(&folder, "write run.disc 1", &BLOCK, 14);
    let start = "16 sectors are blank; this write takes 8, seven of them links, and must leave 16.";
    assert!(why.starts_with(start), "{why}");
    let saved = folder.done("commit run.disc");
    assert!(saved.starts_with("saved, table at block 8:"), "{saved}");
    for _ in 0..8 {
        folder.done("commit run.disc");
    }
    for line in ["commit run.disc", "commit run.disc --now"] {
        let told = "0 sectors are blank; this commit takes 1. \
                    Take another disc: the last finished save stays on this one.";
        assert_eq!(refused(&folder, line, 14), told);
    }
}

/// "a write leaves 16 below 1,000 sectors, 264 from there on": enough for links and a
/// save, or for links and a closing.
#[test]
fn number_14_what_a_write_leaves() {
    for (sectors, left, closing) in [(999, 16, 14), (1000, 264, 0)] {
        let folder = Folder::new();
        let begun = |blank: usize| {
            let kinds = [vec![1; sectors - blank], vec![0; blank]].concat();
            folder.put("run.disc", &disc_file(&kinds, &vec![7; sectors * SECTOR]));
            folder.done("begin run.disc --anyway");
        };
        begun(7 + left);
        let why = refused_with(&folder, "write run.disc 0", &BLOCK, 14);
        let told = format!(
            "{} sectors are blank; this write takes 8, seven of them links, and must leave {left}.",
            7 + left
        );
        assert!(why.starts_with(&told), "{why}");
        begun(7 + 1 + left);
        folder.done_with("write run.disc 0", &BLOCK);
        let why = refused_with(&folder, "write run.disc 1", &BLOCK, 14);
        assert!(why.contains(&format!("must leave {left}.")), "{why}");
        assert_eq!(why.contains("or close the disc"), closing == 0, "{why}");
        folder.done("close run.disc");
        assert_eq!(folder.run(CLOSE_SESSION).status, closing);
    }
}

/// What is left to do: to save what waits, to close the disc where there is room for it,
/// and to take another one.
#[test]
fn number_14_and_what_waits_to_be_saved() {
    let folder = Folder::begun(31);
    let write = || refused_with(&folder, "store run.disc 0", &[7; 31 * SECTOR], 14);
    let commit = "Commit what is written, and take another disc.";
    let nothing = "Nothing waits to be saved: take another disc.";
    assert!(write().ends_with(nothing));
    folder.write(0, "run A");
    assert!(write().ends_with(commit));
    folder.done("commit run.disc");
    assert!(write().ends_with(nothing));
    folder.done("release run.disc 0");
    assert!(write().ends_with(commit));
    folder.done("mount run.disc");
    assert!(write().ends_with(nothing));

    let folder = Folder::to_be_closed(300);
    let write = || refused_with(&folder, "store run.disc 2", &[7; 300 * SECTOR], 14);
    let commit = "Commit what is written, or close the disc, and take another one.";
    assert!(write().ends_with(commit));
    folder.done("commit run.disc");
    let close = "Nothing waits to be saved: close the disc, or take another one.";
    assert!(write().ends_with(close));

    // Without a save there is none that stays.
    let folder = Folder::new();
    folder.put("run.disc", &disc_file(&[1], &BLOCK));
    folder.done("begin run.disc --anyway");
    let why = refused(&folder, "commit run.disc", 14);
    assert!(
        why.ends_with("seven of them links. Take another disc."),
        "{why}"
    );
}

/// "Closing needs links + 257 blank sectors, else 14."
#[test]
fn number_14_no_room_for_a_closing() {
    for (line, blank) in [("mount run.disc", 264), ("commit run.disc", 258)] {
        // Three sectors are recorded.
        let folder = Folder::to_be_closed(3 + blank - 1);
        folder.done(line);
        let why = refused(&folder, CLOSE_SESSION, 14);
        assert!(
            why.contains("sectors are blank; this closing takes 2"),
            "{why}"
        );
        let saved = "Nothing waits to be saved: take another disc.";
        assert!(why.ends_with(saved), "{why}");
        folder.done("commit run.disc");
        let folder = Folder::to_be_closed(3 + blank);
        folder.done(line);
        assert_eq!(folder.run(CLOSE_SESSION).status, 0, "{line}");
        assert!(!folder.kinds().contains('0'));
    }
}

/// A table sector of block 0, written as a block at 0, and at 1.
#[test]
fn number_15_a_block_that_would_be_a_save() {
    let folder = Folder::begun(31);
    folder.done("commit run.disc");
    let table = folder.sector(0);
    folder.done("new other.disc 31");
    folder.done("begin other.disc");
    let why = refused_with(&folder, "write other.disc 0", &table, 15);
    assert!(why.starts_with("This block would pass for a save"), "{why}");
    folder.done_with("write other.disc 0", &BLOCK);
    folder.done_with("write other.disc 1", &table);
}

/// "Rule 15 now also covers every block with such a tag": a closing's pointer, whose
/// location is from its block to its block + 400,000.
#[test]
fn number_15_a_block_that_would_be_a_closings_pointer() {
    let pointer = Folder::closed().sector(3);
    let folder = Folder::begun(31);
    let why = refused_with(&folder, "write run.disc 0", &pointer, 15);
    assert!(why.starts_with("This block would pass for a save or for a closing"));
    let why = refused_with(&folder, "store run.disc 0", &pointer, 15);
    assert!(
        why.starts_with("One of the run's blocks would pass"),
        "{why}"
    );
    let mut other = pointer;
    other[4] ^= 1;
    folder.done_with("write run.disc 0", &other);
}

/// "A timestamp given or found breaks these limits."
#[test]
fn number_16_a_time_that_there_is_not() {
    let folder = Folder::example();
    let why = refused(&folder, "commit run.disc --at 2099-02-29T14:05Z", 16);
    let start = "No save can carry the time 2099-02-29T14:05Z:";
    assert!(why.starts_with(start), "{why}");
    let why = refused(&folder, "time run.disc 1", 16);
    assert!(why.starts_with("The save 1 back carries no time"), "{why}");
}

/// "18, the partition start exceeds 400,000, tested directly after 17."
#[test]
fn number_18_a_partition_that_starts_too_high() {
    let folder = Folder::to_be_closed(300);
    for start in ["400001", "4294967295"] {
        let line = format!("close-session run.disc --main 1,2 --reserve 3,4 --start {start}");
        let why = refused(&folder, &line, 18);
        assert!(
            why.ends_with(&format!("and --start says {start}.")),
            "{why}"
        );
        // Before 14.
        refused(&Folder::example(), &line, 18);
    }
    let highest = "close-session run.disc --main 1,2 --reserve 3,4 --start 400000";
    assert_eq!(folder.run(highest).status, 0);
}

/// "19, the numbered block is not such an entry, tested after 11": a block of its
/// own, or the entry of a run that cannot be read any more.
#[test]
fn number_19_a_number_that_is_no_run() {
    let folder = Folder::begun(31);
    folder.done_with("write run.disc 0", &BLOCK);
    let why = refused(&folder, "view run.disc 0", 19);
    assert!(why.ends_with("and no run: 'station read run.disc 0' shows it."));
    // Before 20.
    refused(&folder, "view run.disc 0 --offset 9999", 19);
    folder.done_with("store run.disc 1", &[9; 3 * SECTOR]);
    folder.done("view run.disc 1");
    folder.done("commit run.disc");
    for block in 1..4 {
        folder.set_kind(block, b'3');
        let why = refused(&folder, "view run.disc 1 --back 0", 19);
        let start = "Number 1 is a run of which a sector cannot be read any more.";
        assert!(why.starts_with(start), "{why}");
        refused(&folder, "view run.disc 1 --back 0 --offset 6143", 19);
        folder.set_kind(block, b'1');
    }
    // An entry is one only at its own block.
    let entry = folder.sector(4);
    folder.done_with("write run.disc 2", &entry);
    refused(&folder, "view run.disc 2", 19);
}

/// "20, the offset exceeds the run's length, tested after 19."
#[test]
fn number_20_an_offset_beyond_the_run() {
    let folder = Folder::begun(31);
    folder.done_with("store run.disc 0", &[9; SECTOR + 1]);
    for offset in ["2050", "4096", "4294967296", "18446744073709551615"] {
        let line = format!("view run.disc 0 --offset {offset}");
        let why = refused(&folder, &line, 20);
        let told = format!("The run has 2049 bytes, and --offset {offset} is behind its end.");
        assert_eq!(why, told);
        refused(&folder, &format!("{line} --length 0"), 20);
    }
    assert_eq!(folder.done("view run.disc 0 --offset 2049"), "");
}

/// `explain` has the rule's own words, who causes it and what to do.
#[test]
fn each_number_is_explained() {
    let folder = Folder::new();
    for refusal in Refusal::ALL {
        let told = folder.done(&format!("explain {}", refusal.number()));
        let lines: Vec<&str> = told.lines().collect();
        assert_eq!(lines.len(), 3, "{told}");
        assert_eq!(lines[0], refusal.to_string());
        assert!(lines[1].starts_with("It is caused by the "), "{told}");
    }
    for number in ["0", "21", "4294967295"] {
        let told = folder.fails(&format!("explain {number}"), 64);
        assert!(told.contains("N is a number from 1 to 20: "), "{told}");
    }
}
