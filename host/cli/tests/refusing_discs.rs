//! Each refusal that comes of the disc or its ledger, as they are: damaged, missing, of
//! another disc, looked at only, without a save or with one, closed.
//!
//! 1 cannot be met: a disc file with no sectors, too many, or another length is
//! no disc (exit status 65), and only the listing tells it as 1.

mod common;

use std::fs;

use common::refusals::{refused, refused_with};
use common::{disc_file, Folder, CLOSE_SESSION};
use station::{LEDGER, SECTOR};

const BLOCK: [u8; SECTOR] = [7; SECTOR];

/// A ledger file of another length, or with one byte changed, is no ledger of this disc.
#[test]
fn a_damaged_ledger_counts_as_missing() {
    let folder = Folder::begun(31);
    folder.done_with("write run.disc 0", &BLOCK);
    let ledger = folder.bytes("run.disc.ledger");
    let changed = |place: usize| {
        let mut changed = ledger.clone();
        changed[place] ^= 1;
        changed
    };
    let damaged = [
        Vec::new(),
        ledger[..ledger.len() - 1].to_vec(),
        ledger[..LEDGER].to_vec(),
        [&ledger[..], &[0; 9]].concat(),
        changed(0),
        changed(LEDGER - 1),
        changed(LEDGER),
    ];
    for ledger in damaged {
        folder.put("run.disc.ledger", &ledger);
        for line in [
            "release run.disc 0",
            "commit run.disc",
            "read run.disc 0",
            "view run.disc 0",
            "contents run.disc",
        ] {
            let why = refused(&folder, line, 4);
            assert!(why.starts_with("The ledger beside run.disc was kept for another"));
        }
        refused_with(&folder, "store run.disc 0", b"run", 4);
        refused_with(&folder, "write run.disc 0", &BLOCK, 4);
    }
    folder.put("run.disc.ledger", &ledger);
    folder.done("read run.disc 0");
}

/// Mount, begin and look back do not read the ledger: a damaged one does not
/// keep the operator from going on.
#[test]
fn a_damaged_ledger_is_made_anew() {
    let folder = Folder::example();
    for line in ["mount run.disc", "look-back run.disc 1"] {
        folder.put("run.disc.ledger", b"half a led");
        folder.done(line);
        folder.done("read run.disc 1");
    }
}

#[test]
fn number_3_a_recorded_sector_after_a_blank_one() {
    let folder = Folder::example();
    folder.set_kind(20, b'1');
    for line in ["begin", "mount", "close", "commit", "contents", "status"] {
        let why = refused(&folder, &format!("{line} run.disc"), 3);
        let start = "Block 20 is recorded and block 12 before it is blank";
        assert!(why.starts_with(start), "{why}");
    }
    refused(&folder, CLOSE_SESSION, 3);
    for line in ["release", "read", "view", "look-back", "time"] {
        refused(&folder, &format!("{line} run.disc 0"), 3);
    }
    refused_with(&folder, "write run.disc 0", &BLOCK, 3);
    refused_with(&folder, "store run.disc 0", b"run", 3);
    fs::remove_file(folder.path("run.disc.roles")).expect("roles");
    for line in ["space", "map"] {
        refused(&folder, &format!("{line} run.disc"), 3);
    }
}

#[test]
fn number_4_a_ledger_that_is_missing_or_of_another_disc() {
    let folder = Folder::example();
    folder.done("new other.disc 31");
    folder.put("other.disc.ledger", &folder.bytes("run.disc.ledger"));
    folder.done("new third.disc 31");
    for (disc, why) in [
        (
            "other.disc",
            "The ledger beside other.disc was kept for another disc file",
        ),
        (
            "third.disc",
            "third.disc has no ledger: mount it, or begin it",
        ),
    ] {
        let told = refused(&folder, &format!("commit {disc}"), 4);
        assert!(told.starts_with(why), "{told}");
        refused(&folder, &format!("close {disc}"), 4);
        let closing = CLOSE_SESSION.replace("run.disc", disc);
        refused(&folder, &closing, 4);
        refused(&folder, &format!("release {disc} 1"), 4);
        refused(&folder, &format!("read {disc} 1"), 4);
        refused(&folder, &format!("view {disc} 1"), 4);
        refused(&folder, &format!("contents {disc}"), 4);
        refused_with(&folder, &format!("write {disc} 0"), &BLOCK, 4);
        refused_with(&folder, &format!("store {disc} 0"), b"run", 4);
    }
}

/// What a stopped program leaves: the ledger is this disc's, and behind it.
#[test]
fn number_4_a_ledger_that_is_behind_its_disc() {
    let folder = Folder::example();
    let ledger = folder.bytes("run.disc.ledger");
    folder.write(0, "run C");
    folder.put("run.disc.ledger", &ledger);
    let why = refused(&folder, "commit run.disc", 4);
    let start = "run.disc has 13 sectors recorded, and its ledger knows 12, as after a power cut";
    assert!(why.starts_with(start), "{why}");
}

#[test]
fn number_5_recording_while_looking_only() {
    let folder = Folder::example();
    folder.done("look-back run.disc 0");
    for line in [
        "close run.disc",
        "commit run.disc",
        "commit run.disc --now",
        CLOSE_SESSION,
        "release run.disc 1",
    ] {
        let why = refused(&folder, line, 5);
        let start = "run.disc shows the save at block 11 since a look-back";
        assert!(why.starts_with(start) && why.ends_with("Mount it to record again."));
    }
    refused_with(&folder, "write run.disc 0", &BLOCK, 5);
    refused_with(&folder, "store run.disc 500", b"run", 5);
}

#[test]
fn numbers_6_and_7_begin_and_mount_at_the_wrong_time() {
    let folder = Folder::example();
    let why = refused(&folder, "begin run.disc", 6);
    assert_eq!(why, "run.disc has a save already, at block 11: mount it.");
    let folder = Folder::begun(31);
    for line in ["mount run.disc", "look-back run.disc 0", "time run.disc 0"] {
        assert_eq!(refused(&folder, line, 7), "run.disc is blank: begin it.");
    }
}

/// Each command that looks for a save; the listing tells its refusal on standard output
/// too.
fn no_save(folder: &Folder) -> String {
    let told = [
        "mount run.disc",
        "look-back run.disc 0",
        "time run.disc 0",
        "read run.disc 0 --back 0",
        "contents run.disc --back 0",
        "space run.disc --back 0",
    ]
    .map(|line| refused(folder, line, 7));
    let before = folder.files();
    let listed = folder.run("list run.disc");
    assert_eq!((listed.status, &listed.out[..]), (7, &b"refused   7\n"[..]));
    assert_eq!(listed.err, format!("station: refusal 7: {}\n", told[0]));
    assert!(folder.files() == before);
    assert!(told.iter().all(|other| *other == told[0]), "{told:?}");
    told[0].clone()
}

/// What is written and not saved is not lost yet: nobody is led into a begin.
#[test]
fn number_7_and_something_waits_to_be_saved() {
    let folder = Folder::begun(31);
    folder.write(0, "run A");
    let found = "No finished save is found among the 1 recorded sector of run.disc.";
    let saves = "Nothing is saved yet; commit saves what is written here";
    assert_eq!(no_save(&folder), format!("{found} {saves}: 0."));
    for v in 1..4 {
        folder.write(v, "run B");
    }
    folder.done("release run.disc 1");
    let found = "No finished save is found among the 4 recorded sectors of run.disc.";
    assert_eq!(no_save(&folder), format!("{found} {saves}: 0, 2 to 3."));
    let saved = "saved, table at block 4: 3 numbers in use, 3 new: 0, 2 to 3\n";
    assert_eq!(folder.done("commit run.disc"), saved);
}

/// Where a ledger is missing, or behind its disc, no commit saves what was written.
#[test]
fn number_7_and_nothing_waits_to_be_saved() {
    let folder = Folder::begun(31);
    let ledger = folder.bytes("run.disc.ledger");
    folder.write(0, "run A");
    let anyway = "If the power failed before the first save, begin it with --anyway";
    folder.put("run.disc.ledger", &ledger);
    assert!(no_save(&folder).contains(anyway));
    fs::remove_file(folder.path("run.disc.ledger")).expect("a ledger");
    assert!(no_save(&folder).contains(anyway));
    folder.done("begin run.disc --anyway");
    let why = no_save(&folder);
    let begun = "It is begun, and nothing waits to be saved; a commit makes its first save.";
    assert!(why.ends_with(begun), "{why}");
}

/// The right disc may still be saved with the ledger that a begin would replace.
#[test]
fn number_7_beside_another_discs_ledger() {
    let folder = Folder::begun(31);
    folder.write(0, "run A");
    let right = folder.bytes("run.disc");
    for recorded in [0, 2] {
        let kinds = [vec![1; recorded], vec![0; 31 - recorded]].concat();
        folder.put("run.disc", &disc_file(&kinds, &[7; 31 * SECTOR]));
        let why = no_save(&folder);
        assert!(why.contains("was kept for another disc file"), "{why}");
        let back = "If a wrong file was put here, put the right one back; if not, begin it.";
        assert!(why.ends_with(back), "{why}");
    }
    folder.put("run.disc", &right);
    folder.done("commit run.disc");
}

#[test]
fn numbers_8_and_9_looking_too_far_back() {
    let folder = Folder::example();
    for line in ["look-back run.disc", "time run.disc"] {
        for k in ["3", "4294967295"] {
            let why = refused(&folder, &format!("{line} {k}"), 9);
            assert_eq!(why, "There are 3 saves: the oldest is 2 back.");
        }
    }
    folder.set_kind(3, b'3');
    for line in [
        "look-back run.disc",
        "time run.disc",
        "read run.disc 1 --back",
    ] {
        for k in ["1", "7"] {
            let why = refused(&folder, &format!("{line} {k}"), 8);
            let start = "Only 1 save can be reached: the oldest is 0 back, at block 11,";
            assert!(why.starts_with(start), "{why}");
        }
    }
    folder.done("look-back run.disc 0");
}

#[test]
fn number_11_an_unreadable_block() {
    let folder = Folder::example();
    for digit in [b'3', b'2'] {
        folder.set_kind(2, digit);
        folder.run("mount run.disc");
        for line in ["read run.disc 1", "view run.disc 1"] {
            let why = refused(&folder, line, 11);
            let start = "Block 2, which number 1 names, cannot be read.";
            assert!(why.starts_with(start), "{why}");
            assert!(why.contains("an older one with --back"), "{why}");
        }
    }
}

/// "17, write, release, commit, close packet or closing on a closed disc, tested
/// directly after 5."
#[test]
fn number_17_a_closed_disc() {
    let folder = Folder::closed();
    for line in [
        "release run.disc 0",
        "release run.disc 9",
        "close run.disc",
        "commit run.disc",
        "commit run.disc --at 2026-11-15T14:05+01:00",
        "commit run.disc --at 2099-02-29T14:05Z",
        CLOSE_SESSION,
        "close-session run.disc --main 1,2 --reserve 3,4 --start 400001",
        "cut 0 commit run.disc",
        "cut 0 close-session run.disc --main 1,2 --reserve 3,4 --start 5",
    ] {
        let why = refused(&folder, line, 17);
        assert!(why.starts_with("run.disc is closed"), "{why}");
    }
    refused_with(&folder, "write run.disc 0", &BLOCK, 17);
    refused_with(&folder, "write run.disc 500", &BLOCK, 17);
    refused_with(&folder, "store run.disc 500", b"run", 17);
    folder.done("look-back run.disc 1");
    let why = refused(&folder, "commit run.disc", 5);
    let told = "run.disc shows the save at block 1 since a look-back, and is closed: it can only \
                be read. Mount it to see its newest save; take another disc to record on.";
    assert_eq!(why, told);
    refused(&folder, "begin run.disc", 6);
}
