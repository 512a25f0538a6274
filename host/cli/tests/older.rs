//! A ledger that the edition before kept, whose numbers ended at 457: no call is lent it,
//! and what waits in it to be saved is named before a mount leaves it out.

mod common;

use common::older::made_older;
use common::refusals::{refused, refused_with};
use common::{padded, Folder, CLOSE_SESSION};

/// What the sentence about it starts with.
const KEPT: &str = "The ledger beside run.disc was kept by an older edition of this program";

/// Commands that need a ledger.
const LINES: [&str; 9] = [
    "write run.disc 1 --pad",
    "store run.disc 1",
    "release run.disc 1",
    "close run.disc",
    "commit run.disc",
    "commit run.disc --now",
    "read run.disc 1",
    "view run.disc 1",
    "contents run.disc",
];

/// Every command says this, and the roles are not known.
fn is_told(folder: &Folder, told: &str) {
    for line in LINES {
        assert_eq!(refused_with(folder, line, b"run", 4), told, "{line}");
    }
    assert_eq!(refused(folder, CLOSE_SESSION, 4), told);
    let status = folder.done("status run.disc");
    assert!(status.contains(&format!("\n{told}\n")), "{status}");
    for line in ["space run.disc", "map run.disc"] {
        folder.fails(line, 69);
    }
}

/// Two written and one released since the last save.
fn waiting() -> Folder {
    let folder = Folder::begun(60);
    folder.write(0, "run A");
    folder.done("commit run.disc");
    folder.write(1, "run B");
    folder.write(2, "run C");
    folder.done("release run.disc 0");
    made_older(&folder);
    folder
}

#[test]
fn what_waits_is_named() {
    let folder = waiting();
    let told = format!(
        "{KEPT}, and only that edition can save what waits in it: written 1 to 2; released 0. \
         Commit with that edition first; a mount here leaves it out."
    );
    is_told(&folder, &told);
    let status = folder.done("status run.disc");
    let start = "not mounted: the ledger beside it was kept by an older edition\n\
                 size 1, 1 in use: 0\n";
    assert!(status.starts_with(start), "{status}");
    // Who only looks needs no ledger.
    assert!(folder.done_with("read run.disc 0 --back 0", b"") == padded("run A"));
    folder.done("space run.disc --back 0");
    let mounted = "dirty, table at block 1\nsize 1, 1 in use: 0\n\
                   2 numbers written since the last save are left out: 1 to 2\n\
                   1 number released since the last save is in use again: 0\n";
    assert_eq!(folder.done("mount run.disc"), mounted);
    folder.done("space run.disc");
    assert_eq!(folder.ledger().len(), station::LEDGER);
}

#[test]
fn nothing_waits() {
    let folder = Folder::example();
    made_older(&folder);
    let told = format!("{KEPT}, and nothing waits in it to be saved: mount the disc.");
    is_told(&folder, &told);
    let mounted = "clean, table at block 11\nsize 2, 1 in use: 1\n";
    assert_eq!(folder.done("mount run.disc"), mounted);
    folder.done("space run.disc");
    // Nor does it in one that shows an earlier save.
    let folder = Folder::example();
    folder.done("look-back run.disc 2");
    made_older(&folder);
    is_told(&folder, &told);
}

/// No mount is possible, and nothing leads into a loss.
#[test]
fn before_the_first_save() {
    let folder = Folder::begun(60);
    folder.write(0, "run A");
    made_older(&folder);
    let waits = format!(
        "{KEPT}, and only that edition can save what waits in it: written 0. Commit with that \
         edition first; a begin here leaves it out."
    );
    is_told(&folder, &waits);
    let why = refused(&folder, "mount run.disc", 7);
    let found = "No finished save is found among the 1 recorded sector of run.disc.";
    assert_eq!(why, format!("{found} {waits}"));
    let told = folder.fails("space run.disc", 69);
    assert!(told.contains(&waits), "{told}");
    let told = folder.fails("begin run.disc", 64);
    let anyway = "type 'station begin run.disc --anyway'.\n";
    assert!(told.contains(&waits) && told.ends_with(anyway), "{told}");
    let left_out = "begun, size 0\n1 number written and not saved is left out: 0\n";
    assert_eq!(folder.done("begin run.disc --anyway"), left_out);
    // Begun alone, and nothing written.
    let folder = Folder::begun(60);
    made_older(&folder);
    let told = format!("{KEPT}, and nothing waits in it to be saved: begin the disc.");
    is_told(&folder, &told);
    assert_eq!(folder.done("begin run.disc"), "begun, size 0\n");
}

/// That edition cannot save either what a ledger has that is behind its disc.
#[test]
fn behind_the_disc() {
    let folder = waiting();
    let ledger = folder.bytes("run.disc.ledger");
    folder.done("mount run.disc");
    folder.write(1, "run D");
    folder.put("run.disc.ledger", &ledger);
    let told = format!(
        "{KEPT}, and is behind the disc, as after a power cut: mount it. What waits in that \
         ledger is then left out: written 1 to 2; released 0."
    );
    is_told(&folder, &told);
}

/// Of another disc, or damaged, it counts as missing, as one of this edition does.
#[test]
fn not_of_this_disc() {
    let folder = waiting();
    let mut ledger = folder.bytes("run.disc.ledger");
    let other = Folder::example();
    other.put("run.disc.ledger", &ledger);
    let foreign = "The ledger beside run.disc was kept for another disc file";
    assert!(refused(&other, "commit run.disc", 4).starts_with(foreign));
    ledger[0] ^= 1;
    folder.put("run.disc.ledger", &ledger);
    assert!(refused(&folder, "commit run.disc", 4).starts_with(foreign));
    let replaced = "The ledger beside it did not belong to this disc file, and is replaced.\n";
    assert!(folder.done("mount run.disc").ends_with(replaced));
}
