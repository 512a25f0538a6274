//! A program killed between its two files leaves nothing false: the next command
//! is refused with 4 until a mount. `tests/traced.rs` kills it everywhere else.

mod common;

use common::{padded, Folder, CLOSE_SESSION};
use station::SECTOR;

/// One line for each call that reads the ledger.
const LINES: [&str; 14] = [
    "write run.disc 0",
    "store run.disc 0",
    "release run.disc 0",
    "close run.disc",
    "commit run.disc",
    "commit run.disc --at 2026-11-15T14:05+01:00",
    "commit run.disc --now",
    CLOSE_SESSION,
    "read run.disc 0",
    "view run.disc 0",
    "cut 0 commit run.disc",
    "cut 0 write run.disc 0",
    "cut 0 store run.disc 0",
    "cut 0 close-session run.disc --main 1,2 --reserve 3,4 --start 5",
];

/// Disc and ledger before and after the line.
fn before_and_after(folder: &Folder, line: &str) -> [Vec<u8>; 4] {
    let (disc, ledger) = (folder.bytes("run.disc"), folder.bytes("run.disc.ledger"));
    folder.done_with(line, b"run C");
    [
        disc,
        ledger,
        folder.bytes("run.disc"),
        folder.bytes("run.disc.ledger"),
    ]
}

fn refuses_until_mounted(folder: &Folder) {
    for line in LINES {
        folder.fails_with(line, &[7; SECTOR], 4);
    }
}

/// The new disc with the old ledger.
#[test]
fn killed_between_disc_and_ledger() {
    let folder = Folder::example_on(60);
    let [_, ledger, ..] = before_and_after(&folder, "write run.disc 0 --pad");
    folder.put("run.disc.ledger", &ledger);
    refuses_until_mounted(&folder);
    let old = "dirty, table at block 11\nsize 2, 1 in use: 1\n";
    assert_eq!(folder.done("mount run.disc"), old);
    folder.write(0, "run C");
    let [_, ledger, ..] = before_and_after(&folder, "commit run.disc");
    folder.put("run.disc.ledger", &ledger);
    refuses_until_mounted(&folder);
    let new = "clean, table at block 21\nsize 2, 2 in use: 0 to 1\n";
    assert_eq!(folder.done("mount run.disc"), new);
    assert!(folder.done_with("read run.disc 0", b"") == padded("run C"));
}

/// A store is kept as one: there is never a ledger of some of its blocks.
#[test]
fn killed_between_disc_and_ledger_of_a_store() {
    let folder = Folder::begun(60);
    let [_, ledger, ..] = before_and_after(&folder, "store run.disc 0");
    folder.done("commit run.disc");
    folder.put("run.disc.ledger", &ledger);
    refuses_until_mounted(&folder);
    folder.done("mount run.disc");
    assert_eq!(folder.done("view run.disc 0"), "run C");
    let [_, ledger, ..] = before_and_after(&folder, "store run.disc 1");
    folder.put("run.disc.ledger", &ledger);
    refuses_until_mounted(&folder);
    let old = "dirty, table at block 2\nsize 1, 1 in use: 0\n";
    assert_eq!(folder.done("mount run.disc"), old);
}

/// The disc is closed, and its ledger is behind: 4 is tested before 17.
#[test]
fn killed_between_disc_and_ledger_of_a_closing() {
    let folder = Folder::to_be_closed(300);
    let ledger = folder.bytes("run.disc.ledger");
    assert_eq!(folder.run(CLOSE_SESSION).status, 0);
    folder.put("run.disc.ledger", &ledger);
    refuses_until_mounted(&folder);
    folder.done("mount run.disc");
    assert!(folder.done_with("read run.disc 1", b"") == padded("run B"));
    folder.fails("commit run.disc", 17);
}

/// The same before the first save.
#[test]
fn killed_between_disc_and_ledger_of_the_first_write() {
    let folder = Folder::begun(31);
    let [_, ledger, ..] = before_and_after(&folder, "write run.disc 0 --pad");
    folder.put("run.disc.ledger", &ledger);
    refuses_until_mounted(&folder);
    folder.fails("mount run.disc", 7);
    folder.done("begin run.disc --anyway");
    assert_eq!(folder.write(0, "run C"), "block 8\n");
}
