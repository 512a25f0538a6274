//! A ledger is believed only beside the disc that it was kept for.

mod common;

use std::fs;

use common::{padded, Folder, CLOSE_SESSION};

/// Commands that read the ledger, each of which would be done beside the right disc.
const LINES: [&str; 9] = [
    "read run.disc 0",
    "view run.disc 0",
    "contents run.disc",
    "release run.disc 0",
    "close run.disc",
    "commit run.disc",
    "commit run.disc --now",
    "write run.disc 0 --pad",
    "store run.disc 0",
];

/// Another disc, made by these lines and put in the place of the folder's own.
fn swap(folder: &Folder, lines: &str) {
    let other = made(lines);
    folder.put("run.disc", &other.bytes("run.disc"));
}

/// A disc of 300 sectors, on which these lines are done: `w V TEXT` is a write, all others
/// are commands without their disc.
fn made(lines: &str) -> Folder {
    let folder = Folder::begun(300);
    play(&folder, lines);
    folder
}

fn play(folder: &Folder, lines: &str) {
    for line in lines.split("; ") {
        let words: Vec<&str> = line.split(' ').collect();
        match words[..] {
            ["w", v, text] => drop(folder.write(v.parse().expect("a number"), text)),
            ["s", v, text] => {
                let line = format!("store run.disc {v}");
                drop(folder.done_with(&line, text.repeat(999).as_bytes()))
            }
            [command] => drop(folder.done(&format!("{command} run.disc"))),
            [command, v] => drop(folder.done(&format!("{command} run.disc {v}"))),
            _ => panic!("{line}"),
        }
    }
}

/// The ledger counts as missing: nothing that reads it is done, nor changes anything, and
/// a mount shows what is on the disc.
fn is_not_believed(folder: &Folder) {
    for line in LINES {
        let told = folder.fails_with(line, b"run", 4);
        assert!(told.contains("was kept for another disc file"), "{told}");
    }
    folder.fails(CLOSE_SESSION, 4);
    folder.fails("cut 0 commit run.disc", 4);
    let told = folder.done("status run.disc");
    let state = told.lines().next().expect("a line");
    assert!(state.starts_with("not "), "{told}");
    folder.fails("space run.disc", 69);
}

/// Two discs of one shape, each with two blocks and a save.
#[test]
fn another_disc_of_the_same_shape() {
    let folder = made("w 0 A; w 1 B; commit");
    swap(&folder, "w 0 P; w 0 Q; commit");
    is_not_believed(&folder);
    let mounted = "clean, table at block 2\nsize 1, 1 in use: 0\n\
                   The ledger beside it did not belong to this disc file, and is replaced.\n";
    assert_eq!(folder.done("mount run.disc"), mounted);
    assert!(folder.done_with("read run.disc 0", b"") == padded("Q"));
    folder.fails("read run.disc 1", 10);
}

/// What is not saved is not in the table: the blocks themselves differ.
#[test]
fn blocks_that_are_not_saved() {
    let rows = [
        ("w 0 A", "w 0 B"),
        ("w 0 A; w 1 B", "w 0 A; w 1 C"),
        ("w 0 A; w 1 B", "w 0 C; w 1 B"),
        ("w 0 A; commit; w 1 B; w 2 C", "w 0 A; commit; w 1 D; w 2 C"),
        ("w 0 A; commit; w 1 B", "w 0 A; commit; commit"),
        ("w 0 A; commit; w 1 B; release 1", "w 0 A; commit; w 1 C"),
        ("s 0 A; w 1 B", "s 0 C; w 1 D"),
        ("s 0 A", "w 0 A; w 1 A"),
    ];
    for (own, other) in rows {
        let folder = made(own);
        let right = folder.bytes("run.disc");
        swap(&folder, other);
        is_not_believed(&folder);
        // The right file in its place again.
        folder.put("run.disc", &right);
        folder.done("commit run.disc");
    }
}

/// Each kind counts, and how many sectors there are.
#[test]
fn other_kinds_and_lengths() {
    let folder = made("w 0 A; commit; close; commit");
    let right = folder.bytes("run.disc");
    for block in [0, 3, 8] {
        folder.set_kind(block, b'3');
        is_not_believed(&folder);
        folder.put("run.disc", &right);
    }
    let longer = Folder::begun(301);
    play(&longer, "w 0 A; commit; close; commit");
    folder.put("run.disc", &longer.bytes("run.disc"));
    is_not_believed(&folder);
}

/// A copy of before, restored over the disc; also if others have recorded on it since.
#[test]
fn an_older_copy() {
    let folder = made("w 0 A; commit");
    let older = folder.bytes("run.disc");
    play(&folder, "w 0 B; commit");
    folder.put("run.disc", &older);
    is_not_believed(&folder);
    let ledger = folder.bytes("run.disc.ledger");
    for lines in [
        "mount; commit",
        "mount; w 0 C; commit",
        "mount; w 0 C; w 1 D",
    ] {
        folder.put("run.disc", &older);
        play(&folder, lines);
        folder.put("run.disc.ledger", &ledger);
        is_not_believed(&folder);
    }
}

/// With its own ledger and roles an older copy is as good as it was.
#[test]
fn an_older_copy_with_its_ledger() {
    let folder = made("w 0 A; commit; w 1 B");
    let names = ["run.disc", "run.disc.ledger", "run.disc.roles"];
    let older = names.map(|name| folder.bytes(name));
    play(&folder, "w 1 C; commit");
    for (name, bytes) in names.into_iter().zip(older) {
        folder.put(name, &bytes);
    }
    assert!(folder.done_with("read run.disc 1", b"") == padded("B"));
    folder.done("space run.disc");
    let saved = "saved, table at block 3: 2 numbers in use, 1 new since the last save: 1\n";
    assert_eq!(folder.done("commit run.disc"), saved);
}

/// Exported and imported, a disc has other kinds where there were links, and is the same
/// where there were none.
#[test]
fn exported_and_imported() {
    for (lines, same) in [
        ("w 0 A; commit; w 1 B", true),
        ("w 0 A; close; commit", false),
    ] {
        let folder = made(lines);
        folder.done("export run.disc raw.img");
        folder.run("import raw.img other.disc --start 0 --sectors 300");
        fs::rename(folder.path("other.disc"), folder.path("run.disc")).expect("renamed");
        match same {
            true => drop(folder.done("commit run.disc")),
            false => is_not_believed(&folder),
        }
    }
}

/// Another name for the same file has a ledger of its own. What one of them records, the
/// other's ledger does not know, and a mount there says what it leaves out.
#[test]
fn a_hard_link() {
    let folder = made("w 0 A; commit; w 1 B");
    fs::hard_link(folder.path("run.disc"), folder.path("other.disc")).expect("a link");
    folder.fails("commit other.disc", 4);
    folder.done("mount other.disc");
    folder.done_with("write other.disc 1 --pad", b"C");
    folder.done("commit other.disc");
    let told = folder.fails("commit run.disc", 4);
    assert!(
        told.contains("12 sectors recorded, and its ledger knows 3"),
        "{told}"
    );
    let mounted = folder.done("mount run.disc");
    let left_out = "1 number written since the last save is left out: 1\n";
    assert!(mounted.ends_with(left_out), "{mounted}");
    assert!(folder.done_with("read run.disc 1", b"") == padded("C"));
}

/// A name that leads to the disc has the disc's own ledger.
#[test]
fn moved_with_its_ledger() {
    let folder = made("w 0 A; commit; w 1 B");
    for end in ["", ".ledger", ".roles"] {
        let (from, to) = (format!("run.disc{end}"), format!("moved.disc{end}"));
        fs::rename(folder.path(&from), folder.path(&to)).expect("renamed");
    }
    folder.done("space moved.disc");
    let saved = folder.done("commit moved.disc");
    assert!(saved.ends_with("1 new since the last save: 1\n"), "{saved}");
}

/// A save that a stopped program has made and its ledger does not know: nothing of it is
/// left out.
#[test]
fn a_save_that_the_ledger_does_not_know() {
    let folder = made("w 0 A; commit; w 1 B; release 0");
    let ledger = folder.bytes("run.disc.ledger");
    folder.done("commit run.disc");
    for line in [
        "mount run.disc",
        "look-back run.disc 0",
        "look-back run.disc 1",
    ] {
        folder.put("run.disc.ledger", &ledger);
        let told = folder.done(line);
        assert!(!told.contains("last save"), "{told}");
    }
}
