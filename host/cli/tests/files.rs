//! The files: what is no disc is left alone, and replacing keeps what it should.

mod common;

use std::fs;
use std::os::unix::fs::{symlink, PermissionsExt};
use std::thread;

use common::{disc_file, padded, Folder, CLOSE_SESSION};
use station::SECTOR;

/// One line for each command that takes a disc.
const LINES: [&str; 16] = [
    "begin run.disc",
    "mount run.disc",
    "write run.disc 0 --pad --from /proc/version",
    "store run.disc 0 --from /proc/version",
    "release run.disc 0",
    "close run.disc",
    "commit run.disc",
    CLOSE_SESSION,
    "read run.disc 0",
    "view run.disc 0",
    "look-back run.disc 0",
    "export run.disc run.img",
    "cut 0 commit run.disc",
    "cut 0 write run.disc 0 --pad --from /proc/version",
    "cut 0 store run.disc 0 --from /proc/version",
    "cut 0 close-session run.disc --main 1,2 --reserve 3,4 --start 5",
];

/// A disc file with its first line changed to this text.
fn headed(text: &str, sectors: usize) -> Vec<u8> {
    let file = disc_file(&vec![0; sectors], &vec![0; sectors * SECTOR]);
    [text.as_bytes(), &file[9..]].concat()
}

/// Files of another form, each with a word of the reason.
fn no_discs() -> Vec<(Vec<u8>, &'static str)> {
    let good = headed("       3\n", 3);
    let (mut digit, mut line) = (good.clone(), good.clone());
    digit[10] = b'4';
    line[12] = b'0';
    vec![
        (vec![], "first line"),
        (b"a letter".to_vec(), "first line"),
        (b"       3".to_vec(), "first line"),
        (headed("3       \n", 3), "first line"),
        (headed("00000003\n", 3), "first line"),
        (headed("       \t3\n", 3), "first line"),
        (headed("      +3\n", 3), "first line"),
        (headed("      3\n\n", 3), "first line"),
        (headed("        \n", 0), "first line"),
        (headed("       0\n", 0), "first line"),
        (headed("  360001\n", 3), "first line"),
        (headed("       4\n", 3), "bytes"),
        (good[..good.len() - 1].to_vec(), "bytes"),
        ([&good[..], b"\n"].concat(), "bytes"),
        (digit, "second line"),
        (line, "second line"),
    ]
}

#[test]
fn what_is_no_disc_is_refused_and_left_alone() {
    let folder = Folder::new();
    for (bytes, reason) in no_discs() {
        folder.put("run.disc", &bytes);
        for line in LINES {
            let told = folder.fails(line, 65);
            let start = "station: run.disc is no disc: ";
            assert!(told.starts_with(start) && told.contains(reason), "{told}");
        }
        let told = folder.run("list run.disc");
        assert_eq!((told.status, &told.out[..]), (65, &b"refused   1\n"[..]));
        assert!(folder.bytes("run.disc") == bytes);
        assert_eq!(folder.names(), ["run.disc"]);
    }
}

#[test]
fn files_that_are_missing_or_no_files() {
    let folder = Folder::new();
    for line in LINES.into_iter().chain(["list run.disc"]) {
        let told = folder.fails(line, 66);
        assert_eq!(told, "station: there is no file or folder run.disc\n");
    }
    fs::create_dir(folder.path("run.disc")).expect("a folder");
    for line in LINES {
        assert!(folder.fails(line, 65).contains("it is not a file"));
    }
    let folder = Folder::begun(31);
    for line in ["write run.disc 0", "store run.disc 0"] {
        let told = folder.fails(&format!("{line} --from nothing"), 66);
        assert_eq!(told, "station: there is no file or folder nothing\n");
    }
    folder.fails("read run.disc 0 --to nowhere/shown", 10);
}

/// In the program's own words, and without the system's number for it.
#[test]
fn why_a_file_cannot_be_read_or_written() {
    let folder = Folder::begun(31);
    folder.write(0, "run A");
    fs::create_dir(folder.path("desk")).expect("a folder");
    for line in ["write run.disc 0", "store run.disc 0"] {
        let told = folder.fails(&format!("{line} --from desk"), 66);
        assert_eq!(told, "station: desk cannot be read: it is a folder\n");
        let told = folder.fails(&format!("{line} --from run.disc/lap"), 66);
        assert_eq!(told, "station: there is no file or folder run.disc/lap\n");
    }
    for (to, fault) in [
        ("desk", "it is a folder"),
        ("nowhere/shown", "there is no file or folder nowhere"),
        ("run.disc/shown", "run.disc is no folder"),
    ] {
        let told = folder.fails(&format!("read run.disc 0 --to {to}"), 73);
        assert_eq!(told, format!("station: {to} cannot be written: {fault}\n"));
    }
    for (line, to, fault) in [
        (
            "export run.disc",
            "/proc/run.img",
            "it is not there, and cannot be made",
        ),
        ("demo --keep", "run.disc", "it is there already"),
    ] {
        let told = folder.fails(&format!("{line} {to}"), 73);
        assert_eq!(told, format!("station: {to} cannot be written: {fault}\n"));
    }
    let told = folder.run_without_privileges("export run.disc run.img");
    let fault = "it or its folder is write-protected";
    assert_eq!(told.status, 73);
    assert_eq!(
        told.err,
        format!("station: run.img cannot be written: {fault}\n")
    );
    let told = folder.shell("station space run.disc > /dev/full");
    assert_eq!(told, "station: no answer can be told: its disk is full\n");
}

#[test]
fn files_that_may_not_be_read() {
    let folder = Folder::begun(31);
    let nobody = fs::Permissions::from_mode(0o000);
    fs::set_permissions(folder.path("run.disc"), nobody).expect("permissions");
    for line in ["mount run.disc", "import run.disc deck.disc --start 0"] {
        let told = folder.run_without_privileges(line);
        assert_eq!(told.err, "station: run.disc may not be read\n");
        assert_eq!((told.status, &told.out[..]), (66, &b""[..]));
    }
}

/// Narrower and wider ones than a new file would get.
#[test]
fn permissions_stay() {
    for mode in [0o600, 0o666] {
        let folder = Folder::begun(31);
        let names = ["run.disc", "run.disc.ledger", "run.disc.roles"];
        for name in names {
            let permissions = fs::Permissions::from_mode(mode);
            fs::set_permissions(folder.path(name), permissions).expect("permissions");
        }
        folder.write(0, "run A");
        folder.done("commit run.disc");
        for name in names {
            let about = fs::metadata(folder.path(name)).expect(name);
            assert_eq!(about.permissions().mode() & 0o777, mode, "{name}");
        }
    }
}

#[test]
fn a_protected_disc_is_read_and_not_recorded() {
    let folder = Folder::example();
    let protected = fs::Permissions::from_mode(0o444);
    fs::set_permissions(folder.path("run.disc"), protected).expect("permissions");
    for line in [
        "commit run.disc",
        "write run.disc 0 --pad --from /proc/version",
        "store run.disc 0 --from /proc/version",
        "cut 1 commit run.disc",
    ] {
        assert!(folder.fails(line, 73).contains("write-protected"));
    }
    folder.done("mount run.disc");
    folder.done("look-back run.disc 1");
    folder.done("read run.disc 1");
}

/// The word comes before, and nothing is recorded.
#[test]
fn a_protected_disc_is_not_closed() {
    let folder = Folder::to_be_closed(300);
    let protected = fs::Permissions::from_mode(0o444);
    fs::set_permissions(folder.path("run.disc"), protected).expect("permissions");
    let told = folder.fails(CLOSE_SESSION, 73);
    assert!(told.starts_with("station: closing run.disc: "), "{told}");
    assert!(told.ends_with("it is write-protected\n"), "{told}");
}

#[test]
fn a_link_stays_a_link_with_one_ledger() {
    let folder = Folder::example();
    fs::create_dir(folder.path("desk")).expect("a folder");
    symlink("../run.disc", folder.path("desk/today")).expect("a link");
    folder.done_with("write desk/today 0 --pad", b"run C");
    assert!(folder.path("desk/today").is_symlink());
    assert!(folder.done_with("read run.disc 0", b"") == padded("run C"));
    assert!(!folder.path("desk/today.ledger").exists());
}

/// One file under two names is one disc: what is recorded by one name stands
/// there by the other, whose ledger is then behind.
#[test]
fn a_disc_with_two_names() {
    let folder = Folder::example_on(60);
    fs::create_dir(folder.path("desk")).expect("a folder");
    let (one, other) = (folder.path("run.disc"), folder.path("desk/too.disc"));
    fs::hard_link(one, other).expect("a second name");
    folder.fails_with("write desk/too.disc 0 --pad", b"run C", 4);
    folder.done("mount desk/too.disc");
    folder.done_with("write desk/too.disc 0 --pad", b"run C");
    folder.fails("commit run.disc", 4);
    folder.done("commit desk/too.disc");
    let mounted = "clean, table at block 20\nsize 2, 2 in use: 0 to 1\n";
    assert_eq!(folder.done("mount run.disc"), mounted);
    assert!(folder.done_with("read run.disc 0", b"") == padded("run C"));
}

/// Both names at once: the file is locked, and not only the folders.
#[test]
fn commands_at_once_by_two_names() {
    let folder = Folder::begun(200);
    fs::create_dir(folder.path("desk")).expect("a folder");
    let (one, other) = (folder.path("run.disc"), folder.path("desk/run.disc"));
    fs::hard_link(one, other).expect("a second name");
    folder.done("commit run.disc");
    let write = |disc: &str| {
        folder.done(&format!("mount {disc}"));
        // Refused with 4 where the other name was quicker.
        let told = folder.run_with(&format!("write {disc} 0 --pad"), b"run");
        assert!([0, 4].contains(&told.status), "{told:?}");
        told.out
    };
    let told: Vec<Vec<u8>> = thread::scope(|scope| {
        let discs = ["run.disc", "desk/run.disc"].repeat(8).into_iter();
        let all: Vec<_> = discs.map(|disc| scope.spawn(move || write(disc))).collect();
        let ends = all.into_iter().map(|one| one.join().expect("done"));
        ends.filter(|told| !told.is_empty()).collect()
    });
    // The save and each block told, and no other; nothing behind a blank sector.
    let kinds = folder.kinds();
    assert_eq!(kinds.matches('1').count(), 1 + told.len(), "{kinds}");
    for (block, _) in kinds.match_indices('1').skip(1) {
        let line = format!("block {block}\n").into_bytes();
        assert!(told.contains(&line), "{block}: {kinds}");
    }
    assert!(!kinds.trim_end_matches('0').contains('0'), "{kinds}");
}

/// A name with which the ledger cannot be written, only the disc.
#[test]
fn nothing_changes_if_one_of_the_two_cannot_be_written() {
    let folder = Folder::example();
    let long = "x".repeat(242);
    for end in ["", ".ledger"] {
        let name = folder.path(&format!("{long}{end}"));
        fs::rename(folder.path(&format!("run.disc{end}")), name).expect("another name");
    }
    for line in [format!("commit {long}"), format!("mount {long}")] {
        assert!(folder
            .fails(&line, 73)
            .contains(".ledger cannot be written"));
    }
    folder.done(&format!("list {long}"));
}

/// Commands at the same time wait for each other.
#[test]
fn commands_at_once() {
    let folder = Folder::begun(200);
    let told: Vec<String> = thread::scope(|scope| {
        let write = || folder.write(0, "run");
        let all: Vec<_> = (0..12).map(|_| scope.spawn(write)).collect();
        all.into_iter()
            .map(|one| one.join().expect("done"))
            .collect()
    });
    for block in 0..12 {
        assert!(told.contains(&format!("block {block}\n")), "{told:?}");
    }
    assert_eq!(
        folder.names(),
        ["run.disc", "run.disc.ledger", "run.disc.roles"]
    );
}

/// The blocks of each store lie together, with its entry behind them.
#[test]
fn stores_at_once() {
    let folder = Folder::begun(200);
    let store = || folder.done_with("store run.disc 0", &[7; 2 * SECTOR + 1]);
    let told: Vec<Vec<u8>> = thread::scope(|scope| {
        let all: Vec<_> = (0..8).map(|_| scope.spawn(store)).collect();
        let ends = all.into_iter().map(|one| one.join().expect("done"));
        ends.collect()
    });
    for entry in (3..32).step_by(4) {
        let line = format!("run of 4097 bytes in 3 blocks, entry at block {entry}\n");
        assert!(told.contains(&line.into_bytes()), "{entry}");
    }
    assert_eq!(folder.kinds().matches('1').count(), 32);
}

/// What was done is told where standard output does not take it, and the exit status says
/// that it was not told there.
#[test]
fn what_is_done_is_told_all_the_same() {
    let folder = Folder::example();
    let start = "station: this is done, but standard output does not take the answer: ";
    for (line, done) in [
        (
            "commit",
            "saved, table at block 12: 1 number in use, none new since the last save\n",
        ),
        ("close", "packet closed\n"),
        ("mount", "clean, table at block 12\nsize 2, 1 in use: 1\n"),
    ] {
        let told = folder.shell(&format!("station {line} run.disc > /dev/full; echo $?"));
        assert!(told.starts_with(start), "{told}");
        assert!(told.ends_with(&format!("\n{done}74\n")), "{told}");
    }
    assert!(folder.done("list run.disc").contains("      12 "));
}

/// A reader that has seen enough, as head has, is no failure; what a listing ends with is
/// still told.
#[test]
fn a_reader_that_closes_the_pipe() {
    let folder = Folder::saved_at(400, &["2026-11-15T14:05"; 300]);
    let piped = |line: &str| {
        let shell = format!("bash -c 'set -o pipefail; station {line}; echo $?'");
        folder.shell(&shell)
    };
    let heading = "   k   block  size  used";
    assert_eq!(
        piped("list run.disc | head -n 1"),
        format!("{heading}\n0\n")
    );
    folder.done_with("store run.disc 0", &[7; 80 * 2048]);
    assert_eq!(piped("view run.disc 0 | head -c 1"), "\x070\n");
    assert_eq!(piped("commit run.disc | true"), "0\n");
    folder.set_kind(290, b'3');
    let told = piped("list run.disc | head -n 1");
    assert!(
        told.contains("station: refusal 8: ") && told.ends_with("\n8\n"),
        "{told}"
    );
}

/// An answer that nobody can take.
#[test]
fn standard_output_fails() {
    let folder = Folder::example();
    let told = folder.shell("station list run.disc > /dev/full; echo $?");
    assert!(told.starts_with("station: no answer can be told"), "{told}");
    assert!(told.ends_with("\n74\n"), "{told}");
    assert_eq!(folder.shell("station read run.disc 1 | true"), "");
    assert_eq!(folder.shell("station mount run.disc >&-; echo $?"), "0\n");
}
