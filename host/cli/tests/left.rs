//! What a killed command leaves in the making: the next one on that disc, or the next
//! that makes the same file, removes what is provably its own. `tests/traced.rs` kills
//! commands at each of their calls.

mod common;

use std::fs;
use std::os::unix::fs::{symlink, PermissionsExt};

use common::Folder;

/// What a command on `run.disc` may have in the making.
const PARTS: [&str; 4] = [
    "run.disc.station-part",
    "run.disc.ledger.station-part",
    "run.disc.roles.station-part",
    "run.disc.run.station-part",
];

#[test]
fn the_next_command_removes_it() {
    for line in [
        "list run.disc",
        "mount run.disc",
        "read run.disc 1",
        "commit run.disc",
    ] {
        let folder = Folder::example();
        let names = folder.names();
        for part in PARTS {
            folder.put(part, b"half");
        }
        folder.done_with(line, b"");
        assert_eq!(folder.names(), names, "{line}");
    }
}

/// It is locked, no file, or another's by its name.
#[test]
fn what_is_not_provably_left_stays() {
    let folder = Folder::example();
    folder.put(PARTS[1], b"half");
    folder.put("run.disc.part", b"somebody's");
    folder.put("other.disc.station-part", b"another disc's");
    fs::create_dir(folder.path(PARTS[0])).expect("a folder");
    symlink("run.disc", folder.path(PARTS[2])).expect("a link");
    let line = format!("flock {} station list run.disc | tail -n 1", PARTS[1]);
    assert_eq!(folder.shell(&line), "clean\n");
    for part in [
        PARTS[0],
        PARTS[1],
        PARTS[2],
        "run.disc.part",
        "other.disc.station-part",
    ] {
        assert!(folder.path(part).exists(), "{part}");
    }
    // A link is in the way of new roles, and is left as it is.
    let told = folder.run("mount run.disc");
    assert_eq!(told.status, 73, "{told:?}");
    assert!(
        told.err.contains("another command is making it"),
        "{told:?}"
    );
}

/// A run that comes as a stream waits in a file without a name. Killed before it has lost
/// its name, the command leaves it to the next one; on a full disk there is none.
#[test]
fn a_stream_that_waits() {
    let folder = Folder::begun(2000);
    let names = folder.names();
    let stopped = |call: &str, fate: &str| {
        let options = format!("-qq -o trace -e trace={call} -e inject={call}:{fate}");
        let store = "head -c 3000000 /dev/zero | strace";
        folder.shell(&format!(
            "{store} {options} station store run.disc 0; echo $?; rm trace"
        ))
    };
    for (call, left) in [("unlink", 1), ("write", 0)] {
        stopped(call, "signal=KILL:when=1");
        assert_eq!(folder.names().len(), names.len() + left, "{call}");
        folder.done("space run.disc");
        assert_eq!(folder.names(), names);
    }
    for when in 1..4 {
        let told = stopped("write", &format!("error=ENOSPC:when={when}"));
        assert!(
            told.contains(" cannot be written: its disk is full\n"),
            "{told}"
        );
        assert!(told.ends_with("\n73\n"), "{told}");
        assert_eq!(folder.names(), names);
    }
    let told = folder.shell("head -c 3000000 /dev/zero | station store run.disc 0");
    assert!(told.starts_with("run of 3000000 bytes"), "{told}");
}

/// A disk that knows no locks: nothing is made, and nothing left.
#[test]
fn a_disk_without_locks() {
    let folder = Folder::example();
    let names = folder.names();
    let no_locks = "strace -qq -o /dev/null -e trace=flock -e inject=flock:error=ENOLCK:when=3+";
    let told = folder.shell(&format!("{no_locks} station export run.disc made"));
    assert!(
        told.starts_with("station: made cannot be written: no lock: "),
        "{told}"
    );
    assert_eq!(folder.names(), names);
}

/// Whoever may not write there reads all the same.
#[test]
fn a_folder_that_is_protected() {
    let folder = Folder::example();
    folder.put(PARTS[1], b"half");
    let told = folder.run_without_privileges("list run.disc");
    assert_eq!((told.status, told.err.as_str()), (0, ""));
    assert!(folder.path(PARTS[1]).exists());
}

/// Permissions of the file that it was to replace do not keep it from being removed.
#[test]
fn a_file_that_is_made_again() {
    let folder = Folder::example();
    folder.put("made.station-part", b"half");
    let narrow = fs::Permissions::from_mode(0o400);
    fs::set_permissions(folder.path("made.station-part"), narrow).expect("permissions");
    folder.done("export run.disc made");
    let names = ["made", "run.disc", "run.disc.ledger", "run.disc.roles"];
    assert_eq!(folder.names(), names);
    // Also where it is not made, since it is there.
    folder.put("made.station-part", b"half");
    folder.fails_again("export run.disc made");
    assert_eq!(folder.names(), names);
}

/// On a disk where a file has one name, an empty file takes it first. Beside what was
/// left in the making it is ours, and another empty file is not.
#[test]
fn a_disk_without_second_names() {
    let one_name = "-e trace=linkat,/rename -e inject=linkat:error=EPERM";
    let folder = Folder::new();
    let run = |line: &str| folder.shell(&format!("strace -qq -o trace {line}; rm -f trace"));
    let told = run(&format!("{one_name} station new whole 31"));
    assert_eq!(told, "blank disc, 31 sectors\n");
    run(&format!(
        "{one_name} -e inject=/rename:signal=KILL station new made 31"
    ));
    assert_eq!(folder.names(), ["made", "made.station-part", "whole"]);
    assert_eq!(folder.bytes("made"), b"");
    assert_eq!(folder.done("new made 31"), "blank disc, 31 sectors\n");
    assert_eq!(folder.names(), ["made", "whole"]);
    folder.put("empty", b"");
    assert!(folder
        .fails("new empty 31", 73)
        .contains("it is there already"));
}

/// A disc by such a name would be taken for one that was left.
#[test]
fn names_in_the_making() {
    let folder = Folder::example();
    for line in ["new x.station-part 31", "export run.disc x.station-part"] {
        let told = folder.fails(line, 73);
        assert!(told.contains("a name that ends in .station-part is for the program"));
    }
    folder.put("made.station-part", b"half");
    let told = folder.shell("flock made.station-part station new made 31");
    let fault = "another command is making it, in made.station-part";
    assert_eq!(told, format!("station: made cannot be written: {fault}\n"));
}

impl Folder {
    /// The file is there already.
    fn fails_again(&self, line: &str) {
        assert_eq!(self.run(line).status, 73, "{line}");
    }
}
