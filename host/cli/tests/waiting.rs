//! Waiting is told on a terminal: for the keyboard, for another command, and for a long
//! run. Where nobody sees it nothing is told, as every other test shows.

mod common;

use common::Folder;

/// What a terminal shows of the line, and what is typed there.
fn on_a_terminal(folder: &Folder, typed: &str, line: &str) -> String {
    folder.shell(&format!(
        "printf '{typed}' | script -qec '{line}' /dev/null"
    ))
}

#[test]
fn for_the_keyboard() {
    let folder = Folder::begun(60);
    for (line, what, told) in [
        ("write run.disc 0 --pad", "the block", "block 0"),
        ("store run.disc 1", "the run", "run of 6 bytes in 1 block"),
    ] {
        let shown = on_a_terminal(&folder, "run A\\n", &format!("station {line}"));
        let asked = format!("station: reading {what} from the keyboard; end with Ctrl-D");
        assert!(shown.contains(&asked) && shown.contains(told), "{shown}");
    }
    // Not of a file, nor of a pipe.
    folder.put("block", b"run B");
    for line in [
        "station write run.disc 0 --pad --from block",
        "cat block | station store run.disc 0",
    ] {
        let shown = on_a_terminal(&folder, "", line);
        assert!(!shown.contains("keyboard"), "{shown}");
    }
    // Nor of a number that is refused.
    let shown = on_a_terminal(&folder, "", "station store run.disc 7");
    assert!(
        shown.contains("refusal 12") && !shown.contains("keyboard"),
        "{shown}"
    );
}

#[test]
fn for_another_command() {
    let folder = Folder::example();
    let held = "flock . sh -c \"touch held; sleep 1; rm held\" & \
                while [ ! -e held ]; do sleep 0.01; done";
    for (line, disc) in [
        ("list run.disc", "run.disc"),
        ("new other.disc 31", "other.disc"),
    ] {
        let shown = folder.shell(&format!(
            "{held}; script -qec 'station {line}' /dev/null; wait"
        ));
        let told = format!("station: waiting for another command on {disc} or beside it\r\n");
        assert!(shown.starts_with(&told), "{shown}");
        assert_eq!(shown.matches("waiting").count(), 1, "{shown}");
    }
    let shown = folder.shell(&format!("{held}; station list run.disc; wait"));
    assert!(!shown.contains("waiting"), "{shown}");
}

/// A line that is written over, and nothing of it at the end.
#[test]
fn for_a_long_run() {
    let folder = Folder::begun(4000);
    let slow =
        "mkfifo pipe; (head -c 3000000 /dev/zero; sleep 0.6; head -c 2500000 /dev/zero) > pipe &";
    let shown = folder.shell(&format!(
        "{slow} script -qec 'station store run.disc 0 --from pipe' /dev/null; rm pipe"
    ));
    assert!(shown.contains("\r3 MB read\r"), "{shown:?}");
    let last = "\rrun of 5500000 bytes in 2,686 blocks, entry at block 2686\r\n";
    assert!(shown.ends_with(last), "{shown:?}");
}
