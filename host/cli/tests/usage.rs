//! The command line: help, options, operands and numbers.

mod common;

use std::ffi::OsStr;
use std::os::unix::ffi::OsStrExt;
use std::process::Command;

use common::{Folder, STATION};
use station::SECTOR;

const COMMANDS: [&str; 23] = [
    "new",
    "begin",
    "mount",
    "write",
    "store",
    "release",
    "close",
    "commit",
    "close-session",
    "read",
    "view",
    "look-back",
    "time",
    "list",
    "status",
    "contents",
    "space",
    "map",
    "import",
    "export",
    "cut",
    "explain",
    "demo",
];

#[test]
fn help_of_the_program_and_of_each_command() {
    let folder = Folder::new();
    let program = folder.done("--help");
    assert_eq!(folder.done("-h"), program);
    for command in COMMANDS {
        assert!(program.contains(&format!("\n  {command} ")), "{command}");
        let help = folder.done(&format!("{command} --help"));
        assert!(help.starts_with(&format!("Usage: station {command} ")));
        assert_eq!(folder.done(&format!("{command} -h")), help);
        assert!(help.lines().all(|line| line.len() <= 80), "{command}");
    }
    for command in ["write", "store", "commit", "close-session"] {
        let help = folder.done(&format!("{command} --help"));
        assert_eq!(folder.done(&format!("cut 3 {command} --help")), help);
    }
    assert!(folder.names().is_empty());
}

#[test]
fn version() {
    let version = format!("station {}\n", env!("CARGO_PKG_VERSION"));
    assert_eq!(Folder::new().done("--version"), version);
    assert_eq!(Folder::new().done("-V"), version);
}

/// The words typed, the fault that is told, and the command whose help is
/// hinted at.
const WRONG: &str = "\
| a command is missing |
save run.disc | there is no command save |
wirte run.disc 0 | there is no command wirte: did you mean write? |
comit run.disc | there is no command comit: did you mean commit? |
lookback run.disc 0 | there is no command lookback: did you mean look-back? |
realese run.disc 1 | there is no command realese: did you mean release? |
umount run.disc | there is no command umount: did you mean mount? |
tiem run.disc 0 | there is no command tiem: did you mean time? |
times run.disc 0 | there is no command times: did you mean time? |
now run.disc | there is no command now: did you mean new? |
eject run.disc | there is no command eject |
stroe run.disc 0 | there is no command stroe: did you mean store? |
veiw run.disc 0 | there is no command veiw: did you mean view? |
sapce run.disc | there is no command sapce: did you mean space? |
mpa run.disc | there is no command mpa: did you mean map? |
space | space needs DISC | space
space run.disc 0 | space has no use for 0 | space
space run.disc --svg x | space has no option --svg | space
map | map needs DISC | map
map run.disc disc.svg | map has no use for disc.svg | map
map run.disc --svg | --svg needs a name behind it | map
--quiet mount run.disc | there is no option --quiet |
mount --quick run.disc | mount has no option --quick | mount
commit run.disc -f | commit has no option -f | commit
read run.disc -1 | V is a number from 0 to 4086: -1 is too small | read
write run.disc -5 --pad | V is a number from 0 to 4086: -5 is too small | write
look-back run.disc -99999999999999999999 | K is a number from 0 to 4294967295: -99999999999999999999 is too small | look-back
new other.disc -5 | SECTORS is a number from 1 to 360000: -5 is too small | new
cut -1 commit run.disc | J is a number from 0 to 4294967295: -1 is too small | cut
view run.disc 0 --offset -1 | --offset is a number from 0 to 18446744073709551615: -1 is too small | view
mount -5 | mount has no option -5 | mount
read -5 0 | read has no option -5 | read
read run.disc -x | read has no option -x | read
read run.disc -5x | read has no option -5x | read
read run.disc 0 -5 | read has no option -5 | read
write run.disc 0 --to x | write has no option --to | write
write run.disc 0 --pad=9 | --pad takes no value | write
write run.disc 0 --from | --from needs a name behind it | write
write run.disc 0 --pad --pad | --pad is given twice | write
begin run.disc --anyway=yes | --anyway takes no value | begin
mount run.disc --anyway | mount has no option --anyway | mount
read run.disc 1 --replace | --replace belongs to --to and a file | read
view run.disc 1 --to - --replace | --replace belongs to --to and a file | view
export run.disc run.img --replace | export has no option --replace | export
--version --quick | --version stands alone |
-V run.disc | -V stands alone |
--help mount | --help stands alone |
mount | mount needs DISC | mount
write run.disc | write needs V | write
store run.disc | store needs V | store
store run.disc 0 --pad | store has no option --pad | store
store run.disc 0 --to x | store has no option --to | store
view run.disc | view needs V | view
view run.disc 0 --offset | --offset needs a number behind it | view
view run.disc 0 --offset 1 --offset 2 | --offset is given twice | view
view run.disc 0 --offset x | --offset is a number from 0 to 18446744073709551615, not 'x' | view
view run.disc 0 --offset +1 | --offset is a number from 0 to 18446744073709551615, not '+1' | view
view run.disc 0 --length 18446744073709551616 | --length is a number from 0 to 18446744073709551615: 18446744073709551616 is too large | view
view run.disc 0 --from x | view has no option --from | view
view run.disc 4294967296 | V is a number from 0 to 4086: 4294967296 is too large | view
look-back run.disc | look-back needs K | look-back
time run.disc | time needs K | time
time run.disc 0 --utc | time has no option --utc | time
list run.disc --long=8 | --long takes no value | list
list run.disc --own | list has no option --own | list
commit run.disc --at | --at needs a time behind it | commit
commit run.disc --at 2026-11-15 | --at is a time such as 2026-11-15T14:05+01:00, not '2026-11-15' | commit
commit run.disc --at 2026-11-15 14:05 | commit has no use for 14:05 | commit
commit run.disc --at 2026-11-15T14:05 --at 2026-11-15T14:06 | --at is given twice | commit
commit run.disc --now 14:05 | commit has no use for 14:05 | commit
commit run.disc --now=14:05 | --now takes no value | commit
commit run.disc --now --now | --now is given twice | commit
commit run.disc --now --at 2026-11-15T14:05 | a save has one time: give --at or --now, not both | commit
commit run.disc --times | commit has no option --times | commit
list run.disc --time | list has no option --time | list
list run.disc --times=utc | --times takes no value | list
write run.disc 0 --now | write has no option --now | write
cut 0 commit run.disc --now --at 2026-11-15T14:05 | a save has one time: give --at or --now, not both | commit
cut 0 --now commit run.disc | cut has no option --now | cut
closesession run.disc | there is no command closesession: did you mean close-session? |
close-session | close-session needs DISC | close-session
close-session run.disc | close-session needs --main | close-session
close-session run.disc --main 1,2 | close-session needs --reserve | close-session
close-session run.disc --main 1,2 --reserve 3,4 | close-session needs --start | close-session
close-session run.disc --main | --main needs a length and a location behind it | close-session
close-session run.disc --main 1,2 --reserve 3,4 --start | --start needs a number behind it | close-session
close-session run.disc --main 1,2 --main 1,2 | --main is given twice | close-session
close-session run.disc --main 1 2 | close-session has no use for 2 | close-session
close-session run.disc --main 1,2 --reserve 3,4 --start 5 --now | close-session has no option --now | close-session
close run.disc --start 5 | close has no option --start | close
cut 0 close-session run.disc --main 1,2 | close-session needs --reserve | close-session
new run.disc | new needs SECTORS | new
import deck.img | import needs DISC | import
import deck.img deck.disc | import needs --start | import
import deck.img deck.disc --start | --start needs a number behind it | import
import deck.img deck.disc --start 0 --pad | import has no option --pad | import
export run.disc | export needs IMAGE | export
export run.disc run.img --start 0 | export has no option --start | export
exprot run.disc run.img | there is no command exprot: did you mean export? |
cut 1 commit | commit needs DISC | commit
mount run.disc 3 | mount has no use for 3 | mount
demo run.disc | demo has no use for run.disc | demo
demo --keep | --keep needs a name behind it | demo";

#[test]
fn wrong_command_lines() {
    let folder = Folder::example();
    for row in WRONG.lines() {
        let [line, fault, command] = row.split('|').collect::<Vec<_>>()[..] else {
            panic!("not three parts: {row}");
        };
        let hint = format!("station {} --help", command.trim()).replace("  ", " ");
        let told = format!("station: {}\nTry '{hint}'.\n", fault.trim());
        assert_eq!(folder.fails(line, 64), told, "{row}");
    }
}

/// Words that are no numbers, and numbers that are outside of every range.
const NO_NUMBERS: [(&str, &str); 9] = [
    ("x", ", not 'x'"),
    ("1x", ", not '1x'"),
    ("+1", ", not '+1'"),
    ("1.0", ", not '1.0'"),
    ("--1", ", not '--1'"),
    ("١", ", not '١'"),
    ("4294967296", ": 4294967296 is too large"),
    (
        "99999999999999999999",
        ": 99999999999999999999 is too large",
    ),
    ("-1", ": -1 is too small"),
];

/// What stands before a number, its name, and its true range.
const RANGES: [(&str, &str); 14] = [
    ("write run.disc", "V is a number from 0 to 4086"),
    ("store run.disc", "V is a number from 0 to 4086"),
    ("view run.disc", "V is a number from 0 to 4086"),
    ("explain", "N is a number from 1 to 20"),
    ("release run.disc", "V is a number from 0 to 4086"),
    ("read run.disc", "V is a number from 0 to 4086"),
    ("look-back run.disc", "K is a number from 0 to 4294967295"),
    ("time run.disc", "K is a number from 0 to 4294967295"),
    ("cut", "J is a number from 0 to 4294967295"),
    ("new other.disc", "SECTORS is a number from 1 to 360000"),
    (
        "import deck.img x.disc --start 0 --sectors",
        "--sectors is a number from 1 to 360000",
    ),
    // The image has five sectors.
    (
        "import deck.img x.disc --start",
        "--start is a number from 0 to 4",
    ),
    (
        "close-session run.disc --main 1,2 --reserve 3,4 --start",
        "--start is a number from 0 to 4294967295",
    ),
    (
        "close-session run.disc --start",
        "--start is a number from 0 to 4294967295",
    ),
];

#[test]
fn numbers_are_checked() {
    let folder = Folder::example();
    folder.put("deck.img", &[7; 5 * SECTOR]);
    let behind = |line: &str| match line {
        "cut" => " commit run.disc",
        "close-session run.disc --start" => " --main 1,2 --reserve 3,4",
        _ => "",
    };
    for (line, range) in RANGES {
        for (word, fault) in NO_NUMBERS {
            // Two dashes begin an option where an operand is wanted.
            let is_operand = !range.starts_with('-');
            if word == "--1" && is_operand {
                continue;
            }
            let told = folder.fails(&format!("{line} {word}{}", behind(line)), 64);
            let start = format!("station: {range}{fault}\nTry 'station ");
            assert!(told.starts_with(&start), "{told}");
        }
    }
    for (line, fault) in [
        (
            "new x.disc 0",
            "SECTORS is a number from 1 to 360000: 0 is too small",
        ),
        (
            "new x.disc 360001",
            "SECTORS is a number from 1 to 360000: 360001 is too large",
        ),
        (
            "import deck.img x.disc --start 0 --sectors 0",
            "--sectors is a number from 1 to 360000: 0 is too small",
        ),
        (
            "import deck.img x.disc --start 0 --sectors 360001",
            "--sectors is a number from 1 to 360000: 360001 is too large",
        ),
        (
            "import deck.img x.disc --start 5",
            "--start is a number from 0 to 4: 5 is too large",
        ),
        ("explain 0", "N is a number from 1 to 20: 0 is too small"),
        ("explain 21", "N is a number from 1 to 20: 21 is too large"),
    ] {
        let told = folder.fails(line, 64);
        assert!(told.starts_with(&format!("station: {fault}\n")), "{told}");
    }
    let empty = Command::new(STATION)
        .args(["read", "run.disc", ""])
        .status();
    assert_eq!(empty.expect("the program runs").code(), Some(64));
}

/// A length and a location, each a number of 32 bits, and a comma between them.
#[test]
fn extents_are_checked() {
    let folder = Folder::example();
    for extent in [
        "32768",
        ",",
        "32768,",
        ",96",
        "32768:96",
        "32768,96,1",
        "-1,96",
        "+1,96",
        "0x800,96",
        "4294967296,96",
        "32768,4294967296",
        "١,96",
    ] {
        let fault = format!(
            "is LENGTH,LOCATION, two numbers from 0 to 4294967295, not '{extent}'\n\
             Try 'station close-session --help'.\n"
        );
        let main = format!("close-session run.disc --main={extent} --reserve 3,4 --start 5");
        let told = folder.fails(&main, 64);
        assert_eq!(told, format!("station: --main {fault}"));
        let reserve = format!("close-session run.disc --main 1,2 --reserve {extent} --start 5");
        let told = folder.fails(&reserve, 64);
        assert_eq!(told, format!("station: --reserve {fault}"));
    }
    // The highest numbers have the form: the disc has no room.
    let most = "4294967295,4294967295";
    folder.fails(
        &format!("close-session run.disc --main {most} --reserve {most} --start 400000"),
        14,
    );
}

#[test]
fn two_dashes_end_the_options() {
    let folder = Folder::new();
    folder.done("new -- -run.disc 31");
    folder.done("begin -- -run.disc");
    folder.done_with("write --pad -- -run.disc 0", b"run A");
    folder.done("cut 0 -- commit -- -run.disc");
    assert_eq!(folder.names(), ["-run.disc"]);
    folder.fails("mount -run.disc", 64);
    folder.fails("mount -- -h", 66);
}

/// Names of files need not be text.
#[test]
fn names_of_any_bytes() {
    let folder = Folder::new();
    let name = OsStr::from_bytes(b"run\xFF.disc");
    for words in [&["new", "9"][..], &["begin"], &["commit"], &["list"]] {
        let mut command = Command::new(STATION);
        command.current_dir(&folder.0).arg(words[0]).arg(name);
        let output = command
            .args(&words[1..])
            .output()
            .expect("the program runs");
        assert!(output.status.success(), "{output:?}");
    }
    assert!(folder.path("").join(name).is_file());
}
