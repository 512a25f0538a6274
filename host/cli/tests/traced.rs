//! The program stopped at each of its system calls that write, and the same calls
//! failing as on a full disk: what is left is what a power cut may leave.

mod common;

use std::collections::BTreeMap;
use std::fs;
use std::io::Write;
use std::os::unix::process::ExitStatusExt;
use std::path::PathBuf;
use std::process::{Command, Stdio};

use common::{disc_file, Folder, CLOSE_SESSION, STATION};
use station::{LEDGER, SECTOR};

/// Every call by which the program, or a library below it, could change a file. A
/// question mark says that a machine may be without it.
const WRITING: [&str; 17] = [
    "write",
    "pwrite64",
    "writev",
    "?pwritev",
    "fdatasync",
    "fsync",
    "?rename",
    "renameat",
    "?link",
    "linkat",
    "?renameat2",
    "?unlink",
    "unlinkat",
    "ftruncate",
    "fallocate",
    "fchmod",
    "msync",
];

const KILLED: &str = "signal=KILL";
const DISK_FULL: &str = "error=ENOSPC";

/// How the program ended: killed, or with an exit status.
#[derive(Debug, PartialEq)]
enum End {
    Killed,
    Status(i32),
}

/// Runs the line, and at the nth of these calls the program meets the fate.
fn run_traced(folder: &Folder, line: &str, call: &str, nth: usize, fate: &str) -> End {
    let fate = format!("inject={call}:{fate}:when={nth}");
    run_strace(folder, line, &["-e", &format!("trace={call}"), "-e", &fate]).0
}

/// Runs the line under strace with these options; the end, and what was traced.
fn run_strace(folder: &Folder, line: &str, options: &[&str]) -> (End, String) {
    let mut command = Command::new("strace");
    command.args(["-qq", "-o", "trace"]).args(options);
    command.arg(STATION).args(line.split_whitespace());
    command.current_dir(&folder.0);
    command.stdin(Stdio::piped()).stdout(Stdio::null());
    let child = command.stderr(Stdio::piped()).spawn();
    let mut child = child.unwrap_or_else(|error| panic!("strace does not start: {error}"));
    let mut input = child.stdin.take().expect("a pipe");
    let _ = input.write_all(&[0xC3; SECTOR]);
    drop(input);
    let output = child.wait_with_output().expect("an end");
    let told = String::from_utf8_lossy(&output.stderr);
    assert!(!told.contains("strace:"), "strace cannot trace: {told}");
    let traced = fs::read_to_string(folder.path("trace")).expect("what was traced");
    fs::remove_file(folder.path("trace")).expect("what was traced");
    let end = match (output.status.code(), output.status.signal()) {
        (Some(status), _) => End::Status(status),
        (None, signal) => {
            assert_eq!(signal, Some(9), "{told}");
            End::Killed
        }
    };
    (end, traced)
}

fn is_part(name: &str) -> bool {
    name.ends_with(".station-part")
}

/// Disc, ledger and roles, and what is shown of them.
struct Known {
    disc: Vec<u8>,
    ledger: Option<Vec<u8>>,
    /// The role file, if it is believed.
    roles: Option<Vec<u8>>,
    shown: Vec<String>,
}

impl Known {
    fn of(folder: &Folder) -> Known {
        let start = folder.files();
        let known = Known {
            disc: folder.bytes("run.disc"),
            ledger: fs::read(folder.path("run.disc.ledger")).ok(),
            roles: believed_roles(folder),
            shown: shown(folder),
        };
        restore(folder, &start);
        known
    }

    /// The digits of the kinds, and where the image starts.
    fn kinds(&self) -> (&[u8], usize) {
        let line = self.disc[9..].split(|byte| *byte == b'\n').next();
        let digits = line.expect("a line");
        (digits, 9 + digits.len() + 1)
    }

    fn recorded(&self) -> usize {
        let (digits, _) = self.kinds();
        digits.iter().take_while(|digit| **digit != b'0').count()
    }
}

/// The role file, if the program tells of it where the space went.
fn believed_roles(folder: &Folder) -> Option<Vec<u8>> {
    let told = folder.run("space run.disc");
    assert!([0, 69].contains(&told.status), "{told:?}");
    (told.status == 0).then(|| folder.bytes("run.disc.roles"))
}

/// What a mount, a listing, two reads and a look back say, but for whether
/// something stands behind the newest save, and what of it a ledger still knows; of a
/// refusal its number. Where there is no save, reads would show what is not saved.
fn shown(folder: &Folder) -> Vec<String> {
    let lines = "mount run.disc;list run.disc;read run.disc 0;read run.disc 1;\
                 look-back run.disc 1;read run.disc 0";
    let mut shown = Vec::new();
    for line in lines.split(';') {
        let told = folder.run(line.trim());
        let text = String::from_utf8_lossy(&told.out);
        let text = text.replace("clean", "").replace("dirty", "");
        let left_out = |line: &&str| line.contains("since the last save");
        let text: Vec<&str> = text.lines().filter(|line| !left_out(line)).collect();
        shown.push(format!("{} {}", told.status, text.join("\n")));
        if told.status == 7 && line.starts_with("list") {
            break;
        }
    }
    shown
}

fn restore(folder: &Folder, files: &BTreeMap<PathBuf, Vec<u8>>) {
    for path in folder.files().keys() {
        fs::remove_file(path).expect("a file");
    }
    for (path, bytes) in files {
        fs::write(path, bytes).expect("a file as it was");
    }
}

/// "A cut keeps the first j of them": the disc is such a one, its ledger fits or
/// is refused, and what is shown is the last finished save.
fn judge(folder: &Folder, line: &str, before: &Known, after: &Known) {
    let left = Known::of(folder);
    let kept = left.recorded();
    assert!((before.recorded()..=after.recorded()).contains(&kept));
    let ((digits, image), (all, _)) = (left.kinds(), after.kinds());
    assert_eq!(digits[..kept], all[..kept], "{line}");
    assert!(digits[kept..].iter().all(|digit| *digit == b'0'));
    for block in (0..kept).filter(|block| digits[*block] == b'1') {
        let place = image + block * SECTOR;
        let bytes = place..place + SECTOR;
        assert!(left.disc[bytes.clone()] == after.disc[bytes], "{line}");
    }
    let whole = kept == after.recorded();
    if left.ledger == before.ledger && kept > before.recorded() {
        assert_eq!(folder.run("read run.disc 1").status, 4, "{line}");
    } else if left.ledger != before.ledger {
        assert!(left.ledger == after.ledger, "{line}");
        assert!(whole || left.ledger.is_none(), "{line}: a ledger ahead");
    }
    if left.roles.is_some() {
        let same = |other: &Known| {
            let disc_and_ledger = kept == other.recorded() && left.ledger == other.ledger;
            disc_and_ledger && left.roles == other.roles
        };
        assert!(same(before) || same(after), "{line}: roles of no command");
    }
    let saves = line.starts_with("commit") || line.starts_with("close-session");
    let saved = whole && saves;
    let expected = if saved { &after.shown } else { &before.shown };
    assert_eq!(&left.shown, expected, "{line}");
}

/// A line, the files that it starts from, and what is known before and after it.
struct Trial<'a> {
    folder: &'a Folder,
    line: &'a str,
    start: BTreeMap<PathBuf, Vec<u8>>,
    before: Known,
    after: Known,
}

impl Trial<'_> {
    fn of<'a>(folder: &'a Folder, line: &'a str) -> Trial<'a> {
        let start = folder.files();
        let before = Known::of(folder);
        let told = folder.run_with(line, &[0xC3; SECTOR]);
        assert_eq!(told.status, 0, "{line}: {}", told.err);
        let after = Known::of(folder);
        Trial {
            folder,
            line,
            start,
            before,
            after,
        }
    }

    /// Stops the line at the nth of these calls, if it comes so far.
    fn stops(&self, call: &str, nth: usize, fate: &str) -> bool {
        let (folder, line) = (self.folder, self.line);
        restore(folder, &self.start);
        let end = run_traced(folder, line, call, nth, fate);
        judge(folder, line, &self.before, &self.after);
        let names = folder.names();
        let parts = names.iter().filter(|name| is_part(name)).count();
        match end {
            End::Status(0) => return false,
            End::Status(status) => {
                assert!([73, 74].contains(&status) && parts == 0, "{line}: {status}");
            }
            End::Killed => {
                assert!(parts <= 2, "{line}");
                folder.run("list run.disc");
                assert!(!folder.names().iter().any(|name| is_part(name)), "{line}");
            }
        }
        true
    }

    /// At each call of this name; how often.
    fn stops_at_each(&self, call: &str, fate: &str) -> usize {
        (1..).take_while(|nth| self.stops(call, *nth, fate)).count()
    }
}

/// Stops the line at each call of each name, from the same files; how often.
fn stop_everywhere(folder: &Folder, line: &str, fate: &str) -> usize {
    let trial = Trial::of(folder, line);
    let stopped = WRITING.map(|call| trial.stops_at_each(call, fate));
    restore(folder, &trial.start);
    stopped.iter().sum()
}

/// The names of the calls that write, in order, of a line that is done.
fn calls_of(folder: &Folder, line: &str) -> Vec<String> {
    let all = format!("trace={}", WRITING.join(","));
    let (end, traced) = run_strace(folder, line, &["-e", &all]);
    assert_eq!(end, End::Status(0), "{line}");
    let names = traced.lines().filter_map(|call| call.split('(').next());
    // The name of the call by which the library does so is its own affair.
    let one_name = |name: &str| {
        let same = ["rename", "link", "unlink"].into_iter();
        let mut same = same.filter(|one| name.starts_with(one));
        same.next().unwrap_or(name).to_string()
    };
    names.map(one_name).collect()
}

const MADE_BESIDE: [&str; 3] = ["write", "fchmod", "fsync"];
const NAMED: [&str; 2] = ["rename", "fsync"];
const TOLD: [&str; 1] = ["write"];

/// The copy of the ledger, and one stretch or two.
const ROLES_CHANGED: [&str; 3] = ["pwrite64", "pwrite64", "fdatasync"];
const ROLES_AND_OLD_ONE: [&str; 4] = ["pwrite64", "pwrite64", "pwrite64", "fdatasync"];

/// Bytes, flush, digits, flush, roles, flush; around it the ledger, made before and
/// named after.
#[test]
fn the_order_of_the_medium() {
    let folder = Folder::example();
    let recorded = ["pwrite64", "fdatasync", "pwrite64", "fdatasync"];
    for line in [
        "write run.disc 0",
        "commit run.disc",
        "commit run.disc --now",
    ] {
        let whole = [&MADE_BESIDE[..], &recorded, &ROLES_CHANGED, &NAMED, &TOLD];
        let whole = whole.concat();
        assert_eq!(calls_of(&folder, line), whole, "{line}");
    }
    let copied = ["pwrite64", "fdatasync"];
    let alone = [&MADE_BESIDE[..], &copied, &NAMED, &TOLD].concat();
    assert_eq!(calls_of(&folder, "close run.disc"), alone);
    // The copy is on the disk before the role is changed.
    let twice = copied.repeat(2);
    let alone = [&MADE_BESIDE[..], &twice, &NAMED, &TOLD].concat();
    assert_eq!(calls_of(&folder, "release run.disc 0"), alone);
    let anew = [&MADE_BESIDE[..], &MADE_BESIDE, &NAMED, &NAMED, &TOLD].concat();
    assert_eq!(calls_of(&folder, "mount run.disc"), anew);
    assert_eq!(calls_of(&folder, "look-back run.disc 1"), anew);
    for line in [
        "read run.disc 1",
        "time run.disc 0",
        "list run.disc --times",
        "space run.disc",
        "map run.disc",
    ] {
        assert_eq!(calls_of(&folder, line), TOLD, "{line}");
    }
}

/// The word comes before all of it, and then 257 data sectors: the pointer, the
/// zeros and the table. Their digits lie across two pieces of the file.
#[test]
fn the_order_of_a_closing() {
    let folder = recorded(800, 400);
    let bytes = [["pwrite64"; 257].as_slice(), &["fdatasync"]].concat();
    let digits = ["pwrite64", "fdatasync"].repeat(2);
    let whole = [
        &TOLD[..],
        &MADE_BESIDE,
        &bytes,
        &digits,
        &ROLES_CHANGED,
        &NAMED,
        &TOLD,
    ];
    assert_eq!(calls_of(&folder, CLOSE_SESSION), whole.concat());
}

/// 200 blocks and the entry in one go, as if one call had recorded them. Their digits
/// lie across two pieces of the file.
#[test]
fn the_order_of_a_store() {
    let folder = recorded(800, 400);
    folder.put("run", &RUN);
    let bytes = [["pwrite64"; 201].as_slice(), &["fdatasync"]].concat();
    let digits = ["pwrite64", "fdatasync"].repeat(2);
    let roles = &ROLES_AND_OLD_ONE;
    let whole = [&MADE_BESIDE[..], &bytes, &digits, roles, &NAMED, &TOLD];
    assert_eq!(calls_of(&folder, STORE), whole.concat());
    assert_eq!(calls_of(&folder, "view run.disc 1 --length 9"), TOLD);
}

/// A run of 200 blocks, and the line that stores it.
static RUN: [u8; 200 * SECTOR - 9] = [0xB4; 200 * SECTOR - 9];
const STORE: &str = "store run.disc 1 --from run";

/// The command lines, each on the example with its packet closed.
const LINES: [(&str, usize); 10] = [
    ("write run.disc 0", 12),
    ("store run.disc 0", 13),
    ("commit run.disc", 12),
    ("commit run.disc --at 2026-11-15T14:05+01:00", 12),
    ("mount run.disc", 10),
    ("release run.disc 1", 9),
    ("close run.disc", 7),
    ("look-back run.disc 1", 10),
    ("cut 3 --torn commit run.disc", 6),
    ("cut 8 write run.disc 0", 7),
];

#[test]
fn killed_at_each_call_that_writes() {
    let folder = Folder::example_on(60);
    folder.done("close run.disc");
    for (line, least) in LINES {
        let stopped = stop_everywhere(&folder, line, KILLED);
        assert!(stopped >= least, "{line}: killed {stopped} times");
    }
}

#[test]
fn killed_before_the_first_save() {
    let folder = Folder::begun(31);
    for (line, least) in [("begin run.disc", 10), ("write run.disc 0", 12)] {
        let stopped = stop_everywhere(&folder, line, KILLED);
        assert!(stopped >= least, "{line}: killed {stopped} times");
    }
    folder.done_with("write run.disc 0", &[7; SECTOR]);
    let stopped = stop_everywhere(&folder, "commit run.disc", KILLED);
    assert!(stopped >= 12, "killed {stopped} times");
}

#[test]
fn each_call_that_writes_meets_a_full_disk() {
    let folder = Folder::example_on(60);
    folder.done("close run.disc");
    for (line, least) in LINES {
        let stopped = stop_everywhere(&folder, line, DISK_FULL);
        assert!(stopped >= least - 1, "{line}: failed {stopped} times");
    }
}

/// A disc of so many sectors, with two saves among those that are recorded, and its
/// packet closed.
fn recorded(sectors: usize, recorded: usize) -> Folder {
    let (mut image, mut kinds) = (vec![0; sectors * SECTOR], vec![0; sectors]);
    let (mut roles, mut ledger) = (vec![0; kinds.len()], [0; LEDGER]);
    let (i, k, r, l) = (&mut image, &mut kinds, &mut roles, &mut ledger);
    station::begin(i, k, r, l).expect("begin");
    for v in [0, 1] {
        let block = [v as u8; SECTOR];
        station::write(i, k, r, l, v, &block).expect("write");
        station::commit(i, k, r, l).expect("commit");
    }
    for _ in 4..recorded {
        station::write(i, k, r, l, 0, &[9; SECTOR]).expect("write");
    }
    let folder = Folder::new();
    folder.put("run.disc", &disc_file(&kinds, &image));
    folder.done("mount run.disc");
    folder
}

/// The digits of these eight sectors lie across two pieces of 512 bytes of the
/// file, and take two writes.
#[test]
fn killed_between_the_digits() {
    let folder = recorded(540, 500);
    for line in ["commit run.disc", "write run.disc 0"] {
        let stopped = stop_everywhere(&folder, line, KILLED);
        assert!(stopped >= 14, "{line}: killed {stopped} times");
    }
}

/// Stopped at some of the writes into disc and role file, the last of which is the one
/// before `end`, and at each other call that writes.
fn stopped_within(trial: &Trial, writes: &[usize], end: usize) {
    for fate in [KILLED, DISK_FULL] {
        for &nth in writes {
            assert!(trial.stops("pwrite64", nth, fate), "{nth}");
        }
        assert!(!trial.stops("pwrite64", end, fate));
        let others = WRITING.into_iter().filter(|call| *call != "pwrite64");
        let stopped: usize = others.map(|call| trial.stops_at_each(call, fate)).sum();
        assert!(stopped >= 8, "{fate}: {stopped} times");
    }
}

/// At the pointer, at sectors of zeros, at the table, at the digits of both pieces,
/// and at the roles.
#[test]
fn stopped_within_a_closing() {
    let folder = recorded(800, 400);
    let trial = Trial::of(&folder, CLOSE_SESSION);
    stopped_within(&trial, &[1, 2, 129, 256, 257, 258, 259, 260, 261], 262);
}

/// At blocks of the run, at its entry, at the digits of both pieces, and at the
/// roles.
#[test]
fn stopped_within_a_store() {
    let folder = recorded(800, 400);
    folder.put("run", &RUN);
    let trial = Trial::of(&folder, STORE);
    stopped_within(&trial, &[1, 2, 100, 200, 201, 202, 203, 204, 205, 206], 207);
}

/// A run that becomes shorter while it is read, or whose disk fails, is told of by
/// its own name, and nothing is recorded.
#[test]
fn a_run_that_cannot_be_read_to_its_end() {
    let folder = recorded(800, 400);
    folder.put("run", &RUN);
    let start = folder.files();
    let run = fs::canonicalize(folder.path("run")).expect("the run");
    let run = run.to_str().expect("text");
    for (fate, when) in [("retval=0", 2), ("error=EIO", 1), ("error=EIO", 9)] {
        let fate = format!("inject=read:{fate}:when={when}");
        let options = ["-P", run, "-e", "trace=read", "-e", &fate];
        let (end, traced) = run_strace(&folder, STORE, &options);
        assert_eq!(end, End::Status(66), "{traced}");
        assert!(folder.files() == start, "{fate}");
    }
}

/// A view puts its bytes into a file in one step: the old one or the new one is
/// there, whole.
#[test]
fn a_file_that_is_viewed_is_whole() {
    let folder = recorded(800, 400);
    folder.put("run", &RUN);
    folder.done(STORE);
    folder.put("shown", b"old");
    let start = folder.files();
    let mut stopped = 0;
    for (call, fate) in WRITING
        .map(|call| [(call, KILLED), (call, DISK_FULL)])
        .concat()
    {
        for nth in 1.. {
            restore(&folder, &start);
            let end = run_traced(
                &folder,
                "view run.disc 1 --to shown --replace",
                call,
                nth,
                fate,
            );
            let shown = folder.bytes("shown");
            assert!(shown == b"old" || shown == RUN, "{call} {nth}");
            match end {
                End::Status(0) => break,
                End::Status(status) => assert_eq!((status, folder.names().len()), (73, 5)),
                End::Killed => {}
            }
            stopped += 1;
        }
    }
    assert!(stopped >= 20, "{stopped} times");
}

/// The commands that make a file, on the example with a deck's image beside it.
const MADE: [&str; 3] = [
    "new made 31",
    "import deck.img made --start 2 --sectors 31",
    "export run.disc made",
];

fn example_and_deck() -> Folder {
    let folder = Folder::example();
    folder.put("deck.img", &[0xC3; 14 * SECTOR]);
    folder
}

/// It is on the disk before it takes its name.
#[test]
fn the_order_of_making() {
    for line in MADE {
        let calls = calls_of(&example_and_deck(), line);
        let filled = calls.iter().filter(|call| *call == "pwrite64").count();
        let filled = vec!["pwrite64"; filled.max(1)];
        let named = ["fsync", "link", "unlink", "fsync", "write"];
        let whole = [&["ftruncate"], &filled[..], &named].concat();
        assert_eq!(calls, whole, "{line}");
    }
}

/// A command that is killed leaves the file whole, or none. On a full disk there is
/// none, unless only the answer cannot be told (74).
#[test]
fn a_file_that_is_made_is_whole_or_none() {
    let folder = example_and_deck();
    let start = folder.files();
    for line in MADE {
        folder.done(line);
        let (whole, made) = (folder.files(), folder.bytes("made"));
        let mut stopped = 0;
        for (call, fate) in WRITING
            .map(|call| [(call, KILLED), (call, DISK_FULL)])
            .concat()
        {
            for nth in 1.. {
                restore(&folder, &start);
                match run_traced(&folder, line, call, nth, fate) {
                    End::Status(0) => break,
                    End::Status(73) => assert!(folder.files() == start, "{line}"),
                    End::Status(74) => assert!(folder.files() == whole, "{line}"),
                    End::Status(status) => panic!("{line}: {status}"),
                    End::Killed => {
                        let left = fs::read(folder.path("made"));
                        assert!(left.map_or(true, |left| left == made), "{line}");
                        assert!([0, 73].contains(&folder.run(line).status), "{line}");
                        assert!(folder.files() == whole, "{line} after it was killed");
                    }
                }
                stopped += 1;
            }
        }
        restore(&folder, &start);
        assert!(stopped >= 12, "{line}: stopped {stopped} times");
    }
}

/// An image that becomes shorter while it is copied, or whose disk fails, is told
/// of by its own name, and nothing is made.
#[test]
fn an_image_that_cannot_be_read_to_its_end() {
    let folder = example_and_deck();
    let start = folder.files();
    let image = fs::canonicalize(folder.path("deck.img")).expect("the image");
    let image = image.to_str().expect("text");
    for fate in ["retval=0", "error=EIO"] {
        let fate = format!("inject=pread64:{fate}");
        let options = ["-P", image, "-e", "trace=pread64", "-e", &fate];
        let (end, traced) = run_strace(&folder, MADE[1], &options);
        assert_eq!(end, End::Status(66), "{traced}");
        assert!(folder.files() == start, "{fate}");
    }
}
