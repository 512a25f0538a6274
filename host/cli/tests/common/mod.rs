//! The program, run in a temporary folder of its own, and its files.

// Each test file uses its own part of these.
#![allow(dead_code)]

pub mod older;
pub mod refusals;

use std::collections::{BTreeMap, BTreeSet};
use std::env;
use std::fs;
use std::io::{ErrorKind, Write};
use std::os::unix::fs::{MetadataExt, PermissionsExt};
use std::os::unix::process::CommandExt;
use std::path::{Path, PathBuf};
use std::process::{self, Command, Stdio};
use std::sync::atomic::{AtomicUsize, Ordering};
use std::sync::Mutex;

use station::{LEDGER, SECTOR};

pub const STATION: &str = env!("CARGO_BIN_EXE_station");

/// Document 01, "The listing program".
pub const EXAMPLE_LISTING: &str = "   k   block  size  used
   0      11     2     1
   1       3     2     1
   2       1     1     1
clean
";

/// Bytes of a ledger file: the ledger, and the mark of the disc that it belongs to.
pub const LEDGER_FILE: usize = LEDGER + 8;

/// A closing, with the numbers of a disc of mkudffs.
pub const CLOSE_SESSION: &str =
    "close-session run.disc --main 32768,96 --reserve 32768,240 --start 257";

/// The proved listing program; `rt run`, in crates/list, makes it.
const PROVED_LISTING: &str = concat!(env!("CARGO_MANIFEST_DIR"), "/../../crates/list/out/list");

/// Bytes of a disc file of 31 sectors, the most that it takes.
const MOST_LISTED: usize = 9 + 31 + 1 + 31 * SECTOR;

/// The discs that both have listed.
static LISTED: Mutex<BTreeSet<Vec<u8>>> = Mutex::new(BTreeSet::new());

/// A temporary folder, removed with all that it holds.
pub struct Folder(pub PathBuf);

/// Tests of one run stand side by side, so each folder has its own number.
static FOLDERS: AtomicUsize = AtomicUsize::new(0);

/// The superuser, who may do anything to any file, and the user and group that
/// Debian gives to those who own none.
const SUPERUSER: u32 = 0;
const NOBODY: u32 = 65_534;

/// What a command told.
#[derive(Debug)]
pub struct Told {
    pub status: i32,
    pub out: Vec<u8>,
    pub err: String,
}

impl Folder {
    pub fn new() -> Folder {
        loop {
            let number = FOLDERS.fetch_add(1, Ordering::Relaxed);
            let name = format!("station-cli-{}-{number}", process::id());
            let path = env::temp_dir().join(name);
            match fs::create_dir(&path) {
                Ok(()) => return Folder(path),
                // Left by a run that was stopped and had the same process id.
                Err(error) if error.kind() == ErrorKind::AlreadyExists => continue,
                Err(error) => panic!("no temporary folder {path:?}: {error}"),
            }
        }
    }

    pub fn path(&self, name: &str) -> PathBuf {
        self.0.join(name)
    }

    /// Runs the program with these words and this standard input.
    pub fn run_with(&self, line: &str, input: &[u8]) -> Told {
        let mut command = Command::new(STATION);
        command.args(line.split_whitespace()).current_dir(&self.0);
        let told = finish(&mut command, input);
        self.hold_listings_together();
        told
    }

    /// The program's listing of each disc here that the proved listing program
    /// takes is the same as that program's.
    fn hold_listings_together(&self) {
        for bytes in self.small_discs() {
            let new = LISTED.lock().map(|mut seen| seen.insert(bytes.clone()));
            if new.unwrap_or(true) {
                // A copy: a command at the same time may change the disc.
                let copy = Folder::new();
                copy.put("copy.disc", &bytes);
                let mut command = Command::new(STATION);
                command.args(["list", "copy.disc"]).current_dir(&copy.0);
                let told = finish(&mut command, b"");
                let proved = finish(&mut Command::new(PROVED_LISTING), &bytes);
                assert_eq!(told.out, proved.out);
            }
        }
    }

    /// What files with a disc's name hold, if they are not longer than a disc of
    /// 31 sectors.
    fn small_discs(&self) -> Vec<Vec<u8>> {
        let entries = fs::read_dir(&self.0).expect("the folder");
        let paths = entries.filter_map(|entry| Some(entry.ok()?.path()));
        let discs = paths.filter(|path| path.extension().is_some_and(|end| end == "disc"));
        let small = |path: &PathBuf| {
            fs::metadata(path).is_ok_and(|about| about.len() <= MOST_LISTED as u64)
        };
        let read = discs.filter(small).map(fs::read);
        read.filter_map(Result::ok).collect()
    }

    pub fn run(&self, line: &str) -> Told {
        self.run_with(line, b"")
    }

    /// The same by somebody whom permissions bind: if the tests are run by the
    /// superuser, by nobody. Nobody may not look where the program was built, so
    /// a copy is run, in a folder that is open to all.
    pub fn run_without_privileges(&self, line: &str) -> Told {
        let owner = fs::metadata(&self.0).expect("the folder").uid();
        if owner != SUPERUSER {
            return self.run(line);
        }
        let program = Folder::new();
        for folder in [self, &program] {
            let open = fs::Permissions::from_mode(0o755);
            fs::set_permissions(&folder.0, open).expect("permissions");
        }
        // By another process: a child that a test beside this one has just made would
        // have a copy of ours open for writing, and what is so open cannot be run.
        let copied = Command::new("cp").arg(STATION).arg(&program.0).status();
        assert!(copied.is_ok_and(|status| status.success()), "no copy");
        let mut command = Command::new(program.path("station"));
        command.args(line.split_whitespace()).current_dir(&self.0);
        finish(command.uid(NOBODY).gid(NOBODY), b"")
    }

    /// A command that must be done, and what it tells.
    pub fn done_with(&self, line: &str, input: &[u8]) -> Vec<u8> {
        let told = self.run_with(line, input);
        assert_eq!((told.status, told.err.as_str()), (0, ""), "{line}");
        told.out
    }

    pub fn done(&self, line: &str) -> String {
        String::from_utf8(self.done_with(line, b"")).expect("text")
    }

    /// A text, padded, written as a number.
    pub fn write(&self, v: u32, text: &str) -> String {
        let line = format!("write run.disc {v} --pad");
        String::from_utf8(self.done_with(&line, text.as_bytes())).expect("text")
    }

    /// A command that must fail with this status, tell nothing on standard
    /// output and leave every file as it is; what it says.
    pub fn fails_with(&self, line: &str, input: &[u8], status: i32) -> String {
        let before = self.files();
        let told = self.run_with(line, input);
        assert_eq!(told.status, status, "{line}: {}", told.err);
        assert_eq!(told.out, b"", "{line}");
        assert!(self.files() == before, "{line} changed a file");
        told.err
    }

    pub fn fails(&self, line: &str, status: i32) -> String {
        self.fails_with(line, b"", status)
    }

    /// Runs a line as an operator types it; all that the terminal shows. Debian puts
    /// mkudffs where tools of administrators are.
    pub fn shell(&self, line: &str) -> String {
        let program = Path::new(STATION).parent().expect("a folder");
        let path = env::var("PATH").unwrap_or_default();
        let mut command = Command::new("sh");
        command.arg("-c").arg(format!("exec 2>&1; {line}"));
        command.env("PATH", format!("{}:{path}:/usr/sbin", program.display()));
        command.current_dir(&self.0);
        let told = finish(&mut command, b"");
        String::from_utf8(told.out).expect("text")
    }

    /// Every file in the folder with its bytes.
    pub fn files(&self) -> BTreeMap<PathBuf, Vec<u8>> {
        let entries = fs::read_dir(&self.0).expect("the folder");
        let paths = entries.map(|entry| entry.expect("an entry").path());
        let files = paths.filter(|path| path.is_file());
        files
            .map(|path| (path.clone(), fs::read(path).expect("a file")))
            .collect()
    }

    pub fn names(&self) -> Vec<String> {
        let name = |path: &PathBuf| path.file_name().expect("a name").to_string_lossy().into();
        self.files().keys().map(name).collect()
    }

    pub fn bytes(&self, name: &str) -> Vec<u8> {
        fs::read(self.path(name)).expect(name)
    }

    pub fn put(&self, name: &str, bytes: &[u8]) {
        fs::write(self.path(name), bytes).expect(name);
    }

    /// Blank, and begun.
    pub fn begun(sectors: usize) -> Folder {
        let folder = Folder::new();
        folder.done(&format!("new run.disc {sectors}"));
        folder.done("begin run.disc");
        folder
    }

    /// With these saves, made in this order, each at the time that is typed.
    pub fn saved_at(sectors: usize, times: &[&str]) -> Folder {
        let folder = Folder::begun(sectors);
        for time in times {
            folder.done(&format!("commit run.disc --at {time}"));
        }
        folder
    }

    /// Document 01's example, "A blank disc of 31: begin, write 0, commit, write 1,
    /// release 0, commit, close packet, commit".
    pub fn example() -> Folder {
        Folder::example_on(31)
    }

    /// The same on a disc of so many sectors: on one of 31 it leaves no room for a write
    /// behind links.
    pub fn example_on(sectors: usize) -> Folder {
        let folder = Folder::begun(sectors);
        assert_eq!(folder.write(0, "run A"), "block 0\n");
        folder.done("commit run.disc");
        assert_eq!(folder.write(1, "run B"), "block 2\n");
        for line in ["release run.disc 0", "commit run.disc", "close run.disc"] {
            folder.done(line);
        }
        folder.done("commit run.disc");
        folder
    }

    /// A disc on which so many numbers are written, one after another from block 0 on, and
    /// saved, by the core itself; without a ledger.
    pub fn numbered(sectors: usize, numbers: u32) -> Folder {
        let (mut image, mut kinds) = (vec![0; sectors * SECTOR], vec![0; sectors]);
        let (mut roles, mut ledger) = (vec![0; sectors], [0; LEDGER]);
        let (i, k, r, l) = (&mut image, &mut kinds, &mut roles, &mut ledger);
        station::begin(i, k, r, l).expect("begin");
        for v in 0..numbers {
            let block = padded(&format!("run {v}"));
            station::write(i, k, r, l, v, &block).expect("write");
        }
        station::commit(i, k, r, l).expect("commit");
        let folder = Folder::new();
        folder.put("run.disc", &disc_file(&kinds, &image));
        folder
    }

    /// A save, then a run that is not saved, and the packet open.
    pub fn to_be_closed(sectors: usize) -> Folder {
        let folder = Folder::begun(sectors);
        folder.write(0, "run A");
        folder.done("commit run.disc");
        assert_eq!(folder.write(1, "run B"), "block 2\n");
        folder
    }

    /// The same, closed.
    pub fn closed() -> Folder {
        let folder = Folder::to_be_closed(300);
        let told = folder.run(CLOSE_SESSION);
        assert_eq!(told.status, 0, "{told:?}");
        folder
    }

    /// The ledger beside `run.disc`, without the mark of the disc behind it.
    pub fn ledger(&self) -> Vec<u8> {
        let file = self.bytes("run.disc.ledger");
        assert_eq!(file.len(), LEDGER_FILE);
        file[..LEDGER].to_vec()
    }

    /// The roles beside `run.disc`, without the copy of the ledger file before them.
    pub fn roles(&self) -> Vec<u8> {
        let file = self.bytes("run.disc.roles");
        assert!(file.starts_with(&self.bytes("run.disc.ledger")));
        file[LEDGER_FILE..].to_vec()
    }

    /// One sector's bytes of `run.disc`.
    pub fn sector(&self, block: usize) -> Vec<u8> {
        let file = self.bytes("run.disc");
        let sectors = self.kinds().len();
        file[9 + sectors + 1 + block * SECTOR..][..SECTOR].to_vec()
    }

    /// The digits of `run.disc`.
    pub fn kinds(&self) -> String {
        let file = self.bytes("run.disc");
        let line = file[9..].split(|byte| *byte == b'\n').next();
        String::from_utf8(line.expect("a line").to_vec()).expect("digits")
    }

    /// Another digit for one sector of `run.disc`.
    pub fn set_kind(&self, block: usize, digit: u8) {
        let mut file = self.bytes("run.disc");
        file[9 + block] = digit;
        self.put("run.disc", &file);
    }
}

impl Drop for Folder {
    fn drop(&mut self) {
        // A folder that cannot be removed is no failure of the program.
        let _ = fs::remove_dir_all(&self.0);
    }
}

/// Gives the input, and waits for the end.
fn finish(command: &mut Command, input: &[u8]) -> Told {
    command.stdin(Stdio::piped());
    command.stdout(Stdio::piped()).stderr(Stdio::piped());
    let child = command.spawn();
    let mut child = child.unwrap_or_else(|error| panic!("{command:?} does not start: {error}"));
    let mut stdin = child.stdin.take().expect("a pipe");
    // A command that takes no input may be gone already.
    let _ = stdin.write_all(input);
    drop(stdin);
    let output = child.wait_with_output().expect("the program ends");
    Told {
        status: output.status.code().expect("an exit status"),
        out: output.stdout,
        err: String::from_utf8(output.stderr).expect("text"),
    }
}

/// A text as a block.
pub fn padded(text: &str) -> Vec<u8> {
    let mut block = text.as_bytes().to_vec();
    block.resize(SECTOR, 0);
    block
}

/// The disc file of these kinds and this image.
pub fn disc_file(kinds: &[u8], image: &[u8]) -> Vec<u8> {
    let mut file = format!("{:8}\n", kinds.len()).into_bytes();
    file.extend(kinds.iter().map(|kind| kind + b'0'));
    file.push(b'\n');
    file.extend(image);
    file
}
