//! Debian's udftools, run as programs: `mkudffs`, a writer of UDF discs, and
//! `udfinfo`, a reader of them. Neither shares anything with the core.

use std::env;
use std::fs;
use std::io::ErrorKind;
use std::path::{Path, PathBuf};
use std::process::{self, Command, Output};
use std::sync::atomic::{AtomicUsize, Ordering};

/// A temporary folder, removed with all that it holds.
pub struct Folder(PathBuf);

/// Tests of one run stand side by side, so each folder has its own number.
static FOLDERS: AtomicUsize = AtomicUsize::new(0);

impl Folder {
    pub fn new() -> Folder {
        loop {
            let number = FOLDERS.fetch_add(1, Ordering::Relaxed);
            let name = format!("station-decks-{}-{number}", process::id());
            let path = env::temp_dir().join(name);
            match fs::create_dir(&path) {
                Ok(()) => return Folder(path),
                // Left by a run that was stopped and had the same process id.
                Err(error) if error.kind() == ErrorKind::AlreadyExists => continue,
                Err(error) => panic!("no temporary folder {path:?}: {error}"),
            }
        }
    }
}

impl Drop for Folder {
    fn drop(&mut self) {
        // A folder that cannot be removed is no failure of the core.
        let _ = fs::remove_dir_all(&self.0);
    }
}

/// A disc that `mkudffs` is to make: medium, UDF revision, size in blocks, and
/// other options.
#[derive(Clone, Copy, Debug)]
pub struct Recipe(
    pub &'static str,
    pub &'static str,
    pub u32,
    pub &'static [&'static str],
);

/// The bytes that `mkudffs` records: everything up to the last sector that it
/// writes, its VAT ICB. Its clock shows UTC.
pub fn written_by_mkudffs(recipe: Recipe) -> Vec<u8> {
    written_in_zone(recipe, "UTC0")
}

/// The same on a machine in another time zone, as the variable TZ names it.
pub fn written_in_zone(recipe: Recipe, zone: &str) -> Vec<u8> {
    let Recipe(medium, revision, blocks, options) = recipe;
    let folder = Folder::new();
    let file = folder.0.join("disc.img");
    let mut command = Command::new(tool("mkudffs"));
    // The encoding of names has to come first.
    command.args(["--utf8", "--new-file", "--blocksize=2048"]);
    command.arg(format!("--media-type={medium}"));
    command.arg(format!("--udfrev={revision}"));
    command.args(options).arg(&file).arg(blocks.to_string());
    let output = run(command.env("TZ", zone));
    let told = told(&output);
    assert!(
        output.status.success(),
        "{command:?}\n{told}expected: a disc"
    );
    fs::read(&file).expect("the disc that mkudffs made")
}

/// What `udfinfo` says of these bytes. Nothing but the file is given to it:
/// it has to find the table by itself.
pub fn udfinfo(disc: &[u8]) -> Report {
    let folder = Folder::new();
    let file = folder.0.join("disc.img");
    fs::write(&file, disc).expect("a disc image in the temporary folder");
    let mut command = Command::new(tool("udfinfo"));
    command.arg(&file);
    let output = run(&mut command);
    Report {
        command: format!("{command:?}"),
        lines: String::from_utf8_lossy(&output.stdout).into_owned(),
        remarks: String::from_utf8_lossy(&output.stderr).into_owned(),
    }
}

/// `udfinfo`'s answer: lines of key=value, and its remarks on standard error.
pub struct Report {
    command: String,
    lines: String,
    remarks: String,
}

impl Report {
    /// Fails unless the key has this value.
    pub fn expect(&self, key: &str, value: impl ToString) {
        let wanted = value.to_string();
        if self.value(key) != Some(&wanted) {
            self.fail(&format!("{key}={wanted}"));
        }
    }

    /// Fails unless udfinfo found an anchor at this sector, and no other.
    pub fn expect_anchor(&self, sector: usize) {
        let wanted = format!("start={sector}, blocks=1, type=ANCHOR");
        let mut anchors = self.lines.lines().filter(|line| line.contains("ANCHOR"));
        if anchors.next() != Some(&wanted) || anchors.next().is_some() {
            self.fail(&format!("{wanted}, and no other"));
        }
    }

    /// Fails unless the table is the file's last sector or not, as told. Of a
    /// table further ahead udfinfo says where it expected one.
    pub fn expect_vat_last(&self, last: bool) {
        let note = "Note: Found Virtual Allocation Table at block";
        if self.remarks.contains(note) == last {
            self.fail(&format!("the table is the last sector: {last}"));
        }
    }

    /// Fails on anything that udfinfo holds to be wrong with the disc.
    pub fn expect_no_complaint(&self) {
        self.expect_complaints(&[]);
    }

    /// Fails unless these are all its warnings, and there is no error.
    pub fn expect_complaints(&self, warnings: &[&str]) {
        let complaint = |line: &&str| line.contains("Warning:") || line.contains("Error:");
        let said = self.remarks.lines().filter(complaint);
        let wanted = warnings
            .iter()
            .map(|warning| format!("udfinfo: Warning: {warning}"));
        if !said.eq(wanted) {
            self.fail(&format!("no error, and of warnings {warnings:?}"));
        }
    }

    /// Fails unless udfinfo remarks this.
    pub fn expect_remark(&self, words: &str) {
        if !self.remarks.contains(words) {
            self.fail(&format!("a remark: {words}"));
        }
    }

    fn value(&self, key: &str) -> Option<&str> {
        let mut pairs = self.lines.lines().filter_map(|line| line.split_once('='));
        pairs.find(|(name, _)| *name == key).map(|(_, value)| value)
    }

    fn fail(&self, wanted: &str) -> ! {
        let Report {
            command,
            lines,
            remarks,
        } = self;
        panic!("{command}\n{lines}{remarks}expected: {wanted}")
    }
}

/// Runs the tool in the plain locale, so that its words are the same anywhere.
fn run(command: &mut Command) -> Output {
    match command.env("LC_ALL", "C").output() {
        Ok(output) => output,
        Err(error) => panic!("{command:?} does not run: {error}"),
    }
}

fn told(output: &Output) -> String {
    let lines = String::from_utf8_lossy(&output.stdout);
    let remarks = String::from_utf8_lossy(&output.stderr);
    format!("{lines}{remarks}")
}

/// The tool's file, on the PATH or where Debian puts tools of administrators.
fn tool(name: &str) -> PathBuf {
    let path = env::var_os("PATH").unwrap_or_default();
    let mut folders = env::split_paths(&path).chain([PathBuf::from("/usr/sbin")]);
    match folders.find(|folder| is_file(&folder.join(name))) {
        Some(folder) => folder.join(name),
        None => panic!("{name} is missing: install Debian's package udftools"),
    }
}

fn is_file(path: &Path) -> bool {
    path.metadata().is_ok_and(|found| found.is_file())
}
