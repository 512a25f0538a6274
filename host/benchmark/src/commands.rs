//! The commands of the program `station`, each as an operator runs it, beside a
//! copy of the same disc file.

use std::env;
use std::fs::{self, File};
use std::io::{self, Write};
use std::path::{Path, PathBuf};
use std::process::{self, Command, Stdio};
use std::time::{Duration, Instant};

use station::{LEDGER, SECTOR};

use crate::report::thousands;

/// How often each command is run: as often as half of the smallest disc allows, of
/// which a write leaves 264 sectors.
const ROUNDS: usize = 12;

/// Numbers in use.
const NUMBERS: u32 = 458;

/// Bytes of the run that is stored and viewed.
const RUN: usize = 65_536;

/// Copies come last: they leave the disk much to write.
const COPIES: usize = 5;
const COPY: &str = "`cp` of the disc file";

/// The lines of one round, in order, with what a row calls them. A disc is mounted
/// after a look back and after a cut, and saved before a mount that is to find it
/// clean.
const LINES: [(&str, &str); 26] = [
    ("new", "new blank.disc SECTORS"),
    ("begin, blank disc", "begin blank.disc"),
    (
        "close-session, blank disc",
        "close-session blank.disc --main 32768,96 --reserve 32768,240 --start 257",
    ),
    ("", "new stored.disc SECTORS"),
    ("", "begin stored.disc"),
    (
        "store, 65,536 bytes, blank disc",
        "store stored.disc 0 --from run",
    ),
    ("view, 65,536 bytes", "view stored.disc 0 --to /dev/null"),
    ("write, after a mount", "write run.disc 0 --from block"),
    ("write, packet open", "write run.disc 1 --from block"),
    ("release", "release run.disc 2"),
    ("", "write run.disc 2 --from block"),
    ("close", "close run.disc"),
    ("commit, after a close", "commit run.disc"),
    ("commit, packet open", "commit run.disc"),
    ("commit --at", "commit run.disc --at 2026-11-16T14:05+01:00"),
    ("time 0", "time run.disc 0"),
    ("read", "read run.disc 7 --to /dev/null"),
    ("read --back 1", "read run.disc 7 --back 1 --to /dev/null"),
    ("status", "status run.disc"),
    ("contents", "contents run.disc"),
    ("look-back 1", "look-back run.disc 1"),
    ("list", "list run.disc"),
    ("mount, clean", "mount run.disc"),
    ("space", "space run.disc"),
    ("cut 0 commit", "cut 0 commit run.disc"),
    ("", "mount run.disc"),
];

pub const HOW: &str = "\
Each command is the whole program, from its start to its end, on a disc that is half full, with 458 numbers in use; the file is in
memory from the round before. Milliseconds, minimum and median of 12 rounds, each on the three discs in turn; then 5 copies of each disc file by `cp`,
which flushes nothing. `list` shows between 5 and 38 saves. `new`, `begin`, `close-session`, `store` and `view` are of blank discs made in each round.
";

/// A row of the table, with the times of each size.
struct Row {
    name: &'static str,
    times: Vec<Vec<Duration>>,
}

/// Runs the commands on discs of these sizes, in turn, so that other work on the
/// machine strikes all alike; and prints the table.
pub fn run(program: &Path, sizes: &[usize]) -> io::Result<()> {
    let discs = sizes
        .iter()
        .map(|sectors| Disc::half_full(*sectors, program));
    let discs: Vec<Disc> = discs.collect::<io::Result<_>>()?;
    let named = LINES.iter().filter(|(name, _)| !name.is_empty());
    let names = named.map(|(name, _)| *name).chain([COPY]);
    let times = vec![Vec::new(); sizes.len()];
    let row = |name| Row {
        name,
        times: times.clone(),
    };
    let mut rows: Vec<Row> = names.map(row).collect();
    for _ in 0..ROUNDS {
        for (place, disc) in discs.iter().enumerate() {
            disc.round(program, |name, took| note(&mut rows, name, place, took))?;
        }
    }
    for _ in 0..COPIES {
        for (place, disc) in discs.iter().enumerate() {
            note(&mut rows, COPY, place, disc.copy()?);
        }
    }
    println!("{HOW}\n{}", table(&rows, sizes));
    Ok(())
}

fn note(rows: &mut [Row], name: &str, place: usize, took: Duration) {
    let row = rows.iter_mut().find(|row| row.name == name);
    if let Some(row) = row {
        row.times[place].push(took);
    }
}

/// A disc in a folder of its own, which is removed with all that it holds.
struct Disc {
    folder: PathBuf,
    sectors: usize,
}

impl Disc {
    /// Mounted by the program, which keeps ledger and roles beside it.
    fn half_full(sectors: usize, program: &Path) -> io::Result<Disc> {
        let name = format!("station-commands-{}-{sectors}", process::id());
        let folder = env::temp_dir().join(name);
        fs::create_dir(&folder)?;
        let disc = Disc { folder, sectors };
        store_half_full(&disc.folder, sectors)?;
        timed(
            Command::new(program).args(["mount", "run.disc"]),
            &disc.folder,
        )?;
        Ok(disc)
    }

    fn round(&self, program: &Path, mut note: impl FnMut(&str, Duration)) -> io::Result<()> {
        for (name, line) in LINES {
            let line = line.replace("SECTORS", &self.sectors.to_string());
            let mut command = Command::new(program);
            note(name, timed(command.args(line.split(' ')), &self.folder)?);
        }
        for disc in ["blank.disc", "stored.disc"] {
            for beside in ["", ".ledger", ".roles"] {
                fs::remove_file(self.folder.join(format!("{disc}{beside}")))?;
            }
        }
        Ok(())
    }

    fn copy(&self) -> io::Result<Duration> {
        let mut copy = Command::new("cp");
        let took = timed(copy.args(["run.disc", "copy.disc"]), &self.folder)?;
        fs::remove_file(self.folder.join("copy.disc"))?;
        Ok(took)
    }
}

impl Drop for Disc {
    fn drop(&mut self) {
        // The figures were taken; what cannot be removed does no harm.
        let _ = fs::remove_dir_all(&self.folder);
    }
}

fn timed(command: &mut Command, folder: &Path) -> io::Result<Duration> {
    command.current_dir(folder).stdout(Stdio::null());
    let start = Instant::now();
    let output = command.stderr(Stdio::piped()).output()?;
    let took = start.elapsed();
    if output.status.success() {
        return Ok(took);
    }
    let said = String::from_utf8_lossy(&output.stderr);
    Err(io::Error::other(format!("{command:?}: {said}")))
}

/// A disc whose first half is recorded: all numbers written, over and over, and
/// saved twice; a block, and the bytes of a run.
fn store_half_full(folder: &Path, sectors: usize) -> io::Result<()> {
    let (image, kinds) = (&mut vec![0; sectors * SECTOR], &mut vec![0; sectors]);
    let (roles, ledger) = (&mut vec![0; sectors], &mut [0; LEDGER]);
    let refused = |refusal: station::Refusal| io::Error::other(refusal.to_string());
    station::begin(image, kinds, roles, ledger).map_err(refused)?;
    let half = sectors / 2;
    for v in (0..NUMBERS).cycle().take(half - 2) {
        station::write(image, kinds, roles, ledger, v, &[0x5A; SECTOR]).map_err(refused)?;
    }
    for _ in 0..2 {
        station::commit(image, kinds, roles, ledger).map_err(refused)?;
    }
    let digits: Vec<u8> = kinds.iter().map(|kind| kind + b'0').collect();
    let mut file = File::create(folder.join("run.disc"))?;
    file.write_all(format!("{sectors:8}\n").as_bytes())?;
    file.write_all(&digits)?;
    file.write_all(b"\n")?;
    file.write_all(&image[..half * SECTOR])?;
    file.set_len((9 + sectors + 1 + image.len()) as u64)?;
    file.sync_all()?;
    fs::write(folder.join("block"), [0xC3; SECTOR])?;
    fs::write(folder.join("run"), [0xC3; RUN])
}

fn table(rows: &[Row], sizes: &[usize]) -> String {
    let heads: Vec<String> = sizes
        .iter()
        .map(|sectors| format!(" {}: least | median |", thousands(*sectors)))
        .collect();
    let mut text = format!(
        "| command |{}\n|---|{}\n",
        heads.concat(),
        "--:|".repeat(2 * sizes.len())
    );
    for row in rows {
        text += &format!("| {} |", row.name);
        for times in &row.times {
            let mut sorted = times.clone();
            sorted.sort();
            let told = |time: Duration| format!(" {:.1} |", time.as_secs_f64() * 1000.0);
            text += &(told(sorted[0]) + &told(sorted[sorted.len() / 2]));
        }
        text.push('\n');
    }
    text
}
