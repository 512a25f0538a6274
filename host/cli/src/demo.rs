//! A worked example that runs: document 01's disc of 31, then a power cut
//! inside a commit, and the last finished save after it; and on another disc a run
//! longer than a block.

use std::env;
use std::ffi::OsString;
use std::fs;
use std::io::ErrorKind;
use std::path::{Path, PathBuf};
use std::process;

use crate::arguments::Arguments;
use crate::failure::{Done, Failure};
use crate::names::shown;
use crate::surroundings::{say, Surroundings};

/// What runs one command line.
type Run = fn(&[OsString], &mut Surroundings) -> Done;

/// The disc files' names, as they are shown.
const DISC: &str = "run.disc";
const LONG_DISC: &str = "long.disc";

/// One line of the demo.
enum Step {
    Remark(&'static str),
    /// The words behind `station`.
    Plain(&'static str),
    /// A line of text, written as this number.
    Write(u32, &'static str),
    /// What this number reads, without the padding.
    Read(u32),
    /// The numbers from 1 to this one, a line each, stored as number 0.
    Store(u32),
    /// The last line of the run that number 0 shows.
    View,
}

use Step::{Plain, Read, Remark, Store, View, Write};

static STEPS: [Step; 46] = [
    Remark("A blank disc of 31 sectors; two runs, three saves."),
    Plain("new run.disc 31"),
    Plain("begin run.disc"),
    Write(0, "run A"),
    Plain("commit run.disc"),
    Write(1, "run B"),
    Plain("release run.disc 0"),
    Plain("commit run.disc"),
    Plain("close run.disc"),
    Plain("commit run.disc"),
    Plain("list run.disc"),
    Remark("Another run; the power fails inside its save, after 3 of 8 sectors."),
    Write(0, "run C"),
    Plain("close run.disc"),
    Plain("cut 3 commit run.disc"),
    Remark("The ledger is lost: nothing is shown before a mount."),
    Read(1),
    Remark("The mount shows the last finished save. Run C was never saved."),
    Plain("mount run.disc"),
    Read(1),
    Read(0),
    Remark("One commit makes the disc clean, for readers that look less far back."),
    Remark("This save carries its time; those before it have none."),
    Plain("commit run.disc --at 2026-11-15T16:20+01:00"),
    Plain("list run.disc --times"),
    Remark("The first save is still there."),
    Plain("look-back run.disc 3"),
    Read(0),
    Write(0, "run D"),
    Remark("Looking back changes nothing; a mount ends it."),
    Plain("mount run.disc"),
    Read(1),
    Remark("A run of 1,000 values is longer than a block; another disc has room for it."),
    Plain("new long.disc 60"),
    Plain("begin long.disc"),
    Store(1000),
    Plain("commit long.disc"),
    Remark("It is driven again, with 2,000 values."),
    Store(2000),
    Plain("commit long.disc"),
    View,
    Remark("Where the space of this disc went; the first run still takes its part."),
    Plain("space long.disc"),
    Remark("The save before still shows the first run."),
    Plain("look-back long.disc 1"),
    View,
];

impl Step {
    /// What an operator types.
    fn typed(&self) -> String {
        match self {
            Remark(text) => format!("# {text}"),
            Plain(words) => format!("$ station {words}"),
            Write(v, text) => format!("$ printf '{text}\\n' | station write {DISC} {v} --pad"),
            Read(v) => format!("$ station read {DISC} {v} | tr -d '\\0'"),
            Store(last) => format!("$ seq {last} | station store {LONG_DISC} 0"),
            View => format!("$ station view {LONG_DISC} 0 | tail -n 1"),
        }
    }

    /// What the program is given for it, and on standard input.
    fn words(&self, folder: &Path) -> (Vec<OsString>, String) {
        let (words, input) = match self {
            Remark(_) => (String::new(), String::new()),
            Plain(words) => (words.to_string(), String::new()),
            Write(v, text) => (format!("write {DISC} {v} --pad"), format!("{text}\n")),
            Read(v) => (format!("read {DISC} {v}"), String::new()),
            Store(last) => {
                let lines = (1..=*last).map(|value| format!("{value}\n"));
                (format!("store {LONG_DISC} 0"), lines.collect())
            }
            View => (format!("view {LONG_DISC} 0"), String::new()),
        };
        let in_folder = |word: &str| match word {
            DISC | LONG_DISC => folder.join(word).into_os_string(),
            _ => word.into(),
        };
        (words.split_whitespace().map(in_folder).collect(), input)
    }

    /// What the terminal then shows: the answer, or the words of a refusal.
    fn shown(
        &self,
        folder: &Path,
        run: Run,
        around: &mut Surroundings,
    ) -> Result<Vec<u8>, Failure> {
        let (words, input) = self.words(folder);
        let mut shown = Vec::new();
        if words.is_empty() {
            return Ok(shown);
        }
        let mut inner = Surroundings {
            input: &mut input.as_bytes(),
            input_length: None,
            typed: false,
            output: &mut shown,
            screen: around.screen,
            aside: around.aside,
            watched: around.watched,
            disk: around.disk,
        };
        match run(&words, &mut inner) {
            // The demo's folder is not what is typed.
            Err(refused @ Failure::Refused(..)) => {
                let in_folder = format!("{}/", folder.display());
                let told = refused.to_string().replace(&in_folder, "");
                shown.extend(told.bytes());
            }
            outcome => outcome?,
        }
        match self {
            Read(_) => shown.retain(|byte| *byte != 0),
            View => shown = last_line(&shown),
            _ => {}
        }
        Ok(shown)
    }
}

fn last_line(text: &[u8]) -> Vec<u8> {
    let mut lines = text.split_inclusive(|byte| *byte == b'\n');
    lines.next_back().unwrap_or_default().to_vec()
}

pub fn demo(given: &Arguments, around: &mut Surroundings, run: Run) -> Done {
    let Some(folder) = given.value("--keep").map(Path::new) else {
        let temporary = Temporary::new()?;
        return play(&temporary.0, around, run);
    };
    fs::create_dir_all(folder).map_err(|error| Failure::unwritable(folder, error))?;
    play(folder, around, run)?;
    say(around, format!("# The files are in {}.\n", shown(folder)))
}

fn play(folder: &Path, around: &mut Surroundings, run: Run) -> Done {
    for step in &STEPS {
        say(around, format!("{}\n", step.typed()))?;
        let shown = step.shown(folder, run, around)?;
        say(around, shown)?;
    }
    Ok(())
}

/// A folder that is removed with all that it holds.
struct Temporary(PathBuf);

impl Temporary {
    fn new() -> Result<Temporary, Failure> {
        let mut number = process::id();
        loop {
            let path = env::temp_dir().join(format!("station-demo-{number}"));
            match fs::create_dir(&path) {
                Ok(()) => return Ok(Temporary(path)),
                // Left by a demo that was killed.
                Err(error) if error.kind() == ErrorKind::AlreadyExists => {
                    number = number.wrapping_add(1);
                }
                Err(error) => return Err(Failure::unwritable(&path, error)),
            }
        }
    }
}

impl Drop for Temporary {
    fn drop(&mut self) {
        // The demo was shown; what cannot be removed does no harm.
        let _ = fs::remove_dir_all(&self.0);
    }
}
