//! A crash of the program or of the computer, at any moment: what it leaves is
//! what document 01 lets a power cut leave.

mod judge;
mod noted;

use std::cell::RefCell;
use std::collections::BTreeSet;
use std::env;
use std::ffi::OsString;
use std::fs::{self, File};
use std::path::PathBuf;
use std::process;
use std::rc::Rc;
use std::sync::atomic::{AtomicUsize, Ordering};

use station::{Extent, LEDGER, SECTOR};
use station_model::answer::Answer;
use station_model::book::{Ending, Fed, History};
use station_model::calls::Call;

use crate::commands::run;
use crate::failure::Done;
use crate::form::Disc;
use crate::mark::marked;
use crate::screen::Screen;
use crate::surroundings::Surroundings;
use noted::{states, Noted, State, Step, Steps};

static DESKS: AtomicUsize = AtomicUsize::new(0);

/// A folder with one disc, on which commands are run, and the book of them.
struct Desk {
    folder: PathBuf,
    book: History,
    /// How many states were judged.
    judged: usize,
}

/// A command line, the call that it makes, and whether it is cut.
struct Event {
    line: &'static str,
    call: Call,
    cut: bool,
}

const fn event(line: &'static str, call: Call) -> Event {
    let cut = false;
    Event { line, call, cut }
}

const fn cut(line: &'static str, call: Call) -> Event {
    let cut = true;
    Event { line, call, cut }
}

impl Desk {
    /// A disc of so many sectors, of which some are recorded: written as number
    /// 0, after a save of nothing, and not saved. Of so many numbers more each was
    /// released. Blank sectors hold bytes that no call records, so that each piece of a
    /// sector makes a difference.
    fn new(sectors: usize, recorded: usize, released: u32) -> Desk {
        let number = DESKS.fetch_add(1, Ordering::Relaxed);
        let folder = env::temp_dir().join(format!("station-crash-{}-{number}", process::id()));
        fs::create_dir(&folder).expect("a new folder");
        let mut desk = Desk {
            folder,
            book: History::begun(),
            judged: 0,
        };
        let (mut image, mut kinds) = (vec![0xEE; sectors * SECTOR], vec![0; sectors]);
        let (mut roles, mut ledger) = (vec![0; sectors], [0; LEDGER]);
        station::begin(&image, &kinds, &mut roles, &mut ledger).expect("begin");
        for place in 0..recorded {
            let (call, made) = match place {
                0 => {
                    let made = station::commit(&mut image, &mut kinds, &mut roles, &mut ledger);
                    (Call::Commit, made)
                }
                _ => {
                    let (image, kinds) = (&mut image, &mut kinds);
                    let made = station::write(image, kinds, &mut roles, &mut ledger, 0, &BLOCK);
                    (Call::Write(0), made)
                }
            };
            let ending = Ending::Answered(Answer::done(made.expect("done")));
            feed(&mut desk.book, call, &BLOCK, ending);
        }
        desk.release(&mut ledger, released);
        let digits: String = kinds.iter().map(u8::to_string).collect();
        let mut file = format!("{sectors:8}\n{digits}\n").into_bytes();
        file.extend(image);
        let mut state = State {
            disc: file,
            ledger: None,
            roles: None,
        };
        let ledger = marked(&desk.disc_of(&state), &ledger);
        state.roles = Some([&ledger[..], &roles].concat());
        state.ledger = Some(ledger);
        desk.put(&state);
        desk
    }

    /// As if so many numbers more had been written and released: their writes would take
    /// a sector each.
    fn release(&mut self, ledger: &mut [u8; LEDGER], released: u32) {
        let draft = self.book.draft.as_mut().expect("a draft");
        let size = draft.size() + released;
        draft.entries.resize(size as usize, None);
        ledger[LEDGER - 16..][..4].copy_from_slice(&size.to_le_bytes());
    }

    fn path(&self, name: &str) -> PathBuf {
        self.folder.join(name)
    }

    fn state(&self) -> State {
        State {
            disc: fs::read(self.path("run.disc")).expect("the disc"),
            ledger: fs::read(self.path("run.disc.ledger")).ok(),
            roles: fs::read(self.path("run.disc.roles")).ok(),
        }
    }

    fn put(&self, state: &State) {
        fs::write(self.path("run.disc"), &state.disc).expect("the disc");
        for (name, bytes) in [
            ("run.disc.ledger", &state.ledger),
            ("run.disc.roles", &state.roles),
        ] {
            match bytes {
                Some(bytes) => fs::write(self.path(name), bytes).expect(name),
                None => drop(fs::remove_file(self.path(name))),
            }
        }
    }

    /// Runs a command line that is done, and gives its steps.
    fn run(&self, line: &str) -> Vec<Step> {
        let (done, steps) = self.try_to_run(line);
        done.unwrap_or_else(|failure| panic!("{line}: {failure}"));
        steps
    }

    fn try_to_run(&self, line: &str) -> (Done, Vec<Step>) {
        let in_folder = |word: &str| match word {
            "run.disc" => self.path(word).into_os_string(),
            _ => word.into(),
        };
        let words: Vec<OsString> = line.split_whitespace().map(in_folder).collect();
        let steps: Steps = Rc::new(RefCell::new(Vec::new()));
        let noted = steps.clone();
        let input = if stores(line) { &RUN[..] } else { &BLOCK };
        let mut around = Surroundings {
            input: &mut &*input,
            input_length: None,
            typed: false,
            output: &mut Vec::new(),
            screen: Screen::PLAIN,
            aside: &mut Vec::new(),
            watched: false,
            disk: &move |files| {
                let steps = noted.clone();
                Box::new(Noted { files, steps })
            },
        };
        let done = run(&words, &mut around);
        let steps = steps.borrow();
        (done, steps.clone())
    }

    /// Runs a command, and judges every state that a crash in it can leave.
    fn take(&mut self, event: &Event) {
        let before = self.state();
        let steps = self.run(event.line);
        let after = self.state();
        let (old, new) = (self.disc_of(&before), self.disc_of(&after));
        let mut whole = self.book.clone();
        let recorded = judge::recorded(&new) as u32;
        let ending = match event.cut {
            true => Ending::Cut { vat_kept: false },
            false => Ending::Answered(Answer::done(recorded.saturating_sub(1))),
        };
        let written = written(event, recorded);
        feed(&mut whole, event.call, &written, ending);
        let left = states(&before, &steps);
        assert!(left.contains(&after), "the last state is the command's");
        let known = judge::believed((&after, &new)).is_some();
        assert_eq!(known, !event.cut, "{}", event.line);
        let mut discs = BTreeSet::new();
        for state in &left {
            let disc = self.disc_of(state);
            judge::ledger_is_safe((state, &disc), (&before, &old), (&after, &new));
            judge::roles_are_safe((state, &disc), (&before, &old), (&after, &new));
            if !discs.insert(&state.disc) {
                continue;
            }
            judge::is_a_cut(&disc, &old, &new);
            let vat_kept = !event.cut && judge::recorded(&disc) == recorded as usize;
            let mut book = self.book.clone();
            feed(&mut book, event.call, &written, Ending::Cut { vat_kept });
            judge::shows_the_book(&disc, &book);
            judge::lists_as_proved(state, &disc);
        }
        self.judged += left.len();
        self.book = whole;
        for state in &left {
            self.try_again(event, state, (&after, &new));
        }
        self.put(&after);
    }

    /// Where a crash left the roles unknown, what it wrote of them is not believed
    /// either when the same command is done after it, with the ledger that it was
    /// written for.
    fn try_again(&self, event: &Event, left: &State, after: judge::Loaded) {
        let disc = self.disc_of(left);
        if judge::believed((left, &disc)).is_some() {
            return;
        }
        self.put(left);
        if self.try_to_run(event.line).0.is_err() {
            return;
        }
        let state = self.state();
        let disc = self.disc_of(&state);
        if let Some(roles) = judge::believed((&state, &disc)) {
            let recorded = judge::recorded(&disc) == judge::recorded(after.1);
            assert!(
                !recorded || judge::believed(after) == Some(roles),
                "{}",
                event.line
            );
        }
    }

    /// The disc in a file of its own, as a command would load it.
    fn disc_of(&self, state: &State) -> Disc {
        let path = self.path("left.disc");
        // Another file each time: one that is loaded stays as it is.
        let _ = fs::remove_file(&path);
        fs::write(&path, &state.disc).expect("a copy");
        let file = File::open(&path).expect("the copy");
        Disc::load(&file, &path).unwrap_or_else(|failure| panic!("{failure}"))
    }
}

impl Drop for Desk {
    fn drop(&mut self) {
        // What cannot be removed does no harm.
        let _ = fs::remove_dir_all(&self.folder);
    }
}

const BLOCK: [u8; SECTOR] = [0xC3; SECTOR];

/// A run of three blocks, which a store is given.
const RUN: [u8; 2 * SECTOR + 9] = [0xB4; 2 * SECTOR + 9];

fn stores(line: &str) -> bool {
    line.contains("store ")
}

/// The numbered block that an event has recorded last, if it writes: of a store the
/// entry, since its other blocks have no number. Of a write that was cut the book
/// takes nothing.
fn written(event: &Event, recorded: u32) -> [u8; SECTOR] {
    if event.cut || !stores(event.line) {
        return BLOCK;
    }
    let extent = Extent {
        length: RUN.len() as u32,
        location: recorded - 4,
    };
    station::file_entry(&[extent], recorded - 1)
}

fn feed(book: &mut History, call: Call, written: &[u8; SECTOR], ending: Ending) {
    let written = matches!(call, Call::Write(_)).then_some(&written[..]);
    book.feed(&Fed {
        call,
        written,
        ending,
    });
}

#[test]
fn every_state_of_every_command() {
    let mut desk = Desk::new(60, 0, 0);
    let events = [
        event("write run.disc 0", Call::Write(0)),
        event("commit run.disc", Call::Commit),
        event("write run.disc 1", Call::Write(1)),
        event("release run.disc 0", Call::Release(0)),
        event("commit run.disc --at 2026-11-15T14:05", Call::Commit),
        event("close run.disc", Call::ClosePacket),
        event("commit run.disc --now", Call::Commit),
        event("look-back run.disc 2", Call::LookBack(2)),
        event("read run.disc 0", Call::Read(0)),
        event("time run.disc 1", Call::Read(0)),
        event("list run.disc --times", Call::Read(0)),
        event("mount run.disc", Call::Mount),
        event("write run.disc 0", Call::Write(0)),
        cut("cut 0 --torn commit run.disc", Call::Commit),
        event("mount run.disc", Call::Mount),
        cut("cut 3 --torn write run.disc 0", Call::Write(0)),
        event("mount run.disc", Call::Mount),
        cut("cut 5 commit run.disc --now", Call::Commit),
        event("mount run.disc", Call::Mount),
        event("commit run.disc", Call::Commit),
    ];
    for event in &events {
        desk.take(event);
    }
    println!("{} states judged", desk.judged);
    assert!(desk.judged > 250, "{}", desk.judged);
    assert_eq!(desk.book.pages.len(), 4);
}

/// A crash leaves the first sectors of a store, and the number as it was, until a
/// commit; so the run is viewed whole or not at all.
#[test]
fn every_state_of_a_store() {
    let mut desk = Desk::new(60, 0, 0);
    let events = [
        event("store run.disc 0", Call::Write(0)),
        event("commit run.disc", Call::Commit),
        event("view run.disc 0", Call::Read(0)),
        event("close run.disc", Call::ClosePacket),
        event("store run.disc 1", Call::Write(1)),
        event("commit run.disc", Call::Commit),
        event("store run.disc 0", Call::Write(0)),
        event("look-back run.disc 1", Call::LookBack(1)),
        event("view run.disc 0 --offset 7", Call::Read(0)),
        event("mount run.disc", Call::Mount),
        cut("cut 9 --torn store run.disc 0", Call::Write(0)),
        event("mount run.disc", Call::Mount),
        event("commit run.disc", Call::Commit),
    ];
    for event in &events {
        desk.take(event);
    }
    println!("{} states judged", desk.judged);
    assert!(desk.judged > 60, "{}", desk.judged);
    assert_eq!(desk.book.pages.len(), 3);
}

/// The digits of a command's eight or eleven sectors lie across two pieces of 512
/// bytes: the digit of block 503 is the first of the second piece.
#[test]
fn digits_across_two_pieces() {
    for recorded in 494..505 {
        for line in ["commit run.disc", "write run.disc 0", "store run.disc 0"] {
            let mut desk = Desk::new(540, recorded, 0);
            desk.take(&event("close run.disc", Call::ClosePacket));
            let call = if line.starts_with('c') {
                Call::Commit
            } else {
                Call::Write(0)
            };
            desk.take(&event(line, call));
            desk.take(&event("commit run.disc", Call::Commit));
        }
    }
}

/// Own sectors come before the table: a crash between them leaves the old save.
#[test]
fn every_state_of_a_large_save() {
    let mut desk = Desk::new(120, 3, 519);
    let events = [
        event("commit run.disc", Call::Commit),
        event("write run.disc 3", Call::Write(3)),
        event("commit run.disc --now", Call::Commit),
        event("close run.disc", Call::ClosePacket),
        event("commit run.disc", Call::Commit),
        event("look-back run.disc 2", Call::LookBack(2)),
        event("mount run.disc", Call::Mount),
        event("release run.disc 3", Call::Release(3)),
        cut("cut 8 --torn commit run.disc", Call::Commit),
        event("mount run.disc", Call::Mount),
        event("write run.disc 520", Call::Write(520)),
        cut("cut 1 commit run.disc", Call::Commit),
        event("mount run.disc", Call::Mount),
        event("commit run.disc", Call::Commit),
    ];
    for event in &events {
        desk.take(event);
    }
    println!("{} states judged", desk.judged);
    assert!(desk.judged > 100, "{}", desk.judged);
    assert_eq!(desk.book.pages.len(), 5);
}

/// Behind seven links, block 503 is the first of two own sectors, the second, or the
/// table, and its digit the first of the second piece.
#[test]
fn digits_of_a_large_save_across_two_pieces() {
    for recorded in 494..497 {
        let mut desk = Desk::new(540, recorded, 519);
        desk.take(&event("close run.disc", Call::ClosePacket));
        desk.take(&event("commit run.disc", Call::Commit));
    }
}

/// "In the cut rule a closing counts as a commit." The digits of its 264 sectors lie
/// across two pieces too.
#[test]
fn every_state_of_a_closing() {
    let mut desk = Desk::new(1200, 400, 0);
    let events = [
        event("close run.disc", Call::ClosePacket),
        cut(
            "cut 100 --torn close-session run.disc --main 32768,96 --reserve 32768,240 --start 257",
            Call::Commit,
        ),
        event("mount run.disc", Call::Mount),
        event("write run.disc 0", Call::Write(0)),
        event(
            "close-session run.disc --main 32768,96 --reserve 32768,240 --start 257",
            Call::Commit,
        ),
        event("mount run.disc", Call::Mount),
        event("read run.disc 0", Call::Read(0)),
    ];
    for event in &events {
        desk.take(event);
    }
    println!("{} states judged", desk.judged);
    assert!(desk.judged > 40, "{}", desk.judged);
    assert_eq!(desk.book.pages.len(), 2);
}

/// Before the first save: begin is done whatever is left.
#[test]
fn the_first_write_of_a_disc() {
    let mut desk = Desk::new(31, 0, 0);
    desk.take(&event("begin run.disc", Call::Begin));
    desk.take(&event("write run.disc 0", Call::Write(0)));
    desk.take(&event("begin run.disc --anyway", Call::Begin));
    desk.take(&event("write run.disc 0", Call::Write(0)));
}
