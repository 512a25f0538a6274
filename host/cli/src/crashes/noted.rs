//! A disk that notes each step, and every state that a crash can leave of them.

use std::cell::RefCell;
use std::rc::Rc;

use crate::disk::{Beside, Disk, Files, InPlace};
use crate::failure::Done;
use crate::progress::Progress;

/// The disk takes such a piece of a file whole or not at all.
const PIECE: usize = 512;

/// The most pieces of which all subsets are built. Of more, as two sectors have, some
/// are.
const MOST_PIECES: usize = 8;

#[derive(Clone, Debug)]
pub enum Step {
    Write(InPlace, usize, Vec<u8>),
    Flush(InPlace),
    Make(Beside, Vec<u8>),
    FlushMade(Beside),
    Name(Beside),
    Remove(Beside),
    FlushFolder,
}

pub type Steps = Rc<RefCell<Vec<Step>>>;

/// Takes each step on the files too, so that a command runs as it always does.
pub struct Noted {
    pub files: Files,
    pub steps: Steps,
}

impl Noted {
    fn note(&self, step: Step) {
        self.steps.borrow_mut().push(step);
    }
}

impl Disk for Noted {
    fn open(&mut self, file: InPlace) -> Done {
        self.files.open(file)
    }

    fn write(&mut self, file: InPlace, place: u64, bytes: &[u8]) -> Done {
        self.note(Step::Write(file, place as usize, bytes.to_vec()));
        self.files.write(file, place, bytes)
    }

    fn flush(&mut self, file: InPlace) -> Done {
        self.note(Step::Flush(file));
        self.files.flush(file)
    }

    fn make(&mut self, file: Beside, bytes: &[u8]) -> Done {
        self.note(Step::Make(file, bytes.to_vec()));
        self.files.make(file, bytes)
    }

    fn flush_made(&mut self, file: Beside) -> Done {
        self.note(Step::FlushMade(file));
        self.files.flush_made(file)
    }

    fn name(&mut self, file: Beside) -> Done {
        self.note(Step::Name(file));
        self.files.name(file)
    }

    fn remove(&mut self, file: Beside) -> Done {
        self.note(Step::Remove(file));
        self.files.remove(file)
    }

    fn flush_folder(&mut self) -> Done {
        self.note(Step::FlushFolder);
        self.files.flush_folder()
    }

    fn tell(&mut self, progress: Progress) {
        self.files.tell(progress);
    }
}

/// The three files, as they are found after a crash.
#[derive(Clone, Debug, PartialEq, Eq)]
pub struct State {
    pub disc: Vec<u8>,
    pub ledger: Option<Vec<u8>>,
    pub roles: Option<Vec<u8>>,
}

impl State {
    /// A file that is changed in place is there.
    fn in_place(&mut self, file: InPlace) -> &mut Vec<u8> {
        match file {
            InPlace::Disc => &mut self.disc,
            InPlace::Roles => self.roles.as_mut().expect("a role file"),
        }
    }

    fn beside(&mut self, file: Beside) -> &mut Option<Vec<u8>> {
        match file {
            Beside::Ledger => &mut self.ledger,
            Beside::Roles => &mut self.roles,
        }
    }
}

/// A file beside the disc, until the folder is flushed.
#[derive(Default)]
struct Renamed {
    /// One without a name, and whether it is flushed.
    made: Option<(Vec<u8>, bool)>,
    /// What the name may stand for.
    names: Vec<Option<Vec<u8>>>,
}

/// A piece of a file that waits for a flush.
type Piece = (InPlace, usize, Vec<u8>);

/// What is on the disk for certain, and what may be.
struct Model {
    certain: State,
    /// In the order of writing.
    waiting: Vec<Piece>,
    ledger: Renamed,
    roles: Renamed,
}

/// Every state that a crash before, between or after these steps can leave.
pub fn states(before: &State, steps: &[Step]) -> Vec<State> {
    let mut model = Model {
        certain: before.clone(),
        waiting: Vec::new(),
        ledger: Renamed::default(),
        roles: Renamed::default(),
    };
    let mut states = vec![before.clone()];
    let mut note = |model: &Model| {
        for state in model.states() {
            if !states.contains(&state) {
                states.push(state);
            }
        }
    };
    for step in steps {
        // Of what waits before a flush, all that waited earlier is a subset.
        if matches!(step, Step::Flush(_)) {
            note(&model);
        }
        model.take(step);
        if !matches!(step, Step::Write(..)) {
            note(&model);
        }
    }
    states
}

/// Of so many pieces, which are on the disk.
fn subsets(pieces: usize) -> Vec<Vec<bool>> {
    let subset = |has: &dyn Fn(usize) -> bool| (0..pieces).map(has).collect();
    if pieces <= MOST_PIECES {
        let all = 0..1 << pieces;
        return all
            .map(|bits: u32| subset(&|piece| bits >> piece & 1 == 1))
            .collect();
    }
    vec![
        subset(&|_| false),
        subset(&|_| true),
        subset(&|piece| piece > 0),
        subset(&|piece| piece + 1 < pieces),
        subset(&|piece| piece < pieces / 2),
        subset(&|piece| piece >= pieces / 2),
        subset(&|piece| piece % 2 == 0),
        subset(&|piece| piece % 3 != 0),
    ]
}

impl Model {
    fn renamed(&mut self, file: Beside) -> &mut Renamed {
        match file {
            Beside::Ledger => &mut self.ledger,
            Beside::Roles => &mut self.roles,
        }
    }

    fn take(&mut self, step: &Step) {
        match step {
            Step::Write(file, place, bytes) => self.write(*file, *place, bytes),
            Step::Flush(flushed) => {
                let (on_disk, waiting) = std::mem::take(&mut self.waiting)
                    .into_iter()
                    .partition(|(file, ..)| file == flushed);
                self.waiting = waiting;
                put_all(&mut self.certain, &on_disk);
            }
            Step::Make(file, bytes) => self.renamed(*file).made = Some((bytes.clone(), false)),
            Step::FlushMade(file) => {
                let made = self.renamed(*file).made.as_mut();
                made.expect("a file to flush").1 = true;
            }
            Step::Name(file) => {
                let renamed = self.renamed(*file);
                let (bytes, flushed) = renamed.made.take().expect("a file to name");
                // Of a file that was not flushed, the name may be all that is there.
                renamed.names.extend((!flushed).then_some(Some(Vec::new())));
                renamed.names.push(Some(bytes));
            }
            Step::Remove(file) => self.renamed(*file).names.push(None),
            Step::FlushFolder => {
                for file in [Beside::Ledger, Beside::Roles] {
                    let names = std::mem::take(&mut self.renamed(file).names);
                    if let Some(last) = names.into_iter().last() {
                        *self.certain.beside(file) = last;
                    }
                }
            }
        }
    }

    /// A piece that changes nothing makes no difference, whether it is on the disk or
    /// not, unless it waits behind another one for its place.
    fn write(&mut self, file: InPlace, place: usize, bytes: &[u8]) {
        let certain = self.certain.in_place(file);
        let waits = |from: usize| self.waiting.iter().any(|(_, place, _)| *place == from);
        let changes = |(place, bytes): &(usize, Vec<u8>)| {
            certain[*place..][..bytes.len()] != bytes[..] || waits(*place)
        };
        let pieces: Vec<(usize, Vec<u8>)> =
            pieces(place, bytes).into_iter().filter(changes).collect();
        let of_file = |(place, bytes)| (file, place, bytes);
        self.waiting.extend(pieces.into_iter().map(of_file));
    }

    fn states(&self) -> Vec<State> {
        let mut states = Vec::new();
        for subset in subsets(self.waiting.len()) {
            let mut state = self.certain.clone();
            let pieces = self.waiting.iter().zip(subset);
            let on_disk = pieces.filter(|(_, on_disk)| *on_disk);
            let on_disk: Vec<Piece> = on_disk.map(|(piece, _)| piece.clone()).collect();
            put_all(&mut state, &on_disk);
            for ledger in self.ledger.names.iter().chain([&state.ledger]) {
                for roles in self.roles.names.iter().chain([&state.roles]) {
                    states.push(State {
                        disc: state.disc.clone(),
                        ledger: ledger.clone(),
                        roles: roles.clone(),
                    });
                }
            }
        }
        states
    }
}

fn put_all(state: &mut State, pieces: &[Piece]) {
    for (file, place, bytes) in pieces {
        put(state.in_place(*file), *place, bytes);
    }
}

fn put(file: &mut [u8], place: usize, bytes: &[u8]) {
    file[place..place + bytes.len()].copy_from_slice(bytes);
}

/// A write, parted where the pieces of the file are.
fn pieces(mut place: usize, mut bytes: &[u8]) -> Vec<(usize, Vec<u8>)> {
    let mut pieces = Vec::new();
    while !bytes.is_empty() {
        let room = PIECE - place % PIECE;
        let (piece, behind) = bytes.split_at(room.min(bytes.len()));
        pieces.push((place, piece.to_vec()));
        place += piece.len();
        bytes = behind;
    }
    pieces
}
