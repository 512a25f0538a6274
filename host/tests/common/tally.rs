//! Counts of what random lists were made of, so that a run shows its reach.

use std::fmt;

use station_model::answer::Answer;
use station_model::book::History;
use station_model::calls::Call;

use super::closing::CLOSING;

/// The calls, in the order of their columns.
const NAMES: [&str; 13] = [
    "begin",
    "mount",
    "write",
    "unnumbered",
    "release",
    "close",
    "commit",
    "commit at",
    "read",
    "look",
    "time of",
    "closing",
    "view",
];
const CALLS: usize = NAMES.len();

/// Done, and refusals 1 to 20.
const OUTCOMES: usize = 21;

#[derive(Default)]
pub struct Tally {
    pub lists: usize,
    started_by_mount: usize,
    most_pages: usize,
    done: [usize; CALLS],
    cut: [usize; CALLS],
    refused: [usize; OUTCOMES],
    /// By the sectors that were kept: of a write or commit 0 to 16, as seven links,
    /// eight own sectors and an ICB are.
    cut_after: [usize; 17],
    /// Of a closing: no pointer, the pointer, all but the table, all.
    closing_cut: [usize; 4],
    /// Cuts tried beside the lists.
    pub beside: usize,
    /// Calls that may not follow a cut.
    pub skipped: usize,
}

impl Tally {
    pub fn started(&mut self, history: &History) {
        self.lists += 1;
        self.started_by_mount += history.pages.len();
    }

    pub fn ended(&mut self, history: &History) {
        self.most_pages = self.most_pages.max(history.pages.len());
    }

    pub fn answered(&mut self, call: Call, answer: Answer) {
        match answer.outcome {
            0 => self.done[column(call)] += 1,
            refusal => self.refused[refusal as usize] += 1,
        }
    }

    /// The call had so many sectors, and the first j were kept.
    pub fn cut(&mut self, call: Call, sectors: usize, j: usize) {
        self.cut[column(call)] += 1;
        match sectors.checked_sub(CLOSING) {
            None => self.cut_after[j] += 1,
            Some(links) if j <= links => self.closing_cut[0] += 1,
            Some(_) => self.closing_cut[3 - 2.min(sectors - j)] += 1,
        }
    }

    /// Events of lists, each compared with the book.
    pub fn events(&self) -> usize {
        let tallies = [&self.done[..], &self.refused[..], &self.cut[..]];
        tallies.concat().iter().sum()
    }

    /// Every call done and cut, a cut after each j up to links and two sectors, and
    /// every refusal: but a list's discs are sound (3). A save that records more of
    /// its own sectors is rare, and is cut in `large_cuts.rs`.
    pub fn covers_all(&self) -> bool {
        let met = |count: &usize| *count > 0;
        let refusals = (1..OUTCOMES).filter(|refusal| *refusal != 3);
        self.done.iter().all(met)
            && self.cut.iter().all(met)
            && self.cut_after[..=9].iter().all(met)
            && self.closing_cut.iter().all(met)
            && refusals.map(|refusal| &self.refused[refusal]).all(met)
    }
}

impl fmt::Display for Tally {
    fn fmt(&self, out: &mut fmt::Formatter) -> fmt::Result {
        let mounted = self.started_by_mount;
        writeln!(out, "{} events compared", self.events())?;
        writeln!(out, "{} cuts beside the lists compared", self.beside)?;
        writeln!(out, "{} lists, {mounted} started by mount", self.lists)?;
        writeln!(out, "{} pages in the longest book", self.most_pages)?;
        writeln!(out, "{} calls may not follow a cut", self.skipped)?;
        writeln!(out, "{}", NAMES.join(", "))?;
        writeln!(out, "  done {:?}, cut {:?}", self.done, self.cut)?;
        writeln!(out, "refusals 1 to 20: {:?}", &self.refused[1..])?;
        writeln!(out, "cut after 0 to 16 sectors: {:?}", self.cut_after)?;
        let places = "before the pointer, behind it, before the table, behind it";
        write!(out, "closings cut {places}: {:?}", self.closing_cut)
    }
}

fn column(call: Call) -> usize {
    match call {
        Call::Begin => 0,
        Call::Mount => 1,
        Call::Write(_) => 2,
        Call::WriteUnnumbered => 3,
        Call::Release(_) => 4,
        Call::ClosePacket => 5,
        Call::Commit => 6,
        Call::CommitAt => 7,
        Call::Read(_) => 8,
        Call::LookBack(_) => 9,
        Call::TimeOf(_) => 10,
        Call::CloseSession(_) => 11,
        Call::View { .. } => 12,
    }
}

/// How often each call answered each outcome.
#[derive(Clone, Default)]
pub struct Outcomes([[usize; OUTCOMES]; CALLS]);

/// The outcomes of each call, as documents 01 and 02 have them.
const POSSIBLE: [&[usize]; CALLS] = [
    &[0, 1, 2, 3, 6],
    &[0, 1, 2, 3, 7],
    &[0, 1, 2, 3, 4, 5, 12, 13, 14, 15, 17],
    &[0, 1, 2, 3, 4, 5, 14, 15, 17],
    &[0, 1, 2, 3, 4, 5, 10, 17],
    &[0, 1, 2, 3, 4, 5, 17],
    &[0, 1, 2, 3, 4, 5, 14, 17],
    &[0, 1, 2, 3, 4, 5, 14, 16, 17],
    &[0, 1, 2, 3, 4, 10, 11],
    &[0, 1, 2, 3, 7, 8, 9],
    &[0, 1, 2, 3, 7, 8, 9, 16],
    &[0, 1, 2, 3, 4, 5, 14, 17, 18],
    &[0, 1, 2, 3, 4, 10, 11, 19, 20],
];

impl Outcomes {
    pub fn count(&mut self, call: Call, answer: Answer) {
        self.0[column(call)][answer.outcome as usize] += 1;
    }

    pub fn add(&mut self, other: &Outcomes) {
        for (row, more) in self.0.iter_mut().zip(&other.0) {
            for (count, more) in row.iter_mut().zip(more) {
                *count += more;
            }
        }
    }

    pub fn calls(&self) -> usize {
        self.0.iter().flatten().sum()
    }

    /// Whether each call met each of the outcomes that it has of these at least
    /// so often, and none that it does not have.
    pub fn cover(&self, aimed_at: &[usize], least: usize) -> bool {
        let mut rows = self.0.iter().zip(POSSIBLE);
        rows.all(|(row, possible)| {
            (0..OUTCOMES).all(|outcome| match possible.contains(&outcome) {
                true => row[outcome] >= least || !aimed_at.contains(&outcome),
                false => row[outcome] == 0,
            })
        })
    }
}

impl fmt::Display for Outcomes {
    fn fmt(&self, out: &mut fmt::Formatter) -> fmt::Result {
        writeln!(out, "{} calls compared; outcomes 0 to 20:", self.calls())?;
        for (name, row) in NAMES.iter().zip(&self.0) {
            writeln!(out, "{name:>10} {row:?}")?;
        }
        Ok(())
    }
}
