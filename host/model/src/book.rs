//! The book: what a list of calls has saved, told from the calls and their
//! answers alone.
//!
//! "It gets nothing from the ledger, and from the disc only the page of a
//! mount at the start." [`Fed`] is all that it sees.
//!
//! Beside each page stands the timestamp that it was saved with: what is told of
//! "k saves back" (document 02) turns on it, and nothing else does.

use std::rc::Rc;

use crate::answer::Answer;
use crate::calls::Call;
use crate::disc::Disc;
use crate::table::{Vat, NONE, SECTOR};
use crate::time::{Stamp, NO_STAMP};

/// "what it reads: 2048 bytes or 11"
#[derive(Clone, Debug, PartialEq, Eq)]
pub enum Content {
    Bytes(Rc<[u8; SECTOR]>),
    Unreadable,
}

/// "a block number (in use) with what it reads"
#[derive(Clone, Debug, PartialEq, Eq)]
pub struct InUse {
    pub block: u32,
    pub content: Content,
}

/// A page or a draft: "a size and, for each number below it, unused, or a
/// block number (in use) with what it reads".
#[derive(Clone, Debug, Default, PartialEq, Eq)]
pub struct Snapshot {
    pub entries: Vec<Option<InUse>>,
}

/// "The book has pages and at most one draft." The newest page is the last.
#[derive(Clone, Debug, PartialEq, Eq)]
pub struct History {
    pub pages: Vec<Snapshot>,
    pub draft: Option<Snapshot>,
    /// The modification time of each page's table, whatever it is.
    pub stamps: Vec<Stamp>,
}

/// "The book is fed each call with its v or k, a write's lent block, and the
/// two numbers answered"; and of a commit that has one, its timestamp.
#[derive(Clone, Copy)]
pub struct Fed<'a> {
    pub call: Call,
    /// A write's block, or a commit's timestamp.
    pub written: Option<&'a [u8]>,
    pub ending: Ending,
}

/// "of a cut call, instead of these numbers, that it was cut, and for a commit
/// whether its table sector was kept"; for another call no table was kept.
#[derive(Clone, Copy, Debug)]
pub enum Ending {
    Answered(Answer),
    Cut { vat_kept: bool },
}

impl Fed<'_> {
    /// What a commit records as its times: a plain one and a closing zeros.
    fn stamp(&self) -> Stamp {
        let given = self.written.filter(|_| self.call == Call::CommitAt);
        given.map_or(NO_STAMP, |stamp| stamp.try_into().unwrap_or(NO_STAMP))
    }
}

impl Snapshot {
    /// "the table found, each block with the bytes it had, or 11 if not kind 1"
    pub fn found(disc: &Disc, vat: &Vat) -> Snapshot {
        let entry = |block: &u32| (*block != NONE).then(|| InUse::found(disc, *block));
        Snapshot {
            entries: vat.map.iter().map(entry).collect(),
        }
    }

    pub fn size(&self) -> u32 {
        self.entries.len() as u32
    }

    /// The entry of v, if v is below size and in use.
    pub fn in_use(&self, v: u32) -> Option<&InUse> {
        self.entries.get(v as usize)?.as_ref()
    }

    /// "entry v is the second number with the lent bytes; if v equals size,
    /// size grows by one"
    fn write(&mut self, v: u32, written: InUse) {
        if v == self.size() {
            self.entries.push(Some(written));
        } else if let Some(entry) = self.entries.get_mut(v as usize) {
            *entry = Some(written);
        }
    }

    /// "entry v is unused"
    fn release(&mut self, v: u32) {
        if let Some(entry) = self.entries.get_mut(v as usize) {
            *entry = None;
        }
    }
}

impl InUse {
    fn found(disc: &Disc, block: u32) -> InUse {
        let content = match disc.data(block) {
            Some(bytes) => Content::Bytes(Rc::new(*bytes)),
            None => Content::Unreadable,
        };
        InUse { block, content }
    }

    /// A write that is done was lent 2048 bytes.
    fn written(block: u32, lent: Option<&[u8]>) -> Option<InUse> {
        let bytes: [u8; SECTOR] = lent?.try_into().ok()?;
        let content = Content::Bytes(Rc::new(bytes));
        Some(InUse { block, content })
    }
}

impl History {
    /// Start: "after begin no page and a draft of size 0".
    pub fn begun() -> History {
        History {
            pages: Vec::new(),
            draft: Some(Snapshot::default()),
            stamps: Vec::new(),
        }
    }

    /// Start: "after mount one page, the table found, [...] and a copy as draft".
    pub fn mounted(disc: &Disc, vat: &Vat) -> History {
        let page = Snapshot::found(disc, vat);
        History {
            draft: Some(page.clone()),
            pages: vec![page],
            stamps: vec![vat.modified],
        }
    }

    /// "the page k before the newest"
    pub fn page_back(&self, k: usize) -> Option<&Snapshot> {
        self.pages.iter().rev().nth(k)
    }

    /// The timestamp of that page.
    pub fn stamp_back(&self, k: usize) -> Option<&Stamp> {
        self.stamps.iter().rev().nth(k)
    }

    /// "Read, close packet, any refused call: no change."
    pub fn feed(&mut self, fed: &Fed) {
        match fed.ending {
            Ending::Answered(answer) if answer.is_done() => self.done(fed, answer.second),
            Ending::Answered(_) => {}
            Ending::Cut { vat_kept } => self.cut(fed, vat_kept),
        }
    }

    fn done(&mut self, fed: &Fed, second: u32) {
        match (fed.call, &mut self.draft) {
            // "the draft has size 0"
            (Call::Begin, _) => self.draft = Some(Snapshot::default()),
            // "it is a copy of the newest page"
            (Call::Mount, _) => self.draft = self.pages.last().cloned(),
            // "no draft"
            (Call::LookBack(_), _) => self.draft = None,
            (Call::Write(v), Some(draft)) => {
                if let Some(written) = InUse::written(second, fed.written) {
                    draft.write(v, written);
                }
            }
            (Call::Release(v), Some(draft)) => draft.release(v),
            (Call::Commit | Call::CommitAt | Call::CloseSession(_), _) => self.save(fed),
            (Call::Write(_) | Call::Release(_), None) => {}
            (Call::Read(_) | Call::ClosePacket, _) => {}
            // "writes in all but the entry" (document 02), and a draft has entries alone
            (Call::WriteUnnumbered, _) => {}
            // "counts as a refused one" (document 02)
            (Call::TimeOf(_) | Call::View { .. }, _) => {}
        }
    }

    /// "a commit whose table sector was kept makes its page; then no draft"
    fn cut(&mut self, fed: &Fed, vat_kept: bool) {
        if vat_kept && fed.call.is_commit() {
            self.save(fed);
        }
        self.draft = None;
    }

    /// "a copy of the draft is the newest page"
    fn save(&mut self, fed: &Fed) {
        if let Some(page) = self.draft.clone() {
            self.pages.push(page);
            self.stamps.push(fed.stamp());
        }
    }
}
