//! Why the core refused: its refusal in an operator's words, with the values at hand and
//! what to do. The rule's own words are behind `station explain`.

use station::{Refusal, LIMIT, SECTOR};

use crate::failure::Failure;
use crate::first_save::no_save;
use crate::form::{bytes, counted, number};
use crate::kinds::BLANK;
use crate::ledger::{briefly, recorded, Map};
use crate::names::shown;
use crate::older;
use crate::room::Room;
use crate::runs;
use crate::saves::{each_save, newest};
use crate::session::{LedgerFile, Session};
use crate::unsaved::Unsaved;

/// What was asked of the core.
pub enum Asked<'a> {
    /// Of the disc as a whole: to begin it, to mount it, to close its packet, to look back.
    WholeDisc,
    /// As number `v`, a block of so many bytes.
    Write {
        v: u32,
        bytes: usize,
    },
    /// As number `v`, a run of this length.
    Store {
        v: u32,
        blocks: Blocks,
    },
    Release(u32),
    /// With the time that was typed, or with none.
    Commit(Option<&'a str>),
    /// With this partition start.
    CloseSession(u32),
    Read(u32),
    View {
        v: u32,
        offset: u64,
    },
    Time(u32),
}

/// How many blocks a run has.
#[derive(Clone, Copy)]
pub enum Blocks {
    Exactly(usize),
    /// Of a run that comes as a stream, nobody has seen the end yet.
    AtLeast(usize),
}

impl Blocks {
    pub fn count(self) -> usize {
        match self {
            Blocks::Exactly(count) | Blocks::AtLeast(count) => count,
        }
    }
}

/// Sectors of a closing: "an Anchor Volume Descriptor Pointer, 255 zero sectors and the
/// table sector". Own sectors of its table are the last of the 255.
const CLOSING: usize = 257;

/// The failure of a call that altered nothing.
pub fn refused(refusal: Refusal, asked: &Asked, session: &Session) -> Failure {
    let why = Why {
        asked,
        session,
        map: Map::of(&session.ledger),
        disc: shown(&session.name),
    };
    Failure::Refused(refusal, why.sentence(refusal))
}

struct Why<'a> {
    asked: &'a Asked<'a>,
    session: &'a Session,
    /// Of the ledger that was lent; of a ledger that does not fit, nothing is told.
    map: Map,
    /// The disc's name.
    disc: String,
}

impl Why<'_> {
    fn sentence(&self, refusal: Refusal) -> String {
        let disc = &self.disc;
        match refusal {
            Refusal::DiscSize => format!("{disc} is no disc of 1 to 360,000 whole sectors."),
            Refusal::LentLength => self.block_length(),
            Refusal::DiscUnsound => self.unsound(),
            Refusal::LedgerUnfit => self.unfit(),
            Refusal::ReadOnly => self.only_looked_at(),
            Refusal::VatExists => self.has_a_save(),
            Refusal::NoVat => no_save(self.session),
            Refusal::ChainBroken | Refusal::ChainEnded => self.too_far_back(),
            Refusal::NotInUse => self.not_in_use(),
            Refusal::Unreadable => self.unreadable(),
            Refusal::AboveSize => format!(
                "The next new number is {}; {} would leave a gap.",
                self.map.size,
                self.number()
            ),
            Refusal::AboveLimit => self.above_limit(),
            Refusal::NoRoom => self.no_room(),
            Refusal::WouldBeVat => self.would_be_a_save(),
            Refusal::BadTimestamp => self.no_time(),
            Refusal::SessionClosed => {
                format!("{disc} is closed, and can only be read; take another disc to record on.")
            }
            Refusal::PartitionStart => self.partition_start(),
            Refusal::NotARun => self.no_run(),
            Refusal::BeyondTheRun => self.beyond(),
        }
    }

    /// The number that was asked for.
    fn number(&self) -> u32 {
        match self.asked {
            Asked::Write { v, .. } | Asked::Store { v, .. } | Asked::View { v, .. } => *v,
            Asked::Read(v) | Asked::Release(v) => *v,
            _ => 0,
        }
    }

    fn block_length(&self) -> String {
        match self.asked {
            Asked::Write { bytes: length, .. } if *length > SECTOR => format!(
                "This block has more than {SECTOR} bytes, and a block has {SECTOR}; store takes a \
                 run of any length."
            ),
            Asked::Write { bytes: length, .. } => format!(
                "This block has {}; a block has {SECTOR} (--pad fills up a shorter one).",
                bytes(*length)
            ),
            _ => "What was given has another length than the core takes.".into(),
        }
    }

    /// The first blank sector, and the next recorded one.
    fn unsound(&self) -> String {
        let (_, kinds) = self.session.disc.lent();
        let blank = station::recorded(kinds);
        let behind = kinds[blank..].iter().position(|kind| *kind != BLANK);
        let behind = blank + behind.unwrap_or_default();
        let disc = &self.disc;
        format!(
            "Block {behind} is recorded and block {blank} before it is blank, as no recorder \
             leaves a disc; take another copy of {disc}."
        )
    }

    fn unfit(&self) -> String {
        let disc = &self.disc;
        let (_, kinds) = self.session.disc.lent();
        let on_disc = station::recorded(kinds);
        let known = number(recorded(&self.session.ledger));
        match self.session.ledger_file {
            LedgerFile::Older => older::told(self.session).unwrap_or_default(),
            LedgerFile::Missing => {
                format!("{disc} has no ledger: mount it, or begin it if it has no save yet.")
            }
            LedgerFile::Foreign => format!(
                "The ledger beside {disc} was kept for another disc file, or one of the two is \
                 damaged. If a wrong file was put here, put the right one back; if not, mount it, \
                 or begin it if it has no save yet."
            ),
            LedgerFile::Right => format!(
                "{disc} has {} recorded, and its ledger knows {known}, as after a power cut: mount \
                 it, or begin it if it has no save yet.",
                counted(on_disc, "sector")
            ),
        }
    }

    /// A mount ends the look back, and opens no closed disc.
    fn only_looked_at(&self) -> String {
        let (disc, table) = (&self.disc, self.map.table);
        let (image, kinds) = self.session.disc.lent();
        let shows = format!("{disc} shows the save at block {table} since a look-back, and is");
        match station::is_closed(image, kinds) {
            Ok(true) => format!(
                "{shows} closed: it can only be read. Mount it to see its newest save; take \
                 another disc to record on."
            ),
            _ => format!("{shows} only looked at. Mount it to record again."),
        }
    }

    fn has_a_save(&self) -> String {
        let disc = &self.disc;
        match newest(&self.session.disc) {
            Some(save) => format!(
                "{disc} has a save already, at block {}: mount it.",
                save.table
            ),
            None => format!("{disc} has a save already: mount it."),
        }
    }

    /// How far back saves are reached.
    fn too_far_back(&self) -> String {
        let mut saves = Vec::new();
        let counting = each_save(&self.session.disc, |map| saves.push(map.table));
        let broken = counting.is_ok_and(|counting| counting.broken.is_some());
        let oldest = saves.len().saturating_sub(1);
        match (broken, saves.last()) {
            (true, Some(table)) => format!(
                "Only {} can be reached: the oldest is {oldest} back, at block {table}, and what \
                 it names as the one before it is no save any more.",
                counted(saves.len(), "save")
            ),
            _ if saves.len() == 1 => "There is 1 save: it is 0 back.".into(),
            _ => format!(
                "There are {}: the oldest is {oldest} back.",
                counted(saves.len(), "save")
            ),
        }
    }

    fn not_in_use(&self) -> String {
        let v = self.number();
        let why = match v < self.map.size {
            true => "was released",
            false => "is not in use",
        };
        let among = if self.map.looking {
            " in the save that is shown"
        } else {
            ""
        };
        match self.map.used.is_empty() {
            true => format!("Number {v} {why}. No number is in use{among}."),
            false => {
                let used = briefly(&self.map.used);
                format!("Number {v} {why}. In use{among}: {used}.")
            }
        }
    }

    fn unreadable(&self) -> String {
        let v = self.number();
        let block = self.map.block(v).unwrap_or_default();
        format!(
            "Block {block}, which number {v} names, cannot be read. Look for an older one with \
             --back, or drive the run again."
        )
    }

    fn above_limit(&self) -> String {
        let (last, size) = (LIMIT - 1, self.map.size);
        match size < LIMIT {
            true => format!("Numbers end at {last}; the next new one is {size}."),
            false => format!(
                "Numbers end at {last}, and all of them are taken: write one of them again, or \
                 take another disc."
            ),
        }
    }

    fn no_room(&self) -> String {
        let room = Room::of(&self.session.disc, Some(&self.map));
        let (call, own, left) = match self.asked {
            Asked::Store { blocks, .. } => ("store", blocks.count() + 1, room.left),
            Asked::Commit(_) => ("commit", room.save(), 0),
            Asked::CloseSession(_) => ("closing", CLOSING, 0),
            _ => ("write", 1, room.left),
        };
        let blank = counted(room.blank, "sector");
        let verb = if room.blank == 1 { "is" } else { "are" };
        let least = match self.asked {
            Asked::Store {
                blocks: Blocks::AtLeast(_),
                ..
            } => "at least ",
            _ => "",
        };
        let takes = number(room.links + own);
        let among = self.among_them(&room);
        let must = match left {
            0 => String::new(),
            left if room.links == 0 => format!(" and must leave {left}"),
            left => format!(", and must leave {left}"),
        };
        let todo = self.what_is_left(&room);
        format!("{blank} {verb} blank; this {call} takes {least}{takes}{among}{must}. {todo}")
    }

    /// What a call takes beside what it is asked for: links, and own sectors of a save's
    /// table.
    fn among_them(&self, room: &Room) -> String {
        let own = match self.asked {
            Asked::Commit(_) => room.own,
            _ => 0,
        };
        match (room.links, own) {
            (0, 0) => String::new(),
            (_, 0) => ", seven of them links".into(),
            (0, own) => format!(", {own} of them of the table's own"),
            (_, own) => format!(", seven of them links and {own} of the table's own"),
        }
    }

    /// What is left to do where a call has no room.
    fn what_is_left(&self, room: &Room) -> &'static str {
        let has_room = |sectors| room.blank >= room.links + sectors;
        let waits = !Unsaved::of(&self.session.disc, &self.map).is_empty();
        match (waits, has_room(CLOSING), has_room(room.save())) {
            (true, true, _) if !has_room(room.save() + CLOSING) => {
                "Commit what is written, or close the disc, for which a commit would leave no \
                 room, and take another one."
            }
            (true, true, _) => "Commit what is written, or close the disc, and take another one.",
            (true, _, true) => "Commit what is written, and take another disc.",
            (false, true, _) => "Nothing waits to be saved: close the disc, or take another one.",
            (false, _, true) => "Nothing waits to be saved: take another disc.",
            (_, _, false) if self.map.last_table().is_none() => "Take another disc.",
            (_, _, false) => "Take another disc: the last finished save stays on this one.",
        }
    }

    fn would_be_a_save(&self) -> String {
        match self.asked {
            Asked::Store { .. } => {
                "One of the run's blocks would pass for a save or for a closing \
                 where it would stand. Pack the run, for example with gzip, and store that."
                    .into()
            }
            _ => "This block would pass for a save or for a closing where it would stand. Change \
                 it."
            .into(),
        }
    }

    fn no_time(&self) -> String {
        match self.asked {
            Asked::Commit(Some(typed)) => format!(
                "No save can carry the time {typed}: it takes a real date from 1970 to 2099, a \
                 time up to 23:59:59 and a zone up to 24:00."
            ),
            Asked::Commit(None) => "This machine's clock is outside 1970 to 2099, which no save \
                 can carry: set it, give --at, or save without a time."
                .into(),
            Asked::Time(k) => format!(
                "The save {k} back carries no time, or an impossible one; 'station list {} \
                 --times' shows which carry one.",
                self.disc
            ),
            _ => "The time breaks the limits of a save.".into(),
        }
    }

    fn partition_start(&self) -> String {
        let start = match self.asked {
            Asked::CloseSession(start) => *start,
            _ => 0,
        };
        format!("No partition starts above block 400,000, and --start says {start}.")
    }

    fn no_run(&self) -> String {
        let (v, disc) = (self.number(), &self.disc);
        match runs::calls_itself_one(&self.session.disc, &self.session.ledger, v) {
            true => format!(
                "Number {v} is a run of which a sector cannot be read any more. Look for an older \
                 one with --back, or drive the run again."
            ),
            false => format!(
                "Number {v} is a block of its own, and no run: 'station read {disc} {v}' shows it."
            ),
        }
    }

    fn beyond(&self) -> String {
        let length = runs::length(&self.session.disc, &self.session.ledger, self.number());
        let offset = match self.asked {
            Asked::View { offset, .. } => *offset,
            _ => 0,
        };
        format!(
            "The run has {}, and --offset {offset} is behind its end.",
            bytes(length.unwrap_or_default() as usize)
        )
    }
}
