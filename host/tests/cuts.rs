//! Demand 3 on the core: random lists of calls, done, refused or cut, on random
//! small discs, compared with document 01's book after each event.
//!
//! What a cut call would have recorded is what the core records when the same
//! call is made whole on a copy. The model's calls have no part in this test.
//!
//! Until a cut, and again from the next begin, mount or look back on, the roles are
//! those that the history gives.
//!
//! After each event the disc is closed or not, as document 02 defines it; and where
//! no sector has a pointer's tag at the start, only a closing that was done, or cut
//! behind its last sector, closes it.
//!
//! STATION_SEED names another seed. On a difference the seed and the list of
//! events are printed.

mod common;

use common::agreement::compare;
use common::attempt::{Attempt, Made};
use common::closing::{anchor, cuts, disc_of_closings, disc_with_room, has_pointer, CLOSING};
use common::core::{Core, Short};
use common::forge;
use common::large;
use common::random::{seed, Random};
use common::roles::astray;
use common::runs::{self, Shown};
use common::station::Station;
use common::tally::Tally;
use station_model::book::{Ending, Fed, History, Snapshot};
use station_model::calls::Call;
use station_model::roles::Since;
use station_model::time::STAMP;

/// Events of lists to compare, without the cuts tried beside them.
const EVENTS: usize = 40_000;

/// One list in the making: the disc, the book, and what has happened.
#[derive(Clone)]
struct List {
    core: Core,
    history: History,
    /// "The ledger is lost", and the roles with it: since a cut no begin, mount or
    /// look back was done.
    lost: bool,
    /// The history that the roles are worked out from.
    since: Since,
    /// Whether a closing has closed the disc; unknown where a sector had a
    /// pointer's tag at the start.
    closed: Option<bool>,
    /// What the disc was seen to show of runs.
    shown: Shown,
    events: Vec<String>,
}

impl List {
    /// Mount if the disc has a table, else begin; one of them is done on every
    /// sound disc.
    fn start(disc: &Station, random: &mut Random) -> List {
        let mut core = Core::holding(disc, random.below(16));
        random.fill(&mut core.ledger);
        random.fill(&mut core.roles);
        let (call, history) = match core.disc().newest_vat() {
            Some(found) => (Call::Mount, History::mounted(&core.disc(), &found.vat)),
            None => (Call::Begin, History::begun()),
        };
        let answer = core.call(call);
        assert_eq!(answer.outcome, 0, "a list starts with {call:?}");
        let kinds: String = core.kinds.iter().map(u8::to_string).collect();
        let events = vec![format!("disc of kinds {kinds}, {call:?}: {answer:?}")];
        let closed = (!has_pointer(&core.disc())).then_some(false);
        List {
            core,
            history,
            lost: false,
            since: Since::default(),
            closed,
            shown: Shown::default(),
            events,
        }
    }

    /// One event: done, refused or cut. Nothing, if the call is one that may
    /// not follow a cut.
    fn step(&mut self, random: &mut Random, tally: &mut Tally) -> Result<(), String> {
        if self.lost {
            let ledger = forge::lost_ledger(random, &self.core.disc(), &self.core.ledger);
            self.core.ledger.copy_from_slice(&ledger);
            random.fill(&mut self.core.roles);
        }
        let attempt = self.attempt(random);
        let made = attempt.made_on(&self.core);
        // "until a begin, mount or look back is done, only these three [...] follow"
        let may_follow_a_cut = attempt.call.scans() || attempt.call.only_tells();
        if self.lost && made.answer.is_done() && !may_follow_a_cut {
            tally.skipped += 1;
            return Ok(());
        }
        if random.one_in(6) {
            tally.beside += self.try_each_cut(&attempt, &made, random)?;
        }
        let rarity = match made.sectors {
            0..=1 => 10,
            2..=8 => 3,
            _ => 2,
        };
        if random.one_in(rarity) {
            let cuts = cuts(made.sectors, random);
            let j = random.pick(&cuts);
            tally.cut(attempt.call, made.sectors, j);
            self.cut(&attempt, &made, j, random);
        } else {
            tally.answered(attempt.call, made.answer);
            self.take(&attempt, made)?;
        }
        self.agrees(random)
    }

    /// Agrees with the book, shows of each run what it did, has the roles of its
    /// history, and is closed or not as it must be.
    fn agrees(&mut self, random: &mut Random) -> Result<(), String> {
        compare(&self.core, &self.history, random)?;
        self.shown.compare(&self.core)?;
        self.roles_agree()?;
        let Core { image, kinds, .. } = &self.core;
        let told = station::is_closed(image, kinds);
        let closed = self.core.disc().is_closed();
        if told != Ok(closed) || self.closed.is_some_and(|known| known != closed) {
            let known = self.closed;
            return Err(format!(
                "is closed: {told:?}; its sectors: {closed}; known: {known:?}"
            ));
        }
        Ok(())
    }

    fn roles_agree(&self) -> Result<(), String> {
        let core = &self.core;
        let difference = || astray(&core.disc(), &core.volume(), &core.roles, &self.since);
        let difference = (!self.lost).then(difference).flatten();
        difference.map_or(Ok(()), Err)
    }

    /// A random call, with numbers near those that mean something.
    fn attempt(&self, random: &mut Random) -> Attempt {
        let call = self.call(random);
        let call = runs::aimed(random, &self.core.disc(), &self.core.volume(), call);
        let mut buffer = forge::buffer(random, call, &self.core.image, &self.core.kinds);
        let mut short = Short::default();
        match (random.below(40), call.lent_length()) {
            (0, _) => short.image = 1,
            (1, _) => short.ledger = 1,
            (2, _) => short.roles = 1,
            (3, Some(right)) => buffer.resize(random.below(2 * right), 0),
            _ => {}
        }
        Attempt {
            call,
            buffer,
            short,
        }
    }

    fn call(&self, random: &mut Random) -> Call {
        if self.history.draft.is_none() && random.one_in(2) {
            return self.call_for_a_draft();
        }
        let page = self.history.draft.as_ref().or(self.history.page_back(0));
        let size = page.map_or(0, |page| page.size() as usize);
        let pages = self.history.pages.len();
        if size > 458 && random.one_in(2) {
            return call_for_a_large_save(random, size);
        }
        // Few discs have room for a closing, so it comes soon on these.
        if self.core.disc().blank() as usize >= CLOSING && random.one_in(8) {
            return Call::CloseSession(anchor(random));
        }
        match random.below(43) {
            0 => Call::Begin,
            1 => Call::Mount,
            2..=12 => Call::Write(forge::number(random, size)),
            13..=16 => Call::Release(forge::number(random, size)),
            17..=18 => Call::ClosePacket,
            19..=22 => Call::Commit,
            23..=27 => Call::CommitAt,
            28..=29 => Call::Read(forge::number(random, size)),
            30..=31 => Call::TimeOf(forge::number(random, pages)),
            32 => Call::CloseSession(anchor(random)),
            33..=36 => Call::WriteUnnumbered,
            37..=40 => Call::View {
                v: forge::number(random, size),
                offset: runs::offset(random),
            },
            _ => Call::LookBack(forge::number(random, pages)),
        }
    }

    /// Without a draft little is done: lists go further if one is soon there.
    fn call_for_a_draft(&self) -> Call {
        if self.history.pages.is_empty() {
            Call::Begin
        } else {
            Call::Mount
        }
    }

    /// Takes the call as made and feeds the book; a refusal "alters no lent
    /// byte", and a call that only tells none but its answer.
    fn take(&mut self, attempt: &Attempt, made: Made) -> Result<(), String> {
        let answer = made.answer;
        self.note(attempt, format!("{answer:?}"));
        if answer.is_done() && !attempt.call.only_tells() {
            self.check_done(attempt, &made.after)?;
            self.lost &= !attempt.call.scans();
        } else if !self.core.same_bytes(&made.after) {
            return Err("a refusal, or a call that only tells, altered lent bytes".into());
        }
        if !answer.is_done() && made.buffer != attempt.buffer {
            return Err("a refusal altered the last buffer".into());
        }
        self.core = made.after;
        self.since.feed(attempt.call, answer);
        self.feed(attempt, Ending::Answered(answer));
        Ok(())
    }

    /// "After each call that is done, the ledger's recorded equals the
    /// disc's"; and what changes or saves the draft, or records beside it, finds one in the book.
    fn check_done(&self, attempt: &Attempt, after: &Core) -> Result<(), String> {
        if after.volume().recorded != after.disc().recorded() {
            return Err("the ledger's recorded is not the disc's".into());
        }
        let changes_draft = matches!(attempt.call, Call::Write(_) | Call::Release(_));
        let records = attempt.call == Call::WriteUnnumbered || attempt.call.is_commit();
        let on_draft = changes_draft || records;
        if on_draft && self.history.draft.is_none() {
            return Err("done, and the book has no draft".into());
        }
        Ok(())
    }

    /// Cuts the call after j of its sectors. The table sector of a commit or a
    /// closing is its last, so it was kept if it has sectors and all were kept.
    fn cut(&mut self, attempt: &Attempt, made: &Made, j: usize, random: &mut Random) {
        let (told, torn) = made.torn_bytes(random, j);
        let cut = format!("cut after {j} of {}, {told}", made.sectors);
        self.note(attempt, cut);
        self.core.cut(&made.after, j, torn.as_ref());
        let vat_kept = attempt.call.is_commit() && made.sectors > 0 && j == made.sectors;
        self.feed(attempt, Ending::Cut { vat_kept });
        self.lost = true;
    }

    /// Cuts the call beside the list, which goes on without it.
    fn try_each_cut(
        &self,
        attempt: &Attempt,
        made: &Made,
        random: &mut Random,
    ) -> Result<usize, String> {
        let cuts = cuts(made.sectors, random);
        for j in &cuts {
            let mut branch = List {
                events: Vec::new(),
                ..self.clone()
            };
            branch.cut(attempt, made, *j, random);
            branch
                .agrees(random)
                .map_err(|found| format!("beside the list, {}: {found}", branch.events[0]))?;
        }
        Ok(cuts.len())
    }

    fn feed(&mut self, attempt: &Attempt, ending: Ending) {
        let saved = match ending {
            Ending::Answered(answer) => answer.is_done(),
            Ending::Cut { vat_kept } => vat_kept,
        };
        if saved && matches!(attempt.call, Call::CloseSession(_)) {
            self.closed = Some(true);
        }
        self.history.feed(&Fed {
            call: attempt.call,
            written: attempt.written(),
            ending,
        });
    }

    fn note(&mut self, attempt: &Attempt, ending: String) {
        let Attempt { call, short, .. } = attempt;
        let lost = if self.lost { ", ledger lost" } else { "" };
        let written = match attempt.written() {
            Some(bytes) => {
                let start = &bytes[..bytes.len().min(STAMP)];
                format!(", {} bytes {start:02X?}..", bytes.len())
            }
            None => String::new(),
        };
        let event = format!("{call:?} (not lent: {short:?}{lost}{written}): {ending}");
        self.events.push(event);
    }
}

/// A save records those own sectors of a large table in which a number was written,
/// and links in front of them after a closed packet.
fn call_for_a_large_save(random: &mut Random, size: usize) -> Call {
    match random.below(8) {
        0..=4 => Call::Write(random.below(size) as u32),
        5 => Call::ClosePacket,
        _ => Call::Commit,
    }
}

/// A disc for the next list: new, with forged tables, also in own sectors, or the one
/// that the list before has left.
fn next_disc(before: Option<List>, random: &mut Random) -> Station {
    match (random.below(13), before) {
        (0..=2, Some(list)) => Station {
            image: list.core.image.to_vec(),
            kinds: list.core.kinds.to_vec(),
            roles: list.core.roles.to_vec(),
            ledger: list.core.ledger.to_vec(),
        },
        (3..=4, _) => forge::disc_with_vats(random),
        (5, _) => Station::blank(60),
        (6, _) => disc_with_room(random),
        (7, _) => disc_of_closings(random),
        (10..=12, _) => large::disc_to_go_on(random),
        _ => forge::disc_without_vat(random),
    }
}

/// Lists whose pages have hundreds of numbers are short: many numbers of every page
/// are read after each event.
fn steps(list: &List, random: &mut Random) -> usize {
    let size = list.history.page_back(0).map_or(0, Snapshot::size);
    1 + random.below(if size > 100 { 20 } else { 50 })
}

/// Makes the events of a list. A full or closed disc soon shows nothing new.
fn run(list: &mut List, random: &mut Random, tally: &mut Tally) -> Result<(), String> {
    list.agrees(random)?;
    for _ in 0..steps(list, random) {
        let disc = list.core.disc();
        if (disc.blank() == 0 || disc.is_closed()) && random.one_in(3) {
            break;
        }
        list.step(random, tally)?;
    }
    Ok(())
}

#[test]
fn every_list_agrees_with_the_book() {
    let seed = seed();
    let mut random = Random::seeded(seed);
    let mut tally = Tally::default();
    let mut before = None;
    while tally.events() < EVENTS {
        let mut list = List::start(&next_disc(before, &mut random), &mut random);
        tally.started(&list.history);
        if let Err(difference) = run(&mut list, &mut random, &mut tally) {
            let events = list.events.join("\n  ");
            let lists = tally.lists;
            panic!("STATION_SEED={seed} shows in list {lists}:\n  {events}\n{difference}");
        }
        tally.ended(&list.history);
        before = Some(list);
    }
    println!("{tally}");
    assert!(tally.covers_all(), "{tally}");
}
