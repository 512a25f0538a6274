//! Random lists on discs of other decks, whose maps name blocks that no map of ours
//! names: one block by several numbers, tables and their own sectors, links, unreadable
//! sectors, a closing's sectors, blocks without a number.
//!
//! After each call the pair compares the roles with the model's, and with those worked
//! out afresh from the history. What a call may change is also read off kinds and
//! ledger here.
//!
//! STATION_SEED names another seed, STATION_CASE one case of it.

mod common;

use common::built::beside;
use common::closing::{closed_by_another, disc_with_room, CLOSE};
use common::forge;
use common::large::Large;
use common::pair::{tell_compared, Pair};
use common::random::{cases, Random};
use common::stamps::HALF_PAST;
use common::station::Station;
use station_model::answer::Answer;
use station_model::calls::Call;
use station_model::disc::{BLANK, DATA, LINK, UNREADABLE};
use station_model::ledger::{Volume, READ_ONLY};
use station_model::roles::Since;
use station_model::table::{vat_sector, NONE, SECTOR};

/// What a call finds, but for the image.
struct Before {
    kinds: Vec<u8>,
    roles: Vec<u8>,
    volume: Volume,
}

impl Before {
    fn of(station: &Station) -> Before {
        Before {
            kinds: station.kinds.clone(),
            roles: station.roles.clone(),
            volume: station.volume(),
        }
    }

    /// The block that the call lets go, if it is done.
    fn let_go(&self, call: Call) -> Option<u32> {
        match call {
            Call::Write(v) | Call::Release(v) => self.volume.block_of(v),
            _ => None,
        }
    }
}

/// How often a list came to what it is there for.
#[derive(Default, Debug)]
struct Reach {
    /// A number let go of a block that another still names.
    still_named: usize,
    /// The last number let go of a block, which is superseded.
    superseded: usize,
    /// A number let go of a table, a link, an unreadable sector.
    of_another_kind: [usize; 3],
    /// A number let go of an own sector of a table.
    of_an_own_sector: usize,
    /// A foreign table named a block without a number, or a closing's.
    named_unnumbered: usize,
    closed: usize,
}

impl Reach {
    fn is_wide(&self) -> bool {
        let kinds = self.of_another_kind;
        let met = [
            self.still_named,
            self.superseded,
            self.of_an_own_sector,
            self.named_unnumbered,
        ];
        self.closed > 20 && met.iter().chain(&kinds).all(|count| *count > 300)
    }

    /// Counts what became of the block that a call let go.
    fn count(&mut self, let_go: Option<u32>, after: &Station) {
        let Some(block) = let_go else {
            return;
        };
        let disc = after.disc();
        match disc.kind(block) {
            Some(LINK) => self.of_another_kind[1] += 1,
            Some(UNREADABLE) => self.of_another_kind[2] += 1,
            _ if disc.vat_at(block).is_some() => self.of_another_kind[0] += 1,
            _ if disc.vat_blocks().contains(&block) => self.of_an_own_sector += 1,
            _ if after.volume().names(block) => self.still_named += 1,
            _ => self.superseded += 1,
        }
    }
}

/// Recorded sectors of every kind, tables among them; on some discs a closing's, with
/// links behind it.
fn used_by_others(random: &mut Random) -> Station {
    let mut station = match random.below(12) {
        0 => disc_with_room(random),
        1 => {
            let mut closed = closed_by_another(random.below(9) as u32, 80);
            let recorded = closed.disc().recorded() as usize;
            closed.kinds[recorded..recorded + 7].fill(LINK);
            closed
        }
        _ => Station::blank(45 + random.below(20)),
    };
    for _ in 0..random.below(10) {
        append(random, &mut station);
    }
    station
}

fn append(random: &mut Random, station: &mut Station) {
    let block = station.disc().recorded();
    let (kind, bytes) = match random.below(6) {
        0 => (LINK, [0; SECTOR]),
        1 => (UNREADABLE, [0; SECTOR]),
        2 => (DATA, vat_sector(block, &[], NONE)),
        _ => (DATA, [block as u8; SECTOR]),
    };
    station.put_sector(block, kind, &bytes);
}

/// A map of few numbers and of fewer blocks, the nearest ones as a rule.
fn foreign_map(random: &mut Random, table: u32) -> Vec<u32> {
    let near = table.min(1 + random.below(300) as u32) as usize;
    let mut any = || match near {
        0 => NONE,
        _ => table - 1 - random.below(near) as u32,
    };
    let named = [any(), any(), any(), NONE];
    let size = 1 + random.below(9);
    (0..size).map(|_| random.pick(&named)).collect()
}

/// Another deck records a table with a foreign map behind the last sector, embedded or
/// in a sector of its own that the disc has; the next call is a mount.
fn foreign_table(random: &mut Random, pair: &mut Pair, reach: &mut Reach) {
    let table = pair.station().disc().recorded();
    if table as usize == pair.station().kinds.len() {
        return;
    }
    let previous = match pair.station().disc().newest_vat() {
        Some(found) => found.block,
        None => NONE,
    };
    let map = foreign_map(random, table);
    let is_unnumbered = |block: &u32| pair.station().roles.get(*block as usize) == Some(&2);
    reach.named_unnumbered += usize::from(map.iter().any(is_unnumbered));
    let own = random.below(table as usize + 1) as u32;
    if own < table && random.one_in(2) {
        let large = Large::lying_in(&[own], table, &map, previous);
        let (_, bytes) = large.sectors()[0];
        pair.put_sector(own, DATA, &bytes);
        pair.put_sector(table, DATA, &large.icb());
    } else {
        pair.put_sector(table, DATA, &vat_sector(table, &map, previous));
    }
    pair.call(Call::Mount, &[]);
}

/// A call that as a rule is done and moves numbers.
fn call(random: &mut Random, station: &Station) -> Call {
    let size = forge::size_in(&station.ledger);
    if station.volume().mode == READ_ONLY && random.one_in(2) {
        return Call::Mount;
    }
    match random.below(24) {
        0..=6 => Call::Release(random.below(size + 1) as u32),
        7..=12 => Call::Write(random.below(size + 1) as u32),
        13..=16 => Call::WriteUnnumbered,
        17 => Call::ClosePacket,
        18..=19 => Call::Commit,
        20 => Call::CommitAt,
        21 => Call::LookBack(random.below(4) as u32),
        22 => Call::Mount,
        _ => CLOSE,
    }
}

fn lent(random: &mut Random, call: Call) -> Vec<u8> {
    match call {
        Call::CommitAt => HALF_PAST.to_vec(),
        _ => vec![random.next() as u8; call.lent_length().unwrap_or(0)],
    }
}

/// A list on a disc of others, all lent on but for the tables that others record.
fn list(case: usize, reach: &mut Reach) {
    let mut random = Random::of_case(case);
    let mut pair = Pair::of_case(&used_by_others(&mut random), case);
    foreign_table(&mut random, &mut pair, reach);
    for _ in 0..60 {
        if random.one_in(20) {
            foreign_table(&mut random, &mut pair, reach);
            continue;
        }
        let before = Before::of(pair.station());
        let call = call(&mut random, pair.station());
        let buffer = lent(&mut random, call);
        if pair.call(call, &buffer).is_done() {
            reach.count(before.let_go(call), pair.station());
            reach.closed += usize::from(call == CLOSE);
        }
    }
}

#[test]
fn lists_on_discs_of_others() {
    let mut reach = Reach::default();
    let cases = cases(4000);
    let all = cases.len() > 1;
    for case in cases {
        list(case, &mut reach);
    }
    println!("{reach:?}");
    assert!(!all || reach.is_wide(), "{reach:?}");
    tell_compared("lists_on_discs_of_others");
}

/// What the roles may be after a call, read off what it did to kinds and ledger.
fn may_follow(before: &Before, call: Call, answer: Answer, after: &Station) -> bool {
    if !answer.is_done() || !call.is_lent_roles() {
        return after.roles == before.roles;
    }
    if call.scans() {
        return after.roles == Since::default().roles(&after.disc(), &after.volume());
    }
    let is_named = |block: usize| {
        let is_recorded = before.kinds[block] == BLANK && after.kinds[block] != BLANK;
        is_recorded || before.let_go(call) == Some(block as u32)
    };
    let mut blocks = 0..after.roles.len();
    blocks.all(|block| is_named(block) || after.roles[block] == before.roles[block])
}

/// Every call is lent random bytes as roles: it changes those that the rule names and
/// no others; begin, mount and look back make all right.
fn junk(case: usize) {
    let mut random = Random::of_case(case);
    let mut pair = Pair::of_case(&used_by_others(&mut random), case);
    foreign_table(&mut random, &mut pair, &mut Reach::default());
    for _ in 0..40 {
        let junk = random.bytes(pair.station().kinds.len());
        pair.lend_roles(&junk);
        let before = Before::of(pair.station());
        let call = call(&mut random, pair.station());
        let buffer = lent(&mut random, call);
        let answer = pair.call(call, &buffer);
        let fits = may_follow(&before, call, answer, pair.station());
        assert!(fits, "case {case}: {call:?} set other roles");
    }
}

#[test]
fn junk_lent_as_roles() {
    cases(2000).for_each(junk);
    tell_compared("junk_lent_as_roles");
}

/// One byte throughout, each of the 256, before each call on a station where it is
/// done: the role of a sector that is recorded is set whatever it was, and that of one
/// that is let go if it was in use.
#[test]
fn every_byte_lent_as_a_role() {
    let mut station = disc_with_room(&mut Random::of_case(0));
    if !station.call(Call::Mount).is_done() {
        station.call(Call::Begin);
    }
    station.write(0, beside(Call::Write(0)));
    station.write(1, beside(Call::Write(1)));
    let mut pair = Pair::holding(&station);
    for byte in 0..=255 {
        for call in [Call::Write(0), Call::Release(1), Call::WriteUnnumbered] {
            pair.lend_roles(&vec![byte; station.kinds.len()]);
            assert!(pair.call(call, beside(call)).is_done());
            pair.take_back(&station);
        }
        for call in [Call::Commit, Call::CommitAt, Call::ClosePacket, Call::Mount] {
            pair.lend_roles(&vec![byte; station.kinds.len()]);
            pair.call(call, beside(call));
            pair.take_back(&station);
        }
    }
    tell_compared("every_byte_lent_as_a_role");
}
