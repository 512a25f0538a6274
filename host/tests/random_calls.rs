//! Random calls on random small discs, on the core and on the model: the answer
//! and every byte afterwards are compared after each call.
//!
//! STATION_SEED names another seed, STATION_CASE one case of it.

mod common;

use common::closing::disc_of_closings;
use common::forge;
use common::large;
use common::pair::Pair;
use common::random::{cases, Random};
use common::runs::{aimed, plant_entries};
use common::station::Station;
use common::tally::Outcomes;
use station_model::calls::Call;
use station_model::ledger::{LEDGER, READ_ONLY};
use station_model::table::SECTOR;

/// A disc of a few sectors, so that comparing it is cheap: blank, used, with
/// tables, also in own sectors, or with chains of them, and some with entries of runs;
/// rarely a larger one, that has room for a closing or is closed.
fn small_disc(random: &mut Random) -> Station {
    if random.one_in(24) {
        let mut station = disc_of_closings(random);
        random.fill(&mut station.ledger);
        return station;
    }
    let sectors = match random.below(8) {
        0 => 1 + random.below(20),
        1 => 50 + random.below(14),
        _ => 20 + random.below(36),
    };
    let mut station = match random.below(8) {
        0..=1 => Station::blank(sectors),
        2 => forge::used_disc(random, sectors),
        3 => forge::disc_of_chains(random, sectors),
        4..=5 => large::disc_to_go_on(random),
        _ => forge::used_disc_with_vats(random, sectors),
    };
    if random.one_in(2) {
        plant_entries(random, &mut station);
    }
    random.fill(&mut station.ledger);
    station
}

/// A call with the buffer that it needs.
fn one_call(pair: &mut Pair, random: &mut Random) {
    let station = pair.station();
    let call = forge::call(random, forge::size_in(&station.ledger), 3);
    let call = aimed(random, &station.disc(), &station.volume(), call);
    let buffer = forge::buffer(random, call, &station.image, &station.kinds);
    pair.call(call, &buffer);
}

/// Begin or mount, whichever is done on this disc.
fn open(pair: &mut Pair) {
    if !pair.call(Call::Mount, &[]).is_done() {
        pair.call(Call::Begin, &[]);
    }
}

/// Calls one after another on what the one before has left; now and then the
/// disc is opened again, and before some calls the ledger is another.
fn list(case: usize) -> Outcomes {
    let mut random = Random::of_case(case);
    let disc = small_disc(&mut random);
    let mut pair = Pair::of_case(&disc, case);
    open(&mut pair);
    for _ in 0..60 {
        let looking = pair.station().volume().mode == READ_ONLY;
        match random.below(40) {
            0 => open(&mut pair),
            1 => other_ledger(&mut pair, &mut random),
            2 => with_an_odd_kind(&mut pair, &mut random),
            3..=13 if looking => open(&mut pair),
            _ => one_call(&mut pair, &mut random),
        }
    }
    pair.outcomes
}

/// A call with a ledger that fits or nearly fits, or that holds anything; then
/// the one before is lent again.
fn other_ledger(pair: &mut Pair, random: &mut Random) {
    let before = pair.station().ledger.clone();
    let disc = pair.station().disc();
    let ledger = match random.below(4) {
        0 => forge::spoiled(random, &before),
        1 => {
            let fitting = forge::fitting(random, &disc).to_bytes();
            forge::spoiled(random, &fitting)
        }
        _ => forge::lost_ledger(random, &disc, &before),
    };
    let recorded = disc.recorded();
    pair.lend_ledger(&ledger);
    one_call(pair, random);
    if pair.station().disc().recorded() == recorded {
        pair.lend_ledger(&before);
    }
}

/// A call while one sector has another kind, also one that no disc has.
fn with_an_odd_kind(pair: &mut Pair, random: &mut Random) {
    let at = random.below(pair.station().kinds.len()) as u32;
    let kind = pair.station().kinds[at as usize];
    let bytes = *pair.station().sector(at);
    let odd = random.pick(&[0, 1, 2, 3, 4, 5, 128, 255]);
    pair.put_sector(at, odd, &bytes);
    let before = pair.station().kinds.clone();
    one_call(pair, random);
    if pair.station().kinds == before {
        pair.put_sector(at, kind, &bytes);
    }
}

/// Every call is lent another ledger: one that fits, one that nearly does, or
/// random bytes.
fn any_ledgers(case: usize) -> Outcomes {
    let mut random = Random::of_case(case);
    let disc = small_disc(&mut random);
    let mut pair = Pair::of_case(&disc, case);
    for _ in 0..60 {
        let fitting = forge::fitting(&mut random, &pair.station().disc()).to_bytes();
        let ledger = match random.below(8) {
            0 => random.bytes(LEDGER),
            1..=3 => forge::spoiled(&mut random, &fitting),
            _ => fitting.to_vec(),
        };
        pair.lend_ledger(&ledger);
        one_call(&mut pair, &mut random);
    }
    pair.outcomes
}

/// One call on buffers of any lengths and contents.
fn any_lengths(case: usize) -> Outcomes {
    let mut random = Random::of_case(case);
    let mut station = match random.below(2) {
        0 => Station::blank(1 + random.below(12)),
        _ => {
            let sectors = 1 + random.below(6);
            forge::used_disc_with_vats(&mut random, sectors)
        }
    };
    station.ledger = forge::fitting(&mut random, &station.disc())
        .to_bytes()
        .to_vec();
    let call = forge::call(&mut random, forge::size_in(&station.ledger), 2);
    let mut buffer = random.bytes(call.lent_length().unwrap_or(SECTOR));
    match random.below(6) {
        0 => station.image = other_length(&mut random, &station.image),
        1 => station.kinds = other_length(&mut random, &station.kinds),
        2 => station.roles = other_length(&mut random, &station.roles),
        3 => station.ledger = other_length(&mut random, &station.ledger),
        4 => buffer = other_length(&mut random, &buffer),
        _ => random.fill(&mut station.kinds),
    }
    let mut pair = Pair::of_case(&station, case);
    pair.call(call, &buffer);
    pair.outcomes
}

/// None, one less, one more, half, doubled, or any length up to that.
fn other_length(random: &mut Random, bytes: &[u8]) -> Vec<u8> {
    let length = bytes.len();
    let any = random.below(2 * length + 1);
    let lengths = [0, length - 1, length + 1, length / 2, 2 * length, any];
    let mut other = bytes.to_vec();
    other.resize(random.pick(&lengths), 0);
    other
}

/// All cases of a kind; of the outcomes that they aim at, each call met each
/// that it has a hundred times.
fn run(count: usize, case: fn(usize) -> Outcomes, aimed_at: &[usize]) {
    let mut outcomes = Outcomes::default();
    let cases = cases(count);
    let all = cases.len() == count;
    for number in cases {
        outcomes.add(&case(number));
    }
    println!("{outcomes}");
    assert!(!all || outcomes.cover(aimed_at, 100), "{outcomes}");
}

#[test]
fn lists_of_calls() {
    run(
        20_000,
        list,
        &[
            0, 3, 4, 5, 6, 7, 8, 9, 10, 11, 12, 13, 14, 15, 16, 17, 18, 19, 20,
        ],
    );
}

#[test]
fn calls_with_any_ledgers() {
    run(
        20_000,
        any_ledgers,
        &[
            0, 4, 5, 6, 7, 8, 9, 10, 11, 12, 13, 14, 15, 16, 17, 18, 19, 20,
        ],
    );
}

#[test]
fn calls_with_any_lengths() {
    run(200_000, any_lengths, &[1, 2, 3]);
}
