//! The typed functions: each answers what the raw one answers and leaves the
//! same bytes.

mod common;

use common::closing::disc_of_closings;
use common::core::Core;
use common::forge;
use common::random::{cases, Random};
use common::runs;
use common::station::Station;
use station::{Extent, Refusal};
use station_model::anchor::Anchor;
use station_model::calls::Call;
use station_model::disc::Disc;
use station_model::extent;
use station_model::ledger::Volume;
use station_model::run::{entry_sector, MOST_EXTENTS};
use station_model::table::SECTOR;

/// The typed call; what it gives as a number, as document 01 has it, and a time
/// as the 8 bytes of document 02.
fn typed(core: &mut Core, call: Call, buffer: &mut [u8]) -> Result<u32, Refusal> {
    let (image, kinds) = (&mut core.image, &mut core.kinds);
    let (roles, ledger) = (&mut core.roles, &mut core.ledger);
    match call {
        Call::Begin => station::begin(image, kinds, roles, ledger).map(|()| 0),
        Call::Mount => station::mount(image, kinds, roles, ledger).map(u32::from),
        Call::Write(v) => station::write(image, kinds, roles, ledger, v, buffer),
        Call::WriteUnnumbered => station::write_unnumbered(image, kinds, roles, ledger, buffer),
        Call::Release(v) => station::release(image, kinds, roles, ledger, v).map(|()| 0),
        Call::ClosePacket => station::close_packet(image, kinds, roles, ledger).map(|()| 0),
        Call::Commit => station::commit(image, kinds, roles, ledger),
        Call::CommitAt => station::commit_at(image, kinds, roles, ledger, buffer),
        Call::Read(v) => station::read(image, kinds, ledger, v, buffer).map(|()| 0),
        Call::View { v, offset } => station::view(image, kinds, ledger, v, offset, buffer),
        Call::LookBack(k) => station::look_back(image, kinds, roles, ledger, k),
        Call::CloseSession(Anchor {
            main,
            reserve,
            partition_start,
        }) => {
            let (main, reserve) = (extent(main), extent(reserve));
            station::close_session(image, kinds, roles, ledger, main, reserve, partition_start)
        }
        Call::TimeOf(k) => {
            let told = station::time_of(image, kinds, ledger, k)?;
            let marked = u32::from(!told.zone_given);
            let answer = [told.minutes.to_le_bytes(), marked.to_le_bytes()];
            buffer.copy_from_slice(&answer.concat());
            Ok(0)
        }
    }
}

fn extent(extent: extent::Extent) -> Extent {
    Extent {
        length: extent.length,
        location: extent.location,
    }
}

/// "outcome × 4,294,967,296 + second number"
fn packed(answer: Result<u32, Refusal>) -> u64 {
    match answer {
        Ok(second) => u64::from(second),
        Err(refusal) => u64::from(refusal.number()) << 32,
    }
}

fn any_station(random: &mut Random) -> Station {
    let sectors = 1 + random.below(20);
    let mut station = forge::used_disc_with_vats(random, sectors);
    match random.below(24) {
        0..=7 => station = Station::blank(sectors),
        8 => station = disc_of_closings(random),
        9..=14 => runs::plant_entries(random, &mut station),
        _ => {}
    }
    let fitting = forge::fitting(random, &station.disc()).to_bytes();
    station.ledger = forge::spoiled(random, &fitting);
    if random.one_in(2) {
        station.ledger = fitting.to_vec();
    }
    station.roles = random_roles(random, station.kinds.len());
    match random.below(12) {
        0 => station.kinds[0] = 7,
        1 => station.kinds.push(0),
        2 => station.ledger.push(0),
        3 => station.roles.push(0),
        _ => {}
    }
    station
}

/// Any bytes: no call reads them.
fn random_roles(random: &mut Random, sectors: usize) -> Vec<u8> {
    (0..sectors).map(|_| random.next() as u8).collect()
}

/// Views are as a rule of a run, if the ledger fits and names one.
fn any_call(random: &mut Random, station: &Station) -> Call {
    let call = forge::call(random, forge::size_in(&station.ledger), 2);
    let disc = Disc::lent(&station.image, &station.kinds).ok();
    let disc = disc.filter(|disc| disc.is_sound());
    match (disc, Volume::load(&station.ledger)) {
        (Some(disc), Some(volume)) if volume.fits(&disc) => {
            runs::aimed(random, &disc, &volume, call)
        }
        _ => call,
    }
}

#[test]
fn typed_answers_are_the_raw_ones() {
    let mut met = [false; 21];
    let all = cases(40_000);
    let whole = all.len() > 1;
    for case in all {
        let mut random = Random::of_case(case);
        let station = any_station(&mut random);
        let call = any_call(&mut random, &station);
        let buffer = forge::buffer(&mut random, call, &station.image, &station.kinds);
        let (mut one, mut two) = (Core::holding(&station, 0), Core::holding(&station, 0));
        let (mut one_buffer, mut two_buffer) = (buffer.clone(), buffer);
        let raw = one.perform(call, &mut one_buffer);
        let answer = typed(&mut two, call, &mut two_buffer);
        assert_eq!(packed(answer), raw, "case {case}, {call:?}");
        assert!(one.same_bytes(&two) && one_buffer == two_buffer);
        met[(raw >> 32) as usize] = true;
    }
    assert!(!whole || met.iter().all(|met| *met), "{met:?}");
}

/// Whether a disc is closed, of discs of every kind; 1 and 3 are passed on.
#[test]
fn closed_as_the_model_says() {
    let mut met = [0; 2];
    let all = cases(4_000);
    let whole = all.len() > 1;
    for case in all {
        let mut random = Random::of_case(case);
        let mut station = any_station(&mut random);
        if random.one_in(3) {
            station = disc_of_closings(&mut random);
        }
        let closed = Disc::lent(&station.image, &station.kinds)
            .map_err(|_| Refusal::DiscSize)
            .and_then(|disc| match disc.is_sound() {
                true => Ok(disc.is_closed()),
                false => Err(Refusal::DiscUnsound),
            });
        let answer = station::is_closed(&station.image, &station.kinds);
        assert_eq!(answer, closed, "case {case}");
        if let Ok(closed) = closed {
            met[usize::from(closed)] += 1;
        }
    }
    println!("{met:?} discs open and closed");
    assert!(!whole || met.iter().all(|count| *count > 100), "{met:?}");
}

/// The maker's entries are the model's, also of extents that no run has.
#[test]
fn entries_as_the_model_makes_them() {
    for case in cases(2_000) {
        let mut random = Random::of_case(case);
        let count = 1 + random.below(MOST_EXTENTS);
        let any = |_| extent::Extent {
            length: (random.next() as u32 % (1 << 30)) >> random.below(30),
            location: random.next() as u32,
        };
        let extents: Vec<extent::Extent> = (0..count).map(any).collect();
        let block = random.next() as u32;
        let ours: Vec<Extent> = extents.iter().copied().map(extent).collect();
        let made = station::file_entry(&ours, block);
        assert_eq!(made, entry_sector(block, &extents), "case {case}");
    }
}

/// The text tells number and cause; a refusal is an error like others.
#[test]
fn refusals_as_errors() {
    let (mut role, mut ledger) = ([0], [0; station::LEDGER]);
    let refused = station::begin(&[], &[], &mut [], &mut ledger).expect_err("no sectors");
    assert_eq!(refused, Refusal::DiscSize);
    let error: Box<dyn std::error::Error> = Box::new(refused);
    assert_eq!(
        error.to_string(),
        "refusal 1: no sectors, more than 360,000, or image length is not 2048 × kinds length"
    );
    let refused = station::mount(&[0; SECTOR], &[0], &mut role, &mut ledger);
    let refused = refused.expect_err("a blank disc");
    assert_eq!(
        refused.to_string(),
        "refusal 7: mount, look back or asking for a time, and no table sector exists"
    );
}
