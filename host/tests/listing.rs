//! The listing program, `crates/list/out/list`, run on inputs of the form and of
//! others. What it must print is worked out by the model of document 01.

mod common;

use std::io::Write;
use std::path::Path;
use std::process::{Command, Stdio};

use common::large::{map_over, places, Large, SIZES};
use common::station::Station;
use common::tables::{most_attributes, vat_behind};
use station_model::answer::Refusal;
use station_model::calls::Call;
use station_model::disc::Disc;
use station_model::table::{vat_sector, NONE, SECTOR};

const HEADING: &str = "   k   block  size  used\n";
const ANOTHER_FORM: &str = "refused   1\n";

/// What the program prints for an input.
fn listed(input: &[u8]) -> String {
    let program = Path::new(env!("CARGO_MANIFEST_DIR")).join("../crates/list/out/list");
    let mut running = Command::new(&program)
        .stdin(Stdio::piped())
        .stdout(Stdio::piped())
        .spawn()
        .unwrap_or_else(|error| {
            panic!(
                "{}: {error}; rt run in crates/list makes it",
                program.display()
            )
        });
    // It may answer before it has read all of an input that is too long.
    let _ = running.stdin.take().expect("a pipe").write_all(input);
    let output = running.wait_with_output().expect("an answer");
    assert!(output.status.success());
    String::from_utf8(output.stdout).expect("text")
}

/// "the sector count, right-justified in 8 columns; newline; one digit 0 to 3 a
/// sector; newline; the image"
fn input(station: &Station) -> Vec<u8> {
    let mut bytes = format!("{:8}\n", station.kinds.len()).into_bytes();
    bytes.extend(station.kinds.iter().map(|kind| kind + b'0'));
    bytes.push(b'\n');
    bytes.extend(&station.image);
    bytes
}

/// The listing by the model: rows of look back 0, 1, .. until a refusal.
fn listing_of(disc: &Disc) -> String {
    let Some(newest) = disc.newest_vat() else {
        return "refused   7\n".into();
    };
    let clean = newest.block + 1 == disc.recorded();
    let mut text = String::from(HEADING);
    for k in 0.. {
        match disc.walk_back(k) {
            Ok(found) => {
                let map = &found.vat.map;
                let used = map.iter().filter(|entry| **entry != NONE).count();
                text += &format!("{k:4}{:8}{:6}{used:6}\n", found.block, map.len());
            }
            Err(Refusal::ChainBroken) => return text + "broken\n",
            Err(_) => break,
        }
    }
    text + if clean { "clean\n" } else { "dirty\n" }
}

fn assert_listed(station: &Station) {
    assert_eq!(listed(&input(station)), listing_of(&station.disc()));
}

/// "A blank disc of 31: begin, write 0, commit, write 1, release 0, commit,
/// close packet, commit."
fn disc_of_31() -> Station {
    let mut station = Station::begun(31);
    station.call_lent(Call::Write(0), &mut [7; SECTOR]);
    station.call(Call::Commit);
    station.call_lent(Call::Write(1), &mut [8; SECTOR]);
    station.call(Call::Release(0));
    station.call(Call::Commit);
    station.call(Call::ClosePacket);
    station.call(Call::Commit);
    station
}

/// Tables in a row from block 0 on, each naming the one before it.
fn tables(sectors: usize, previous: impl Fn(u32) -> u32) -> Station {
    let mut station = Station::blank(sectors);
    for block in 0..sectors as u32 {
        station.put_sector(block, 1, &vat_sector(block, &[], previous(block)));
    }
    station
}

#[test]
fn the_example_is_listed_as_document_01_shows() {
    let text = format!(
        "{HEADING}{}{}{}clean\n",
        "   0      11     2     1\n", "   1       3     2     1\n", "   2       1     1     1\n"
    );
    assert_eq!(listed(&input(&disc_of_31())), text);
    assert_listed(&disc_of_31());
}

#[test]
fn another_form_is_refused() {
    let good = input(&disc_of_31());
    let with = |at: usize, bytes: &[u8]| {
        let mut changed = good.clone();
        changed[at..at + bytes.len()].copy_from_slice(bytes);
        changed
    };
    let longer = [good.clone(), vec![0]].concat();
    let far_longer = [good.clone(), vec![0; 10_000]].concat();
    let mut more_sectors = input(&Station::blank(32));
    let forms: [&[u8]; 17] = [
        b"",
        b"\n",
        b"       0\n\n",
        &good[..8],
        &good[..good.len() - 1],
        &longer,
        &far_longer,
        &with(0, b"      31 "),
        &with(0, b"     031\n"),
        &with(0, b"00000031\n"),
        &with(0, b"31      \n"),
        &with(0, b"      30\n"),
        &with(0, b"     +31\n"),
        &with(9, b"4"),
        &with(12, b" "),
        &with(40, b"0"),
        more_sectors.as_mut_slice(),
    ];
    for form in forms {
        assert_eq!(
            listed(form),
            ANOTHER_FORM,
            "{:?}",
            &form[..form.len().min(50)]
        );
    }
}

#[test]
fn a_refused_mount_is_told() {
    for sectors in 1..=31 {
        assert_eq!(listed(&input(&Station::blank(sectors))), "refused   7\n");
    }
    let mut gap = disc_of_31();
    gap.kinds[3] = 0;
    assert_eq!(listed(&input(&gap)), "refused   3\n");
}

#[test]
fn dirty_and_broken_discs_are_listed() {
    let mut dirty = disc_of_31();
    dirty.call_lent(Call::Write(0), &mut [9; SECTOR]);
    assert_listed(&dirty);
    let mut struck = disc_of_31();
    struck.kinds[12] = 3;
    assert_listed(&struck);
    let mut broken = disc_of_31();
    broken.kinds[3] = 3;
    assert!(listed(&input(&broken)).ends_with("broken\n"));
    assert_listed(&broken);
}

#[test]
fn chains_of_every_length_are_listed() {
    for sectors in 1..=31 {
        assert_listed(&tables(sectors, |block| {
            block.checked_sub(1).unwrap_or(NONE)
        }));
        assert_listed(&tables(sectors, |block| {
            block.checked_sub(2).unwrap_or(NONE)
        }));
        assert_listed(&tables(sectors, |_| NONE));
    }
}

/// Each map stands behind no attributes, and behind as many as leave it room.
#[test]
fn maps_of_every_size_are_listed() {
    for size in (0..=458).step_by(17).chain([1, 9, 10, 99, 100, 457, 458]) {
        let mut station = Station::blank(3);
        let map: Vec<u32> = (0..size)
            .map(|v| if v % 3 == 0 { NONE } else { 0 })
            .collect();
        station.put_sector(0, 1, &[0; SECTOR]);
        station.put_sector(1, 1, &vat_sector(1, &map, NONE));
        assert_listed(&station);
        let attributes = vec![0xA7; most_attributes(size)];
        station.put_sector(1, 1, &vat_behind(&attributes, 1, &map, NONE));
        assert_listed(&station);
    }
}

/// A chain of ours and of another writer's tables, which stand behind attributes;
/// where the length of these is no multiple of 4, it breaks.
#[test]
fn tables_behind_attributes_are_listed() {
    for (length, end) in [(220, "clean\n"), (218, "broken\n")] {
        let mut station = disc_of_31();
        let foreign = vat_behind(&vec![0xA7; length], 3, &[NONE, 2], 1);
        station.put_sector(3, 1, &foreign);
        assert!(listed(&input(&station)).ends_with(end));
        assert_listed(&station);
    }
}

/// Tables of every size in own sectors, ours and another writer's, alone and in a chain;
/// and what is listed where one of their sectors is lost.
#[test]
fn tables_in_own_sectors_are_listed() {
    for size in SIZES {
        let mut station = Station::blank(31);
        station.kinds[..25].fill(1);
        let first = Large::recorded_from(1, &map_over(1, size), NONE);
        first.put(&mut station);
        let own: Vec<u32> = (12..).take(places(size)).collect();
        let reversed: Vec<u32> = own.into_iter().rev().collect();
        let mut second = Large::lying_in(&reversed, 24, &map_over(24, size), first.block);
        second.attributes = vec![0xA7; 220];
        second.put(&mut station);
        assert!(listed(&input(&station)).ends_with("clean\n"));
        assert_listed(&station);
        for (lost, kind) in [(1, 3), (first.block, 2), (12, 2), (24, 3)] {
            let mut broken = station.clone();
            broken.kinds[lost as usize] = kind;
            assert_listed(&broken);
        }
    }
}
