//! The time that a save carries: typed, from the machine's clock, or another
//! deck's.

mod common;

use std::fs;
use std::time::{SystemTime, UNIX_EPOCH};

use common::Folder;
use station::{SaveTime, LEDGER, STAMP};

/// A time as it is typed, and as it is told: both signs of zones, leap days, other
/// days in UTC, and the edges of what a save can carry.
const TIMES: &str = "\
2026-11-15T14:05+01:00 | 2026-11-15 14:05 +01:00 (13:05 UTC)
2026-11-15T14:05:59.999999+01:00 | 2026-11-15 14:05 +01:00 (13:05 UTC)
2026-11-15T14:05-03:30 | 2026-11-15 14:05 -03:30 (17:35 UTC)
2026-11-15T14:05+05:45 | 2026-11-15 14:05 +05:45 (08:20 UTC)
2026-11-15T14:05-00:30 | 2026-11-15 14:05 -00:30 (14:35 UTC)
2026-11-15T14:05Z | 2026-11-15 14:05 +00:00 (14:05 UTC)
2026-11-15T14:05:09Z | 2026-11-15 14:05 +00:00 (14:05 UTC)
2026-11-15T14:05-00:00 | 2026-11-15 14:05 +00:00 (14:05 UTC)
2026-11-15T14:05 | 2026-11-15 14:05, zone not given, taken as UTC
2026-11-15T14:05:09.5 | 2026-11-15 14:05, zone not given, taken as UTC
2026-11-15T00:00+00:00 | 2026-11-15 00:00 +00:00 (00:00 UTC)
2026-11-15T23:59-00:00 | 2026-11-15 23:59 +00:00 (23:59 UTC)
2027-01-01T00:30+01:00 | 2027-01-01 00:30 +01:00 (2026-12-31 23:30 UTC)
2026-12-31T23:30-01:00 | 2026-12-31 23:30 -01:00 (2027-01-01 00:30 UTC)
2024-03-01T00:00+00:01 | 2024-03-01 00:00 +00:01 (2024-02-29 23:59 UTC)
2023-03-01T00:00+00:01 | 2023-03-01 00:00 +00:01 (2023-02-28 23:59 UTC)
2000-02-29T12:00+14:00 | 2000-02-29 12:00 +14:00 (2000-02-28 22:00 UTC)
2096-02-29T12:00-12:00 | 2096-02-29 12:00 -12:00 (2096-03-01 00:00 UTC)
1970-01-01T00:30+01:00 | 1970-01-01 00:30 +01:00 (1969-12-31 23:30 UTC)
1970-01-01T00:00+24:00 | 1970-01-01 00:00 +24:00 (1969-12-31 00:00 UTC)
1970-01-01T00:00-24:00 | 1970-01-01 00:00 -24:00 (1970-01-02 00:00 UTC)
1970-01-01T00:00 | 1970-01-01 00:00, zone not given, taken as UTC
2099-12-31T23:59:59+24:00 | 2099-12-31 23:59 +24:00 (2099-12-30 23:59 UTC)
2099-12-31T23:59:59-24:00 | 2099-12-31 23:59 -24:00 (2100-01-01 23:59 UTC)";

fn rows(table: &str) -> impl Iterator<Item = (&str, &str)> {
    let row = |row| str::split_once(row, " | ").expect("two parts");
    table.lines().map(row)
}

#[test]
fn a_time_that_is_typed_is_told() {
    let folder = Folder::begun(31);
    for (block, (typed, told)) in rows(TIMES).enumerate() {
        let saved = folder.done(&format!("commit run.disc --at {typed}"));
        let since = if block == 0 {
            ""
        } else {
            " since the last save"
        };
        let start = format!("saved, table at block {block}: 0 numbers in use, none new{since}");
        assert_eq!(saved, format!("{start}\n{told}\n"));
        assert_eq!(folder.done("time run.disc 0"), format!("0 back: {told}\n"));
    }
    for (k, (_, told)) in rows(TIMES).collect::<Vec<_>>().iter().rev().enumerate() {
        let line = format!("time run.disc {k}");
        assert_eq!(folder.done(&line), format!("{k} back: {told}\n"));
    }
}

/// The 12 bytes: zone and type, year, then a byte for each part.
#[test]
fn a_time_is_recorded_as_it_is_typed() {
    let rows: [(&str, [u8; STAMP]); 9] = [
        ("14:05+01:00", [60, 0x10, 234, 7, 11, 15, 14, 5, 0, 0, 0, 0]),
        ("14:05-01:00", [196, 31, 234, 7, 11, 15, 14, 5, 0, 0, 0, 0]),
        ("14:05+24:00", [160, 21, 234, 7, 11, 15, 14, 5, 0, 0, 0, 0]),
        ("14:05-24:00", [96, 26, 234, 7, 11, 15, 14, 5, 0, 0, 0, 0]),
        ("14:05Z", [0, 16, 234, 7, 11, 15, 14, 5, 0, 0, 0, 0]),
        ("14:05", [1, 24, 234, 7, 11, 15, 14, 5, 0, 0, 0, 0]),
        ("23:59:58Z", [0, 16, 234, 7, 11, 15, 23, 59, 58, 0, 0, 0]),
        ("00:00:01.25", [1, 24, 234, 7, 11, 15, 0, 0, 1, 25, 0, 0]),
        (
            "07:08:09.123456Z",
            [0, 16, 234, 7, 11, 15, 7, 8, 9, 12, 34, 56],
        ),
    ];
    let folder = Folder::begun(31);
    for (block, (time, bytes)) in rows.into_iter().enumerate() {
        folder.done(&format!("commit run.disc --at 2026-11-15T{time}"));
        let table = folder.sector(block);
        for place in [72, 84, 96] {
            assert_eq!(table[place..place + STAMP], bytes, "{time} at {place}");
        }
    }
}

/// A commit without a time is what it was: zeros, and one line.
#[test]
fn a_save_without_a_time() {
    let folder = Folder::begun(31);
    let saved = "saved, table at block 0: 0 numbers in use, none new\n";
    assert_eq!(folder.done("commit run.disc"), saved);
    assert!(folder.sector(0)[72..108] == [0; 36]);
    folder.fails("time run.disc 0", 16);
    folder.done("commit run.disc --at 2026-11-15T14:05Z");
    folder.done("commit run.disc");
    folder.fails("time run.disc 0", 16);
    folder.done("time run.disc 1");
    folder.fails("time run.disc 2", 16);
}

/// They have the form of a time. The core says that no save can carry them.
const BEYOND: &str = "\
2099-02-29T12:00Z 2026-02-29T12:00Z 2026-02-30T12:00 2026-04-31T12:00Z 2026-11-00T12:00Z \
2026-11-32T12:00Z 2026-00-15T12:00Z 2026-13-15T12:00Z 1969-12-31T23:59Z 2100-01-01T00:00Z \
0000-01-01T00:00Z 9999-12-31T23:59Z 2026-11-15T24:00Z 2026-11-15T23:60Z 2026-11-15T23:59:60Z \
2026-11-15T99:99:99Z 2026-11-15T14:05+24:01 2026-11-15T14:05-24:01 2026-11-15T14:05+25:00 \
2026-11-15T14:05+34:07 2026-11-15T14:05-34:07 2026-11-15T14:05-34:08 2026-11-15T14:05+34:08 \
2026-11-15T14:05+68:15 2026-11-15T14:05-68:15 2026-11-15T14:05+99:59 2026-11-15T14:05-99:59";

#[test]
fn a_time_that_no_save_can_carry() {
    let folder = Folder::begun(31);
    for time in BEYOND.split(' ') {
        let told = folder.fails(&format!("commit run.disc --at {time}"), 16);
        let start = format!("station: refusal 16: No save can carry the time {time}: it takes ");
        assert!(told.starts_with(&start), "{time}: {told}");
        folder.fails(&format!("cut 0 commit run.disc --at {time}"), 16);
    }
}

/// What has another form is no time, whatever it may mean elsewhere.
const OTHER_FORMS: &str = "\
now 14:05 2026-11-15 2026-11-15T 2026-11-15T14 2026-11-15T1405 20261115T1405Z \
T14:05 2026-11T14:05 2026-11-15-16T14:05 2026-11-15t14:05 2026-11-15T14:05z \
26-11-15T14:05 12026-11-15T14:05 2026-1-15T14:05 2026-11-5T14:05 15.11.2026T14:05 \
2026-11-15T4:05 2026-11-15T14:5 2026-11-15T14:05:9 2026-11-15T14:05: \
2026-11-15T14:05:09:09 2026-11-15T14:05:09. 2026-11-15T14:05:09.1234567 \
2026-11-15T14:05:09.12x 2026-11-15T14:05:.5 2026-11-15T14:05.5 2026-11-15T14:05:09,5 \
2026-11-15T14:05+ 2026-11-15T14:05+1 2026-11-15T14:05+01 2026-11-15T14:05+0100 \
2026-11-15T14:05+1:00 2026-11-15T14:05+01:0 2026-11-15T14:05+01:60 2026-11-15T14:05-00:99 \
2026-11-15T14:05+01:00:00 2026-11-15T14:05+-1:00 2026-11-15T14:05+001:00 \
2026-11-15T14:05ZZ 2026-11-15T14:05Z+01:00 2026-11-15T14:05+01:00Z 2026-11-15T14:05UTC \
2026-11-15T14:05−01:00 ２０２６-11-15T14:05 2026-11-15T14:05:09.é 2026-11-15T14:05+é:00 \
2026-11-15T+4:05 +026-11-15T14:05";

#[test]
fn what_is_no_time() {
    let folder = Folder::begun(31);
    for typed in OTHER_FORMS.split(' ') {
        let told = folder.fails(&format!("commit run.disc --at {typed}"), 64);
        let fault = format!("--at is a time such as 2026-11-15T14:05+01:00, not '{typed}'");
        let all = format!("station: {fault}\nTry 'station commit --help'.\n");
        assert_eq!(told, all);
    }
    let told = folder.shell("station commit run.disc --at '2026-11-15 14:05'");
    assert!(told.contains("not '2026-11-15 14:05'"), "{told}");
    let told = folder.shell("station commit run.disc --at=; echo $?");
    assert!(
        told.contains("not ''") && told.ends_with("\n64\n"),
        "{told}"
    );
}

/// "Tests: 1, 2, 3, 4, 5, 16, 14."
#[test]
fn the_order_of_tests() {
    let (good, bad) = ("2026-11-15T14:05Z", "2099-02-29T14:05Z");
    let folder = Folder::saved_at(2, &[good]);
    folder.done("look-back run.disc 0");
    folder.fails(&format!("commit run.disc --at {bad}"), 5);
    folder.done("mount run.disc");
    folder.fails(&format!("commit run.disc --at {bad}"), 16);
    folder.fails(&format!("commit run.disc --at {good}"), 14);
    folder.fails("commit run.disc --now", 14);
    fs::remove_file(folder.path("run.disc.ledger")).expect("the ledger");
    folder.fails(&format!("commit run.disc --at {bad}"), 4);
    folder.set_kind(0, b'0');
    folder.set_kind(1, b'1');
    folder.fails(&format!("commit run.disc --at {bad}"), 3);
}

/// Minutes from 1970 in UTC, on the machine's clock.
fn clock() -> i32 {
    let since = SystemTime::now().duration_since(UNIX_EPOCH);
    (since.expect("after 1970").as_secs() / 60) as i32
}

/// What the core tells of the newest save.
fn newest(folder: &Folder) -> SaveTime {
    let kinds: Vec<u8> = folder.kinds().bytes().map(|digit| digit - b'0').collect();
    let image: Vec<u8> = (0..kinds.len())
        .flat_map(|block| folder.sector(block))
        .collect();
    station::time_of(&image, &kinds, &[0; LEDGER], 0).expect("a time")
}

/// How a machine is told its zone, and how a save then tells it. The first name is
/// the zone's; what stands behind it is how far UTC is ahead. Summer time is on all
/// year in one. The seconds of an old zone are left out.
const ZONES: &str = "\
UTC0 | +00:00
AAA-1 | +01:00
AAA-1BBB,0/0,J365/25 | +02:00
AAA-5:45 | +05:45
AAA3:30 | -03:30
AAA-0:53:28 | +00:53
AAA0:44:30 | -00:44
AAA-24 | +24:00
AAA24 | -24:00";

/// In UTC it is the same whatever the zone.
#[test]
fn the_machines_clock_and_zone() {
    for (zone, told) in rows(ZONES) {
        let folder = Folder::begun(8);
        let before = clock();
        let saved = folder.shell(&format!("TZ='{zone}' station commit run.disc --now"));
        let after = clock();
        let found = newest(&folder);
        assert!(found.zone_given && (before..=after).contains(&found.minutes));
        let start = "saved, table at block 0: 0 numbers in use, none new\n";
        let line = saved.strip_prefix(start).expect(&saved);
        assert!(line.contains(&format!(" {told} (")), "{zone}: {line}");
        assert_eq!(folder.done("time run.disc 0"), format!("0 back: {line}"));
    }
}

/// The system's files of zones name one so that nobody has set.
#[test]
fn a_machine_that_knows_no_zone() {
    let folder = Folder::begun(8);
    let before = clock();
    let saved = folder.shell("TZ='<-00>0' station commit run.disc --now");
    let after = clock();
    let found = newest(&folder);
    assert!(!found.zone_given && (before..=after).contains(&found.minutes));
    assert!(
        saved.ends_with(", zone not given, taken as UTC\n"),
        "{saved}"
    );
}

/// A file of a zone, in the first form of RFC 8536, with one time so far ahead of UTC.
fn zone_file(seconds: i32) -> Vec<u8> {
    let counts: [u32; 6] = [0, 0, 0, 0, 1, 4];
    let mut file = b"TZif".to_vec();
    file.extend([0; 16]);
    file.extend(counts.iter().flat_map(|count| count.to_be_bytes()));
    file.extend(seconds.to_be_bytes());
    file.extend([0, 0]);
    file.extend(b"AAA\0");
    file
}

/// Where the zones are those in a folder of the test.
fn saved_in_zone(folder: &Folder, zone: &str) -> String {
    let line = format!("TZDIR=\"$PWD\" {zone} station commit run.disc --now");
    folder.shell(&line).lines().nth(1).expect("a time").into()
}

/// A name among the zones, with a colon and without, and a file's own; and a rule.
#[test]
fn a_zone_that_is_named() {
    let folder = Folder::begun(60);
    folder.put("Bench", &zone_file(5 * 3600 + 45 * 60));
    for (zone, told) in [
        ("TZ=Bench", "+05:45"),
        ("TZ=:Bench", "+05:45"),
        ("TZ=\"$PWD/Bench\"", "+05:45"),
        ("TZ=\":$PWD/Bench\"", "+05:45"),
        ("TZ=UTC0", "+00:00"),
        ("TZ=CET-1", "+01:00"),
        ("TZ=CET-1CEST,0/0,J365/25", "+02:00"),
    ] {
        let line = saved_in_zone(&folder, zone);
        assert!(line.contains(&format!(" {told} (")), "{zone}: {line}");
    }
}

/// The library takes UTC for all of them, as if somebody had set it.
#[test]
fn a_zone_that_is_not_known() {
    let folder = Folder::begun(60);
    folder.put("notes", b"the bench is in Berlin");
    for zone in [
        "TZ=",
        "TZ=:",
        "TZ=Europe/Berlin",
        "TZ=Berlin",
        "TZ=UTC",
        "TZ=notes",
        "TZ=\"$PWD\"",
        "TZ=/nowhere",
        "TZ=CET-1CEST,rule",
        "TZ=CET-99",
        "TZ=+01:00",
    ] {
        let before = clock();
        let line = saved_in_zone(&folder, zone);
        let end = ", zone not given, taken as UTC";
        assert!(line.ends_with(end), "{zone}: {line}");
        let found = newest(&folder);
        assert!(!found.zone_given && (before..=clock()).contains(&found.minutes));
    }
}

/// Without `TZ` it is the machine's file, and without that one no zone is given.
#[test]
fn a_machine_without_tz() {
    let folder = Folder::begun(60);
    let line = saved_in_zone(&folder, "env -u TZ");
    let file = fs::read("/etc/localtime").unwrap_or_default();
    assert_eq!(
        line.contains("not given"),
        !file.starts_with(b"TZif"),
        "{line}"
    );
}

/// A zone that no save can carry is the core's to refuse.
#[test]
fn a_machine_with_a_wrong_zone() {
    let folder = Folder::begun(8);
    let told = folder.shell("TZ=AAA-24:30 station commit run.disc --now; echo $?");
    assert!(told.starts_with("station: refusal 16: "), "{told}");
    assert!(told.ends_with("\n16\n"), "{told}");
}

/// Seconds and their fractions are recorded, and change from save to save.
#[test]
fn the_clocks_seconds() {
    let folder = Folder::begun(31);
    let recorded = |block| {
        folder.done("commit run.disc --now");
        folder.sector(block)[84..96].to_vec()
    };
    let stamps: Vec<Vec<u8>> = (0..20).map(recorded).collect();
    for fraction in 9..12 {
        let other = |stamp: &Vec<u8>| stamp[fraction] != stamps[0][fraction];
        assert!(stamps.iter().any(other), "{stamps:?}");
    }
}

/// A save of mkudffs, which stands for another deck, carries that deck's time.
#[test]
fn a_save_of_another_deck() {
    let folder = Folder::new();
    let before = clock();
    folder.shell("TZ=AAA-5:45 mkudffs --new-file -m cdr -r 1.50 deck.img 2000");
    let after = clock();
    folder.done("import deck.img run.disc --start 257 --sectors 1743");
    let told = folder.done("time run.disc 0");
    let found = newest(&folder);
    assert!(found.zone_given && (before..=after).contains(&found.minutes));
    assert!(told.contains(" +05:45 ("), "{told}");
    let listing = folder.done("list run.disc --times");
    assert_eq!(listing.matches(" +05:45 ").count(), 1);
}
