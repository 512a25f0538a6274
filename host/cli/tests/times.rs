//! When a save was made: asking for one time, and the listing with all of them.

mod common;

use std::fs;

use common::{disc_file, Folder, Told, EXAMPLE_LISTING};
use station::{Timestamp, LEDGER, SECTOR};
use station_model::table::seal;

/// Asking changes nothing and needs no ledger, also while it looks back.
#[test]
fn asking_for_a_time() {
    let folder = Folder::saved_at(31, &["2026-11-15T14:05+01:00", "2026-11-15T15:05+01:00"]);
    let first = "1 back: 2026-11-15 14:05 +01:00 (13:05 UTC)\n";
    let asked = || {
        let before = folder.files();
        let told = folder.done("time run.disc 1");
        assert!(folder.files() == before);
        told
    };
    assert_eq!(asked(), first);
    folder.done("look-back run.disc 1");
    assert_eq!(asked(), first);
    folder.done("mount run.disc");
    folder.write(0, "run A");
    assert_eq!(asked(), first);
    folder.put("run.disc.ledger", b"anything");
    assert_eq!(asked(), first);
    fs::remove_file(folder.path("run.disc.ledger")).expect("the ledger");
    assert_eq!(asked(), first);
}

/// "Tests: 1, 2, 3, 7, then 8 or 9 at the first failing step, then 16."
#[test]
fn asking_for_a_time_that_is_not_there() {
    let folder = Folder::begun(31);
    folder.fails("time run.disc 0", 7);
    folder.done("commit run.disc");
    folder.done("commit run.disc --at 2026-11-15T14:05Z");
    folder.done("commit run.disc --at 2026-11-15T15:05Z");
    let told = folder.fails("time run.disc 2", 16);
    assert!(told.contains("The save 2 back carries no time"), "{told}");
    folder.fails("time run.disc 3", 9);
    folder.fails("time run.disc 4294967295", 9);
    folder.set_kind(0, b'3');
    folder.done("time run.disc 1");
    folder.fails("time run.disc 2", 8);
    folder.set_kind(1, b'2');
    folder.fails("time run.disc 3", 8);
    folder.done("time run.disc 0");
    folder.set_kind(9, b'1');
    folder.fails("time run.disc 0", 3);
    folder.fails("time nothing.disc 0", 66);
    folder.put("no.disc", b"no disc");
    folder.fails("time no.disc 0", 65);
}

/// A commit that is cut makes its save, with its time, if its table is kept.
#[test]
fn a_save_that_is_cut() {
    let old = "0 back: 2026-11-15 14:05 +01:00 (13:05 UTC)\n";
    let new = "0 back: 2026-11-15 14:40 +01:00 (13:40 UTC)\n";
    for torn in ["", "--torn"] {
        for kept in 0..=8 {
            if kept == 8 && torn == "--torn" {
                continue;
            }
            let folder = Folder::saved_at(31, &["2026-11-15T14:05+01:00"]);
            folder.done("close run.disc");
            folder.done(&format!(
                "cut {kept} {torn} commit run.disc --at 2026-11-15T14:40+01:00"
            ));
            let shown = if kept == 8 { new } else { old };
            assert_eq!(folder.done("time run.disc 0"), shown, "{kept} {torn}");
            folder.done("mount run.disc");
            assert_eq!(folder.done("time run.disc 0"), shown, "{kept} {torn}");
        }
    }
    let folder = Folder::saved_at(31, &["2026-11-15T14:05+01:00"]);
    folder.done("cut 1 commit run.disc --now");
    assert!(folder.done("time run.disc 0").starts_with("0 back: "));
    folder.done("time run.disc 1");
}

/// Puts bytes into the table at block 0, as another deck might have recorded them.
fn put_in_table(folder: &Folder, place: usize, bytes: &[u8]) {
    let mut sector: [u8; SECTOR] = folder.sector(0).try_into().expect("a sector");
    sector[place..place + bytes.len()].copy_from_slice(bytes);
    seal(&mut sector, 0);
    let mut file = folder.bytes("run.disc");
    let image = file.len() - folder.kinds().len() * SECTOR;
    file[image..image + SECTOR].copy_from_slice(&sector);
    folder.put("run.disc", &file);
}

/// Of a table's three times it is the second.
#[test]
fn the_modification_time_is_told() {
    let folder = Folder::saved_at(9, &["2026-11-15T14:05+01:00"]);
    let other = Timestamp::midnight(1999, 12, 31).to_bytes();
    put_in_table(&folder, 72, &other);
    put_in_table(&folder, 96, &other);
    let told = folder.done("time run.disc 0");
    assert_eq!(told, "0 back: 2026-11-15 14:05 +01:00 (13:05 UTC)\n");
    put_in_table(&folder, 84, &other);
    let told = folder.done("time run.disc 0");
    assert_eq!(told, "0 back: 1999-12-31 00:00 +00:00 (00:00 UTC)\n");
}

/// A time that breaks the limits is none, whoever recorded it.
#[test]
fn a_time_that_another_deck_got_wrong() {
    let folder = Folder::saved_at(9, &["2026-11-15T14:05+01:00"]);
    let right = folder.sector(0)[84..96].to_vec();
    let wrong = [
        (1, 0x20),
        (1, 0x17),
        (3, 9),
        (4, 13),
        (5, 31),
        (6, 24),
        (8, 60),
        (11, 100),
    ];
    for (place, byte) in wrong {
        put_in_table(&folder, 84, &right);
        folder.done("time run.disc 0");
        put_in_table(&folder, 84 + place, &[byte]);
        folder.fails("time run.disc 0", 16);
        let listing = folder.done("list run.disc --times");
        assert!(listing.ends_with("     0  no time\nclean\n"), "{listing}");
    }
}

/// The listing with times, and the exit status; without them it is as it always is.
fn listed(folder: &Folder) -> Told {
    let before = folder.files();
    let told = folder.run("list run.disc --times");
    let plain = folder.run("list run.disc");
    assert!(folder.files() == before);
    assert_eq!((told.status, &told.err), (plain.status, &plain.err));
    let (told_text, plain_text) = (text(&told), text(&plain));
    assert_eq!(told_text.lines().count(), plain_text.lines().count());
    for (told, plain) in told_text.lines().zip(plain_text.lines()) {
        let behind = told.strip_prefix(plain).expect("the same columns");
        assert!(behind.is_empty() || behind.starts_with("  "), "{told}");
        assert_eq!(told, told.trim_end());
    }
    told
}

fn text(told: &Told) -> String {
    String::from_utf8(told.out.clone()).expect("text")
}

#[test]
fn a_listing_with_times() {
    let folder = Folder::saved_at(31, &["2026-12-31T23:30-03:30"]);
    folder.done("commit run.disc");
    folder.done("commit run.disc --at 2027-01-01T10:00");
    folder.done("commit run.disc --at 1970-01-01T00:30+01:00");
    let listing = "   k   block  size  used  local time                UTC
   0       3     0     0  1970-01-01 00:30 +01:00   1969-12-31 23:30
   1       2     0     0  2027-01-01 10:00 no zone  2027-01-01 10:00
   2       1     0     0  no time
   3       0     0     0  2026-12-31 23:30 -03:30   2027-01-01 03:00
clean
";
    assert_eq!(text(&listed(&folder)), listing);
    folder.write(0, "run A");
    let dirty = listing.replace("clean", "dirty");
    assert_eq!(text(&listed(&folder)), dirty);
    // Whatever the ledger holds, or if there is none.
    folder.put("run.disc.ledger", b"anything");
    assert_eq!(text(&listed(&folder)), dirty);
    fs::remove_file(folder.path("run.disc.ledger")).expect("the ledger");
    assert_eq!(text(&listed(&folder)), dirty);
    folder.set_kind(1, b'3');
    let told = listed(&folder);
    let rows = listing.lines().take(3).collect::<Vec<_>>().join("\n");
    assert_eq!((text(&told), told.status), (rows + "\nbroken\n", 8));
}

#[test]
fn a_listing_of_times_that_is_refused() {
    let folder = Folder::begun(31);
    let told = listed(&folder);
    assert_eq!((text(&told).as_str(), told.status), ("refused   7\n", 7));
    folder.set_kind(1, b'1');
    let told = listed(&folder);
    assert_eq!((text(&told).as_str(), told.status), ("refused   3\n", 3));
    folder.put("run.disc", b"no disc");
    let told = listed(&folder);
    assert_eq!((text(&told).as_str(), told.status), ("refused   1\n", 65));
}

/// Document 01's example has no times.
#[test]
fn a_listing_of_saves_without_times() {
    let folder = Folder::example();
    let listing = text(&listed(&folder));
    let without: String = listing
        .lines()
        .map(|line| format!("{}\n", line.get(..24).unwrap_or(line)))
        .collect();
    assert_eq!(without, EXAMPLE_LISTING);
    assert_eq!(listing.matches("  no time\n").count(), 3);
}

/// Each row of a long listing has what `time` tells of k saves back.
#[test]
fn rows_are_those_of_time_k() {
    let sectors = 200;
    let (mut image, mut kinds) = (vec![0; sectors * SECTOR], vec![0; sectors]);
    let (mut roles, mut ledger) = (vec![0; kinds.len()], [0; LEDGER]);
    let (i, k, r, l) = (&mut image, &mut kinds, &mut roles, &mut ledger);
    station::begin(i, k, r, l).expect("begin");
    for v in 0..90 {
        station::write(i, k, r, l, v, &[7; SECTOR]).expect("write");
        let stamp = Timestamp {
            hour: (v % 24) as u8,
            zone: Some(v as i16 * 31 - 1395),
            ..Timestamp::midnight(1970 + v as u16, 1 + (v % 12) as u8, 28)
        };
        match v % 7 {
            0 => station::commit(i, k, r, l).expect("commit"),
            _ => station::commit_at(i, k, r, l, &stamp.to_bytes()).expect("commit at"),
        };
    }
    let folder = Folder::new();
    folder.put("run.disc", &disc_file(&kinds, &image));
    let listing = folder.done("list run.disc --times");
    let rows: Vec<&str> = listing.lines().collect();
    assert_eq!((rows.len(), rows[91]), (92, "clean"));
    for (k, row) in rows[1..91].iter().enumerate() {
        let line = format!("time run.disc {k}");
        if row.ends_with("no time") {
            folder.fails(&line, 16);
            continue;
        }
        let (local, utc) = (row[24..50].trim(), &row[52..]);
        let (date, _) = local.split_once(' ').expect("a date");
        let utc = utc.strip_prefix(date).unwrap_or(utc).trim();
        let told = format!("{k} back: {local} ({utc} UTC)\n");
        assert_eq!(folder.done(&line), told);
    }
    assert_eq!(listing.matches("no time").count(), 13);
}
