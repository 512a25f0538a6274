//! The limits of a timestamp (document 02), each at its bounds, given with a commit
//! and found in a table. Each call is made on the core and on the model, and
//! compared; `calendar.rs` has every day and every value of a field.

mod common;

use common::pair::tell_compared;
use common::stamps::{noon, put_modified, Told, HALF_PAST, NOON};
use common::station::{done, refused, Station};
use station::Timestamp;
use station_model::disc::DATA;
use station_model::fields::{put, u16_at};
use station_model::table::{vat_sector, NONE};
use station_model::time::Stamp;

/// Saves a blank disc of one sector with the timestamp, and asks for its time.
fn taken(stamp: &Stamp) -> Told {
    let mut station = Station::begun(1);
    let answer = station.commit_at(stamp);
    assert!(answer == done(0) || answer == refused(16), "{answer:?}");
    if answer.is_done() {
        station.time_of(0)
    } else {
        Err(16)
    }
}

/// Asks for the time of a table that has this modification time and no other.
fn found(stamp: &Stamp) -> Told {
    let mut table = vat_sector(0, &[], NONE);
    put_modified(&mut table, 0, stamp);
    let mut station = Station::blank(1);
    station.put_sector(0, DATA, &table);
    station.time_of(0)
}

/// A timestamp tells the same, or breaks the limits, given and found.
fn told(stamp: &Stamp) -> Told {
    let told = taken(stamp);
    assert_eq!(found(stamp), told, "{stamp:02X?}");
    told
}

/// Minutes from 1 January 1970 to 1 January 2100: 130 years, 32 of them leap years.
const RANGE: i32 = (130 * 365 + 32) * 24 * 60;

/// The worked values of the request: about the ends of the range.
#[test]
fn worked_values() {
    let midnight = Timestamp::midnight(1970, 1, 1);
    let half_past = Timestamp {
        minute: 30,
        zone: Some(60),
        ..midnight
    };
    let last = Timestamp {
        hour: 23,
        minute: 59,
        second: 59,
        fractions: [99; 3],
        ..Timestamp::midnight(2099, 12, 31)
    };
    assert_eq!(half_past.to_bytes(), HALF_PAST);
    let with_zone = |stamp: Timestamp, zone| told(&Timestamp { zone, ..stamp }.to_bytes());
    assert_eq!(told(&HALF_PAST), Ok((-30, 0)));
    assert_eq!(with_zone(half_past, None), Ok((30, 1)));
    assert_eq!(with_zone(midnight, Some(0)), Ok((0, 0)));
    assert_eq!(with_zone(midnight, Some(1440)), Ok((-1440, 0)));
    assert_eq!(with_zone(midnight, Some(-1440)), Ok((1440, 0)));
    assert_eq!(with_zone(last, Some(0)), Ok((RANGE - 1, 0)));
    assert_eq!(with_zone(last, Some(1440)), Ok((RANGE - 1441, 0)));
    assert_eq!(with_zone(last, Some(-1440)), Ok((RANGE + 1439, 0)));
    assert_eq!(with_zone(last, None), Ok((RANGE - 1, 1)));
    tell_compared("worked_values");
}

/// 29 February, with the minutes that `date -u` tells of it.
#[test]
fn leap_days() {
    for (year, expected) in [
        (1970, Err(16)),
        (1972, Ok((1_136_160, 0))),
        (2000, Ok((15_863_040, 0))),
        (2001, Err(16)),
        (2096, Ok((66_355_200, 0))),
        (2098, Err(16)),
        (2099, Err(16)),
    ] {
        let stamp = Timestamp::midnight(year, 2, 29).to_bytes();
        assert_eq!(told(&stamp), expected, "{year}");
    }
    tell_compared("leap_days");
}

/// "a real date": the last day of each month, and the day after it, which is none.
#[test]
fn days_of_each_month() {
    let lengths = [31, 28, 31, 30, 31, 30, 31, 31, 30, 31, 30, 31];
    for (year, leap_days) in [
        (1970, 0),
        (1972, 1),
        (1999, 0),
        (2000, 1),
        (2001, 0),
        (2096, 1),
        (2098, 0),
        (2099, 0),
    ] {
        for (month, length) in (1..).zip(lengths) {
            let last = length + if month == 2 { leap_days } else { 0 };
            let outcome = |day| told(&noon(year, month, day).to_bytes()).map(|_| ());
            for (day, expected) in [
                (0, Err(16)),
                (1, Ok(())),
                (last, Ok(())),
                (last + 1, Err(16)),
                (32, Err(16)),
            ] {
                assert_eq!(outcome(day), expected, "{year}-{month}-{day}");
            }
        }
    }
    tell_compared("days_of_each_month");
}

/// Where a field stands, a value of it, and whether that keeps the limits.
type Limit = (usize, u16, bool);

/// The bounds of each field of 8 bits, and of the year, about the rest of `NOON`.
const LIMITS: [Limit; 34] = [
    (2, 0, false),
    (2, 1969, false),
    (2, 1970, true),
    (2, 2099, true),
    (2, 2100, false),
    (2, 0xFFFF, false),
    (4, 0, false),
    (4, 1, true),
    (4, 12, true),
    (4, 13, false),
    (4, 255, false),
    (5, 0, false),
    (5, 1, true),
    (5, 31, true),
    (5, 32, false),
    (5, 255, false),
    (6, 0, true),
    (6, 23, true),
    (6, 24, false),
    (6, 255, false),
    (7, 59, true),
    (7, 60, false),
    (7, 255, false),
    (8, 59, true),
    (8, 60, false),
    (8, 255, false),
    (9, 99, true),
    (9, 100, false),
    (10, 99, true),
    (10, 100, false),
    (11, 99, true),
    (11, 100, false),
    (11, 128, false),
    (11, 255, false),
];

/// Each limit broken alone, next to the value that just keeps it, on a commit and
/// when asking.
#[test]
fn each_limit_alone() {
    for (at, value, kept) in LIMITS {
        let mut stamp = NOON.to_bytes();
        match at {
            2 => put(&mut stamp, at, &value.to_le_bytes()),
            _ => stamp[at] = value as u8,
        }
        assert_eq!(told(&stamp).is_ok(), kept, "byte {at}: {value}");
    }
    tell_compared("each_limit_alone");
}

/// "The type must be 1."
#[test]
fn each_type() {
    for kind in 0..16 {
        let mut stamp = NOON.to_bytes();
        let first = u16_at(&stamp, 0) & 0xFFF | kind << 12;
        put(&mut stamp, 0, &first.to_le_bytes());
        assert_eq!(told(&stamp).is_ok(), kind == 1, "type {kind}");
    }
    tell_compared("each_type");
}

/// "The zone is a signed field of twelve bits, from -1440 to 1440 minutes, or
/// -2047 for not given."
#[test]
fn each_bound_of_the_zone() {
    let utc = told(&NOON.to_bytes()).expect("a time").0;
    for (zone, expected) in [
        (-2048, Err(16)),
        (-2047, Ok((utc, 1))),
        (-2046, Err(16)),
        (-1441, Err(16)),
        (-1440, Ok((utc + 1440, 0))),
        (-1, Ok((utc + 1, 0))),
        (0, Ok((utc, 0))),
        (1, Ok((utc - 1, 0))),
        (1440, Ok((utc - 1440, 0))),
        (1441, Err(16)),
        (2046, Err(16)),
        (2047, Err(16)),
    ] {
        let mut stamp = NOON.to_bytes();
        let first = 0x1000 | zone as u16 & 0xFFF;
        put(&mut stamp, 0, &first.to_le_bytes());
        assert_eq!(told(&stamp), expected, "zone {zone}");
    }
    tell_compared("each_bound_of_the_zone");
}

/// "seconds are dropped first"
#[test]
fn seconds_and_fractions_do_not_count() {
    let minute = told(&NOON.to_bytes());
    for second in [0, 1, 29, 30, 59] {
        for fraction in [0, 49, 50, 99] {
            let stamp = Timestamp {
                second,
                fractions: [fraction; 3],
                ..NOON
            };
            assert_eq!(told(&stamp.to_bytes()), minute);
        }
    }
    tell_compared("seconds_and_fractions_do_not_count");
}
