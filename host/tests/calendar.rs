//! The calendar: what a timestamp tells, and whether it keeps the limits, beside
//! Python's datetime.
//!
//! Python makes the timestamps and says what each tells; the model reads them, and
//! the core takes each on a commit and tells it again. Exhaustive on the core and
//! the model: every day of the range at midnight, every date from month 0, day 0
//! to month 13, day 32 in each year, the 65,536 patterns of type and zone, all
//! zones on the odd days, and every value of every field. Exhaustive on the model
//! alone: every day with every zone, and every minute of the range.

mod common;

use std::path::Path;
use std::process::Command;
use std::sync::OnceLock;

use common::pair::{tell_compared, Pair};
use common::stamps::{put_modified, ANSWER};
use common::station::{done, refused, Station};
use station::Timestamp;
use station_model::calls::Call;
use station_model::disc::{BLANK, DATA};
use station_model::table::{vat_sector, NONE, SECTOR};
use station_model::time::{Moment, Stamp};

/// Days from 1 January 1970 to 31 December 2099: 130 years, of which 32 are leap
/// years.
const DAYS: usize = 130 * 365 + 32;

/// A timestamp and what Python says that it tells: nothing if it breaks a limit.
struct Row {
    stamp: Stamp,
    told: Option<Moment>,
}

/// Python is asked once for all tests here.
fn rows() -> &'static [Row] {
    static ROWS: OnceLock<Vec<Row>> = OnceLock::new();
    ROWS.get_or_init(|| by_python().lines().map(Row::of_line).collect())
}

/// Midnight UTC of each day, in order.
fn days() -> &'static [Row] {
    &rows()[..DAYS]
}

fn by_python() -> String {
    let script = Path::new(env!("CARGO_MANIFEST_DIR")).join("tests/calendar/stamps.py");
    let mut command = Command::new("python3");
    let output = command.arg(script).output();
    let output = output.unwrap_or_else(|error| panic!("{command:?} does not run: {error}"));
    let complaint = String::from_utf8_lossy(&output.stderr);
    assert!(output.status.success(), "{command:?}: {complaint}");
    String::from_utf8(output.stdout).expect("text")
}

impl Row {
    /// The bytes in hex, and then the minutes and the mark, or `-`.
    fn of_line(line: &str) -> Row {
        let words: Vec<&str> = line.split(' ').collect();
        let told = match words[1..] {
            ["-"] => None,
            [minutes, mark] => Some(Moment {
                minutes: minutes.parse().expect("minutes"),
                is_marked: mark == "1",
            }),
            _ => panic!("a line of another form: {line}"),
        };
        let stamp = stamp_in(words[0]).unwrap_or_else(|| panic!("no 12 bytes: {line}"));
        Row { stamp, told }
    }
}

fn stamp_in(hex: &str) -> Option<Stamp> {
    let byte = |at| u8::from_str_radix(hex.get(at..at + 2)?, 16).ok();
    let bytes: Option<Vec<u8>> = (0..hex.len()).step_by(2).map(byte).collect();
    bytes?.try_into().ok()
}

/// Puts the type and a zone's twelve bits into a timestamp.
fn put_zone(stamp: &mut Stamp, bits: u16) {
    stamp[..2].copy_from_slice(&(0x1000 | bits).to_le_bytes());
}

#[test]
fn the_model_tells_what_python_tells() {
    let kept = rows().iter().filter(|row| row.told.is_some()).count();
    assert!(kept > 200_000 && rows().len() - kept > 100_000);
    for Row { stamp, told } in rows() {
        assert_eq!(Moment::told_by(stamp), *told, "{stamp:02X?}");
    }
    println!("{} timestamps read", rows().len());
}

/// A disc of one sector: the table on it has this modification time, and its two
/// other times are zeros.
fn put_forged(pair: &mut Pair, stamp: &Stamp) {
    let mut table = vat_sector(0, &[], NONE);
    put_modified(&mut table, 0, stamp);
    pair.put_sector(0, DATA, &table);
}

/// The core takes each timestamp that keeps the limits and tells it as Python
/// does; any other it refuses, on a commit and where it stands in a table.
#[test]
fn the_core_tells_what_python_tells() {
    let blank = Station::begun(1);
    let mut pair = Pair::holding(&blank);
    for Row { stamp, told } in rows() {
        let expected = if told.is_some() { done(0) } else { refused(16) };
        assert_eq!(pair.call(Call::CommitAt, stamp), expected, "{stamp:02X?}");
        if told.is_none() {
            put_forged(&mut pair, stamp);
        }
        assert_eq!(
            pair.call(Call::TimeOf(0), &ANSWER),
            expected,
            "{stamp:02X?}"
        );
        let answer = told.map_or(ANSWER, Moment::to_bytes);
        assert_eq!(pair.buffer(), answer, "{stamp:02X?}");
        pair.put_sector(0, BLANK, &[0; SECTOR]);
        pair.lend_ledger(&blank.ledger);
    }
    tell_compared("the_core_tells_what_python_tells");
}

/// What is told of a day turns on the zone by subtraction alone, for every day and
/// each of the 4,096 patterns.
#[test]
fn every_day_with_every_zone() {
    for Row { stamp, told } in days() {
        let midnight = told.expect("a day of the range").minutes;
        let mut stamp = *stamp;
        for bits in 0..4096 {
            put_zone(&mut stamp, bits);
            let zone = i32::from(bits) - if bits < 2048 { 0 } else { 4096 };
            let told = match zone {
                -2047 => Some((midnight, true)),
                -1440..=1440 => Some((midnight - zone, false)),
                _ => None,
            };
            let model = Moment::told_by(&stamp);
            let model = model.map(|moment| (moment.minutes, moment.is_marked));
            assert!(model == told, "{stamp:02X?}: {model:?}, and not {told:?}");
        }
    }
    println!("{} days with 4,096 zones each", days().len());
}

/// From each minute of the range to the next it is one minute, through the end of
/// every day, month and year.
#[test]
fn every_minute_follows_the_one_before() {
    let mut minutes = 0..;
    for Row { stamp, .. } in days() {
        let mut stamp = *stamp;
        for (hour, minute) in (0..24).flat_map(|hour| (0..60).map(move |minute| (hour, minute))) {
            stamp[6] = hour;
            stamp[7] = minute;
            let told = Moment::told_by(&stamp).map(|moment| moment.minutes);
            assert!(told == minutes.next(), "{stamp:02X?}");
        }
    }
    assert_eq!(minutes.next(), Some(DAYS as i32 * 24 * 60));
}

/// The days that Python gives are the days of the range, each once.
#[test]
fn the_days_are_in_order() {
    assert_eq!(days()[0].stamp, Timestamp::midnight(1970, 1, 1).to_bytes());
    let last = Timestamp::midnight(2099, 12, 31).to_bytes();
    assert_eq!(days()[DAYS - 1].stamp, last);
    let minutes = days().iter().map(|row| row.told.map(|told| told.minutes));
    assert!(minutes.eq((0..DAYS as i32).map(|day| Some(day * 24 * 60))));
}
