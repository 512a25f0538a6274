//! "a 12-byte ECMA-167 timestamp" (document 02): its fields, the limits that
//! they keep, and the minutes that it tells.
//!
//! The calendar counts days from 1 March, as a leap day then is the last of its
//! year; it has no table of the months and adds up no years.

use crate::fields::{put, u16_at};

/// "a 12-byte ECMA-167 timestamp"
pub const STAMP: usize = 12;

/// A timestamp's bytes, whatever they hold.
pub type Stamp = [u8; STAMP];

/// What a plain commit records as its times: "Everything else is zero".
pub const NO_STAMP: Stamp = [0; STAMP];

/// "The answer is 8 lent bytes"
pub const TIME: usize = 8;

/// "-2047 for not given"
const NOT_GIVEN: i32 = -2047;

/// What a timestamp tells that keeps the limits.
#[derive(Clone, Copy, Debug, PartialEq, Eq)]
pub struct Moment {
    /// "in whole minutes from 1 January 1970 UTC, as a signed number"
    pub minutes: i32,
    /// "Zone -2047 counts as 0 and is marked."
    pub is_marked: bool,
}

impl Moment {
    /// What the timestamp tells; nothing if it "breaks these limits".
    pub fn told_by(stamp: &Stamp) -> Option<Moment> {
        let fields = Fields::of(stamp);
        fields.keep_the_limits().then(|| fields.moment())
    }

    /// "the minutes, then 1 if marked or else 0, 32 bits each"
    pub fn to_bytes(self) -> [u8; TIME] {
        let mut answer = [0; TIME];
        put(&mut answer, 0, &self.minutes.to_le_bytes());
        put(&mut answer, 4, &u32::from(self.is_marked).to_le_bytes());
        answer
    }
}

/// ECMA-167 1/7.3: type and time zone, year, month, day, hour, minute, second,
/// centiseconds, hundreds of microseconds, microseconds.
struct Fields {
    kind: u16,
    zone: i32,
    year: i32,
    month: i32,
    day: i32,
    hour: i32,
    minute: i32,
    second: i32,
    fractions: [u8; 3],
}

impl Fields {
    fn of(stamp: &Stamp) -> Fields {
        let first = u16_at(stamp, 0);
        let byte = |at: usize| i32::from(stamp[at]);
        Fields {
            kind: first / 4096,
            zone: signed(first % 4096),
            year: i32::from(u16_at(stamp, 2)),
            month: byte(4),
            day: byte(5),
            hour: byte(6),
            minute: byte(7),
            second: byte(8),
            fractions: [stamp[9], stamp[10], stamp[11]],
        }
    }

    /// "The type must be 1, the year 1970 to 2099, and the date a real one.
    /// Hours are at most 23, minutes and seconds 59, the three fractions 99. The
    /// zone is [...] from -1440 to 1440 minutes, or -2047 for not given."
    fn keep_the_limits(&self) -> bool {
        self.kind == 1
            && (1970..=2099).contains(&self.year)
            && is_real(self.year, self.month, self.day)
            && self.hour <= 23
            && self.minute <= 59
            && self.second <= 59
            && self.fractions.iter().all(|fraction| *fraction <= 99)
            && ((-1440..=1440).contains(&self.zone) || self.zone == NOT_GIVEN)
    }

    /// "seconds are dropped first. 00:30 on that day with zone 60 is -30."
    fn moment(&self) -> Moment {
        let is_marked = self.zone == NOT_GIVEN;
        let zone = if is_marked { 0 } else { self.zone };
        let first_day = day_number(1970, 1, 1);
        let days = day_number(self.year, self.month, self.day) - first_day;
        let local = (24 * days + self.hour) * 60 + self.minute;
        Moment {
            minutes: local - zone,
            is_marked,
        }
    }
}

/// "a signed field of twelve bits"
fn signed(bits: u16) -> i32 {
    match i32::from(bits) {
        bits @ 0..2048 => bits,
        bits => bits - 4096,
    }
}

/// Whether the month of the year has the day.
fn is_real(year: i32, month: i32, day: i32) -> bool {
    (1..=12).contains(&month) && (1..=days_of_month(year, month)).contains(&day)
}

/// From the first of the month to the first of the next.
fn days_of_month(year: i32, month: i32) -> i32 {
    let next = match month {
        12 => day_number(year + 1, 1, 1),
        _ => day_number(year, month + 1, 1),
    };
    next - day_number(year, month, 1)
}

/// The number of a date from the year 1 on, one more each day: in years that
/// begin with March, whose months have 153 days in five; "a real date" is one of
/// the Gregorian calendar, in which every fourth year is a leap year, but of the
/// hundreds every fourth.
fn day_number(year: i32, month: i32, day: i32) -> i32 {
    let (year, months) = match month {
        1 | 2 => (year - 1, month + 9),
        _ => (year, month - 3),
    };
    let leap_days = year / 4 - year / 100 + year / 400;
    365 * year + leap_days + (153 * months + 2) / 5 + day
}
