//! "a 12-byte ECMA-167 timestamp" (document 02): the limits that it keeps, and the
//! minutes that it tells.

use super::fields::{put, u16_at};

/// "a 12-byte ECMA-167 timestamp"
pub const STAMP: usize = 12;
pub type Stamp = [u8; STAMP];

/// What a plain commit records as its times: "Everything else is zero".
pub const NO_STAMP: Stamp = [0; STAMP];

/// "The answer is 8 lent bytes"
pub const TIME: usize = 8;

/// "-2047 for not given"
const NOT_GIVEN: i16 = -2047;

/// The days of a year before each month and before the next year; of a leap year
/// in the second row. From 1970 to 2099 every fourth year is one.
static DAYS_BEFORE: [[u16; 13]; 2] = [
    [0, 31, 59, 90, 120, 151, 181, 212, 243, 273, 304, 334, 365],
    [0, 31, 60, 91, 121, 152, 182, 213, 244, 274, 305, 335, 366],
];

/// What a timestamp tells: "in whole minutes from 1 January 1970 UTC, as a signed
/// number", and whether it is marked.
pub struct Moment {
    minutes: i32,
    marked: bool,
}

impl Moment {
    /// "the minutes, then 1 if marked or else 0, 32 bits each"
    #[inline(always)]
    pub fn to_bytes(&self) -> [u8; TIME] {
        let mut answer = [0; TIME];
        put(&mut answer, 0, &self.minutes.to_le_bytes());
        answer[4] = u8::from(self.marked);
        answer
    }
}

/// What the timestamp tells, unless it "breaks these limits".
#[inline(always)]
pub fn told(stamp: &Stamp) -> Option<Moment> {
    let first = u16_at(stamp, 0);
    let zone = (first << 4) as i16 >> 4;
    let marked = zone == NOT_GIVEN;
    let in_range = first >> 12 == 1
        && (marked || (-1440..=1440).contains(&zone))
        && stamp[6] <= 23
        && stamp[7].max(stamp[8]) <= 59
        && stamp[9].max(stamp[10]).max(stamp[11]) <= 99;
    if !in_range {
        return None;
    }
    let days = days(u16_at(stamp, 2), stamp[4], stamp[5])?;
    let local = (24 * days + i32::from(stamp[6])) * 60 + i32::from(stamp[7]);
    let ahead = if marked { 0 } else { i32::from(zone) };
    let minutes = local - ahead;
    Some(Moment { minutes, marked })
}

/// "the year 1970 to 2099, and the date a real one": its days from 1 January 1970.
#[inline(always)]
fn days(year: u16, month: u8, day: u8) -> Option<i32> {
    if !(1970..=2099).contains(&year) {
        return None;
    }
    let before = &DAYS_BEFORE[usize::from(year.is_multiple_of(4))];
    let place = usize::from(month).wrapping_sub(1);
    let [first, next] = *before.get(place..)?.first_chunk()?;
    let of_year = first + u16::from(day.checked_sub(1)?);
    if of_year >= next {
        return None;
    }
    let of_years = 365 * i32::from(year - 1970) + i32::from((year - 1969) / 4);
    Some(of_years + i32::from(of_year))
}
