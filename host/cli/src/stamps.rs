//! The time that a save is to carry: as an operator types it, or from the
//! machine's clock.
//!
//! Of a typed time only the form is tested. Whether there is such a day, and
//! whether a save can carry it, the core says.

use station::Timestamp;

use crate::calendar::Minute;
use crate::clock::Now;

/// What a time looks like on a command line.
pub const EXAMPLE: &str = "2026-11-15T14:05+01:00";

/// A date, `T`, a time of day, and perhaps a zone.
pub fn parse(text: &str) -> Option<Timestamp> {
    let (date, behind) = text.split_once('T')?;
    let zone_place = behind.find(['Z', '+', '-']).unwrap_or(behind.len());
    let (time, zone) = behind.split_at(zone_place);
    let (year, month_and_day) = date.split_once('-')?;
    let (month, day) = month_and_day.split_once('-')?;
    let [hour, minute, second, decimals] = parts_of_time(time)?;
    Some(Timestamp {
        year: number(year, 4)? as u16,
        month: two_digits(month)?,
        day: two_digits(day)?,
        hour: two_digits(hour)?,
        minute: two_digits(minute)?,
        second: two_digits(second)?,
        fractions: fractions(number(&format!("{decimals:0<6}"), 6)?),
        zone: parse_zone(zone)?,
    })
}

/// Hour, minute, second and its decimals, of `14:05`, `14:05:09` or `14:05:09.25`.
fn parts_of_time(text: &str) -> Option<[&str; 4]> {
    let (hour, behind) = text.split_once(':')?;
    let Some((minute, behind)) = behind.split_once(':') else {
        return Some([hour, behind, "00", "0"]);
    };
    let (second, decimals) = behind.split_once('.').unwrap_or((behind, "0"));
    (!decimals.is_empty()).then_some([hour, minute, second, decimals])
}

/// `+01:00` or `-03:30`, or `Z`, which is UTC; or nothing, and then the zone is
/// not given.
fn parse_zone(text: &str) -> Option<Option<i16>> {
    let (sign, ahead) = match (text, text.strip_prefix('-')) {
        ("", _) => return Some(None),
        ("Z", _) => return Some(Some(0)),
        (_, Some(behind)) => (-1, behind),
        (_, None) => (1, text.strip_prefix('+')?),
    };
    let (hours, minutes) = ahead.split_once(':')?;
    let (hours, minutes) = (two_digits(hours)?, two_digits(minutes)?);
    let zone = sign * (60 * i16::from(hours) + i16::from(minutes));
    // The core would not see that so many minutes were typed, but another zone.
    (minutes < 60).then_some(Some(zone))
}

fn two_digits(text: &str) -> Option<u8> {
    number(text, 2).map(|number| number as u8)
}

/// The number in a text of exactly so many digits.
fn number(text: &str, digits: usize) -> Option<u32> {
    let is_number = text.len() == digits && text.bytes().all(|byte| byte.is_ascii_digit());
    text.parse().ok().filter(|_| is_number)
}

/// Centiseconds, hundreds of microseconds, and microseconds (ECMA-167 1/7.3).
fn fractions(microseconds: u32) -> [u8; 3] {
    [10_000, 100, 1].map(|unit| (microseconds / unit % 100) as u8)
}

/// Local time with its zone. Where the machine knows no zone it is UTC, which a
/// save without a zone counts as.
pub fn of_clock(now: &Now) -> Timestamp {
    let local = now.seconds + 60 * i64::from(now.zone.unwrap_or(0));
    let minute = Minute::since_1970(local.div_euclid(60));
    Timestamp {
        year: u16::try_from(minute.year).unwrap_or(u16::MAX),
        month: minute.month,
        day: minute.day,
        hour: minute.hour,
        minute: minute.minute,
        second: local.rem_euclid(60) as u8,
        fractions: fractions(now.microseconds),
        zone: now.zone,
    }
}

#[cfg(test)]
mod tests {
    use super::of_clock;
    use crate::clock::Now;

    /// The zone that a clock is set to, and the bytes from the month to the second:
    /// UTC's own zone, zones on both sides of it, and none.
    #[test]
    fn local_time_of_a_clock() {
        // 15 November 2026, 23:59:58.123456 in UTC.
        let seconds = 1_794_787_198;
        let rows: [(Option<i16>, [u8; 5]); 6] = [
            (Some(0), [11, 15, 23, 59, 58]),
            (Some(1), [11, 16, 0, 0, 58]),
            (Some(345), [11, 16, 5, 44, 58]),
            (Some(-210), [11, 15, 20, 29, 58]),
            (Some(-1440), [11, 14, 23, 59, 58]),
            (None, [11, 15, 23, 59, 58]),
        ];
        for (zone, parts) in rows {
            let stamp = of_clock(&Now {
                seconds,
                microseconds: 123_456,
                zone,
            });
            assert_eq!((stamp.year, stamp.zone), (2026, zone));
            assert_eq!(stamp.to_bytes()[4..9], parts);
            assert_eq!(stamp.fractions, [12, 34, 56]);
        }
    }

    /// A clock beyond all years that a save can carry stays beyond them.
    #[test]
    fn a_clock_that_is_wrong() {
        for (seconds, year) in [(4_102_444_800, 2100), (i64::from(i32::MIN), 1901)] {
            let stamp = of_clock(&Now {
                seconds,
                microseconds: 0,
                zone: Some(0),
            });
            assert_eq!(stamp.year, year);
        }
    }
}
