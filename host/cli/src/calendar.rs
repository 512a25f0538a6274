//! The calendar: which date and time of day a count of minutes comes to.

use std::fmt;

use station::Timestamp;

const HOUR: i64 = 60;
const DAY: i64 = 24 * HOUR;

/// A minute of a day, on whatever clock.
#[derive(Clone, Copy, Debug, PartialEq, Eq)]
pub struct Minute {
    pub year: i64,
    pub month: u8,
    pub day: u8,
    pub hour: u8,
    pub minute: u8,
}

impl Minute {
    /// So many minutes after the start of 1970, or before it.
    pub fn since_1970(minutes: i64) -> Minute {
        let (year, month, day) = date(minutes.div_euclid(DAY));
        let of_day = minutes.rem_euclid(DAY);
        Minute {
            year,
            month,
            day,
            hour: (of_day / HOUR) as u8,
            minute: (of_day % HOUR) as u8,
        }
    }

    /// For example `2026-11-15`.
    pub fn date(&self) -> String {
        format!("{:04}-{:02}-{:02}", self.year, self.month, self.day)
    }

    /// For example `14:05`.
    pub fn time(&self) -> String {
        format!("{:02}:{:02}", self.hour, self.minute)
    }
}

/// By the clock that the timestamp has; the seconds are dropped.
impl From<Timestamp> for Minute {
    fn from(stamp: Timestamp) -> Minute {
        Minute {
            year: stamp.year.into(),
            month: stamp.month,
            day: stamp.day,
            hour: stamp.hour,
            minute: stamp.minute,
        }
    }
}

/// For example `2026-11-15 14:05`.
impl fmt::Display for Minute {
    fn fmt(&self, out: &mut fmt::Formatter) -> fmt::Result {
        write!(out, "{} {}", self.date(), self.time())
    }
}

/// The date so many days after 1 January 1970, or before it: whole years are
/// counted off, and then whole months.
fn date(mut days: i64) -> (i64, u8, u8) {
    let mut year = 1970;
    while days < 0 {
        year -= 1;
        days += days_of_year(year);
    }
    while days >= days_of_year(year) {
        days -= days_of_year(year);
        year += 1;
    }
    let mut month = 1;
    while days >= days_of_month(year, month) {
        days -= days_of_month(year, month);
        month += 1;
    }
    (year, month, days as u8 + 1)
}

fn days_of_year(year: i64) -> i64 {
    365 + i64::from(is_leap(year))
}

fn days_of_month(year: i64, month: u8) -> i64 {
    match month {
        2 if is_leap(year) => 29,
        2 => 28,
        4 | 6 | 9 | 11 => 30,
        _ => 31,
    }
}

fn is_leap(year: i64) -> bool {
    year % 4 == 0 && (year % 100 != 0 || year % 400 == 0)
}

#[cfg(test)]
mod tests {
    use station::{Timestamp, LEDGER, SECTOR};

    use super::Minute;

    /// What the core tells of a save that carries this time, if one can.
    fn told(stamp: Timestamp) -> Option<i64> {
        let (mut image, mut kinds) = ([0; SECTOR], [0]);
        let (mut roles, mut ledger) = ([0; 1], [0; LEDGER]);
        station::begin(&image, &kinds, &mut roles, &mut ledger).expect("begin");
        let (i, k, r, l) = (&mut image, &mut kinds, &mut roles, &mut ledger);
        station::commit_at(i, k, r, l, &stamp.to_bytes()).ok()?;
        let told = station::time_of(&image, &kinds, &ledger, 0);
        Some(told.expect("a time").minutes.into())
    }

    /// Every day that a save can carry, as the core counts it.
    #[test]
    fn every_day() {
        let mut days = 0;
        for year in 1970..=2099 {
            for (month, day) in (1..=12).flat_map(|month| (1..=31).map(move |day| (month, day))) {
                let stamp = Timestamp::midnight(year, month, day);
                if let Some(minutes) = told(stamp) {
                    assert_eq!(minutes, days * 24 * 60);
                    assert_eq!(Minute::since_1970(minutes), Minute::from(stamp));
                    days += 1;
                }
            }
        }
        // Of 130 years 32 are leap years.
        assert_eq!(days, 130 * 365 + 32);
    }

    #[test]
    fn every_minute_of_a_day() {
        for (hour, minute) in (0..24).flat_map(|hour| (0..60).map(move |minute| (hour, minute))) {
            let stamp = Timestamp {
                hour,
                minute,
                ..Timestamp::midnight(2000, 2, 29)
            };
            let minutes = told(stamp).expect("a time");
            assert_eq!(Minute::since_1970(minutes), Minute::from(stamp));
        }
    }

    /// In UTC a save may lie a day before 1970, or a day after 2099.
    #[test]
    fn a_day_around_the_years_of_saves() {
        let first = Timestamp::midnight(1970, 1, 1);
        let last = Timestamp::midnight(2099, 12, 31);
        for (stamp, zone, shown) in [
            (first, 1, "1969-12-31 23:59"),
            (first, 60, "1969-12-31 23:00"),
            (first, 1440, "1969-12-31 00:00"),
            (last, -1440, "2100-01-01 00:00"),
        ] {
            let zone = Some(zone);
            let minutes = told(Timestamp { zone, ..stamp }).expect("a time");
            assert_eq!(Minute::since_1970(minutes).to_string(), shown);
        }
    }

    /// The clock of the machine may stand anywhere.
    #[test]
    fn far_from_the_years_of_saves() {
        for (minutes, shown) in [
            (0, "1970-01-01 00:00"),
            (-719_528 * 24 * 60, "0000-01-01 00:00"),
            (i64::from(i32::MAX), "6053-01-23 02:07"),
        ] {
            assert_eq!(Minute::since_1970(minutes).to_string(), shown);
        }
    }
}
