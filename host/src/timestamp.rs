//! A timestamp to make a save with, and what the core tells of it later.

use crate::{STAMP, TIME};

/// ECMA-167 1/7.3: the type of a time that has a zone or says that it has none.
const LOCAL_TIME: u16 = 1;

/// The zone that means not given.
const NOT_GIVEN: i16 = -2047;

/// The ends of a signed field of twelve bits; both break the limits.
const LEAST_ZONE: i16 = -2048;
const MOST_ZONE: i16 = 2047;

/// A timestamp of ECMA-167 1/7.3, for [`commit_at`](crate::commit_at).
///
/// Any numbers may stand here. The core tests them, and refuses with 16 what
/// breaks the limits: the year is 1970 to 2099, the date a real one, the hour at
/// most 23, minute and second 59, the fractions 99, and a zone that is given is
/// -1440 to 1440.
///
/// ```
/// use station::Timestamp;
///
/// // 14:05 on 15 November 2026, by a clock one hour ahead of UTC.
/// let stamp = Timestamp {
///     year: 2026,
///     month: 11,
///     day: 15,
///     hour: 14,
///     minute: 5,
///     second: 0,
///     fractions: [0; 3],
///     zone: Some(60),
/// };
/// let bytes = stamp.to_bytes();
/// assert_eq!(bytes, [60, 0x10, 0xEA, 0x07, 11, 15, 14, 5, 0, 0, 0, 0]);
/// assert_eq!(Timestamp::from_bytes(bytes), stamp);
/// ```
#[derive(Clone, Copy, Debug, PartialEq, Eq, Hash)]
pub struct Timestamp {
    /// 1970 to 2099.
    pub year: u16,
    /// 1 to 12.
    pub month: u8,
    /// 1 to the days that the month has.
    pub day: u8,
    /// 0 to 23.
    pub hour: u8,
    /// 0 to 59.
    pub minute: u8,
    /// 0 to 59.
    pub second: u8,
    /// Centiseconds, hundreds of microseconds and microseconds, each 0 to 99.
    pub fractions: [u8; 3],
    /// How many minutes the clock is ahead of UTC, east of Greenwich: -1440 to
    /// 1440, or `None` where the zone is not given.
    pub zone: Option<i16>,
}

impl Timestamp {
    /// The beginning of a day in UTC.
    pub const fn midnight(year: u16, month: u8, day: u8) -> Timestamp {
        Timestamp {
            year,
            month,
            day,
            hour: 0,
            minute: 0,
            second: 0,
            fractions: [0; 3],
            zone: Some(0),
        }
    }

    /// The 12 bytes, of type 1. Nothing is tested here: the core does that.
    pub fn to_bytes(self) -> [u8; STAMP] {
        let [zone_low, zone_high] = (LOCAL_TIME << 12 | zone_bits(self.zone)).to_le_bytes();
        let [year_low, year_high] = self.year.to_le_bytes();
        let [centiseconds, hundreds, microseconds] = self.fractions;
        [
            zone_low,
            zone_high,
            year_low,
            year_high,
            self.month,
            self.day,
            self.hour,
            self.minute,
            self.second,
            centiseconds,
            hundreds,
            microseconds,
        ]
    }

    /// What 12 bytes say, whatever they hold. Nothing is tested here, and their
    /// type is left out.
    pub fn from_bytes(bytes: [u8; STAMP]) -> Timestamp {
        let zone = zone_of(u16::from_le_bytes([bytes[0], bytes[1]]));
        Timestamp {
            year: u16::from_le_bytes([bytes[2], bytes[3]]),
            month: bytes[4],
            day: bytes[5],
            hour: bytes[6],
            minute: bytes[7],
            second: bytes[8],
            fractions: [bytes[9], bytes[10], bytes[11]],
            zone: (zone != NOT_GIVEN).then_some(zone),
        }
    }
}

/// Twelve bits in two's complement. A zone that they cannot hold, and the number
/// that would mean not given, become one that the core refuses, and no other zone.
fn zone_bits(zone: Option<i16>) -> u16 {
    let zone = match zone {
        None => NOT_GIVEN,
        Some(NOT_GIVEN) => LEAST_ZONE,
        Some(zone) => zone.clamp(LEAST_ZONE, MOST_ZONE),
    };
    zone as u16 & 0xFFF
}

/// The zone in the low twelve bits: its sign is taken along to the high ones.
fn zone_of(first: u16) -> i16 {
    (first << 4) as i16 >> 4
}

/// When a save was made, as [`time_of`](crate::time_of) tells it.
#[derive(Clone, Copy, Debug, PartialEq, Eq, Hash)]
pub struct SaveTime {
    /// Whole minutes from 1 January 1970 UTC, negative before it. Seconds are
    /// dropped, and a zone that is not given counts as 0.
    pub minutes: i32,
    /// Whether the save tells its zone. If not, the minutes are those of a clock
    /// that may be up to a day from UTC.
    pub zone_given: bool,
}

impl SaveTime {
    /// "The answer is 8 lent bytes: the minutes, then 1 if marked or else 0."
    pub(crate) fn told_in(answer: [u8; TIME]) -> SaveTime {
        let [m0, m1, m2, m3, mark @ ..] = answer;
        SaveTime {
            minutes: i32::from_le_bytes([m0, m1, m2, m3]),
            zone_given: u32::from_le_bytes(mark) == 0,
        }
    }
}

#[cfg(test)]
mod tests {
    use super::{SaveTime, Timestamp};

    const NOON: Timestamp = Timestamp {
        year: 2026,
        month: 11,
        day: 15,
        hour: 12,
        minute: 34,
        second: 56,
        fractions: [78, 9, 99],
        zone: Some(0),
    };

    fn with_zone(zone: Option<i16>) -> Timestamp {
        Timestamp { zone, ..NOON }
    }

    /// The first two bytes, as one number.
    fn first(stamp: Timestamp) -> u16 {
        let bytes = stamp.to_bytes();
        u16::from_le_bytes([bytes[0], bytes[1]])
    }

    #[test]
    fn each_field_at_its_place() {
        let bytes = [0x00, 0x10, 0xEA, 0x07, 11, 15, 12, 34, 56, 78, 9, 99];
        assert_eq!(NOON.to_bytes(), bytes);
        assert_eq!(Timestamp::from_bytes(bytes), NOON);
    }

    /// Every pattern of twelve bits is one zone, or none.
    #[test]
    fn every_zone_there_and_back() {
        for bits in 0..=0xFFFu16 {
            let mut bytes = NOON.to_bytes();
            bytes[..2].copy_from_slice(&(0x1000 | bits).to_le_bytes());
            let stamp = Timestamp::from_bytes(bytes);
            assert_eq!(stamp.to_bytes(), bytes);
            let signed = i32::from(bits) - if bits < 0x800 { 0 } else { 0x1000 };
            let zone = (signed != -2047).then_some(signed as i16);
            assert_eq!(stamp, with_zone(zone));
        }
    }

    #[test]
    fn zones_that_the_field_cannot_hold() {
        for (zone, bits) in [
            (-2047, 0x1800),
            (-2048, 0x1800),
            (-2049, 0x1800),
            (i16::MIN, 0x1800),
            (2047, 0x17FF),
            (2048, 0x17FF),
            (4096, 0x17FF),
            (i16::MAX, 0x17FF),
        ] {
            assert_eq!(first(with_zone(Some(zone))), bits, "{zone}");
        }
        assert_eq!(first(with_zone(None)), 0x1801);
    }

    #[test]
    fn a_type_is_left_out() {
        let mut bytes = NOON.to_bytes();
        bytes[1] |= 0xF0;
        assert_eq!(Timestamp::from_bytes(bytes), NOON);
    }

    #[test]
    fn an_answer_is_taken_apart() {
        let told = SaveTime::told_in([0xE2, 0xFF, 0xFF, 0xFF, 0, 0, 0, 0]);
        assert_eq!((told.minutes, told.zone_given), (-30, true));
        let marked = SaveTime::told_in([0x01, 0x02, 0, 0, 1, 0, 0, 0]);
        assert_eq!((marked.minutes, marked.zone_given), (513, false));
    }
}
