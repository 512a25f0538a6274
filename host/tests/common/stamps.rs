//! Timestamps to save with or to plant in tables, and what the model says that
//! they tell.

use station::Timestamp;
use station_model::fields::put;
use station_model::table::{seal, SECTOR};
use station_model::time::{Moment, Stamp, NO_STAMP, STAMP, TIME};

use super::random::Random;

/// The minutes and the mark, or a refusal's number.
pub type Told = Result<(i32, u32), u32>;

/// 00:30 on 1 January 1970 with zone 60.
pub const HALF_PAST: Stamp = [60, 0x10, 0xB2, 0x07, 1, 1, 0, 30, 0, 0, 0, 0];

/// An answer before it is filled.
pub const ANSWER: [u8; TIME] = [0xC7; TIME];

/// About noon UTC on a day in January: each field may go up and down.
pub const NOON: Timestamp = Timestamp {
    year: 2026,
    month: 1,
    day: 15,
    hour: 12,
    minute: 30,
    second: 45,
    fractions: [10, 20, 30],
    zone: Some(0),
};

/// The same time on another day.
pub fn noon(year: u16, month: u8, day: u8) -> Timestamp {
    Timestamp {
        year,
        month,
        day,
        ..NOON
    }
}

/// What the model says that a timestamp tells.
pub fn told_by_model(stamp: &Stamp) -> Told {
    let moment = Moment::told_by(stamp);
    let told = moment.map(|moment| (moment.minutes, u32::from(moment.is_marked)));
    told.ok_or(16)
}

/// Puts another modification time, which stands at byte 84, into a table sector of
/// the block.
pub fn put_modified(sector: &mut [u8; SECTOR], block: u32, stamp: &Stamp) {
    put(sector, 84, stamp);
    seal(sector, block);
}

/// A timestamp: as a rule one that keeps the limits; else one that may break them
/// in one byte, or none, or any bytes.
pub fn stamp(random: &mut Random) -> Stamp {
    let mut stamp = kept_stamp(random);
    match random.below(12) {
        0 => return NO_STAMP,
        1 => random.fill(&mut stamp),
        2..=3 => stamp[random.below(STAMP)] ^= 1 << random.below(8),
        4 => {
            let about_a_bound = [0, 12, 13, 23, 24, 28, 29, 30, 31, 32, 59, 60, 99, 100];
            stamp[4 + random.below(8)] = random.pick(&about_a_bound);
        }
        _ => {}
    }
    stamp
}

/// A timestamp of any day up to the 28th, with any zone or none.
fn kept_stamp(random: &mut Random) -> Stamp {
    let zone = match random.below(6) {
        0 => None,
        1 => Some(random.pick(&[-1440, 1440])),
        _ => Some(random.below(2881) as i16 - 1440),
    };
    let mut below = |bound: usize| random.below(bound) as u8;
    let stamp = Timestamp {
        year: 1970 + u16::from(below(130)),
        month: 1 + below(12),
        day: 1 + below(28),
        hour: below(24),
        minute: below(60),
        second: below(60),
        fractions: [below(100), below(100), below(100)],
        zone,
    };
    stamp.to_bytes()
}
