//! When a save was made, in words: by the clock that it carries, and in UTC.

use std::fmt;

use station::{SaveTime, Timestamp, SECTOR, STAMP};

use crate::calendar::Minute;
use crate::form::Disc;

/// Where in a table sector its modification time stands.
const MODIFICATION_TIME: usize = 84;

/// In whole minutes.
pub struct Time {
    local: Minute,
    /// Minutes that local time is ahead of UTC, if the save says it.
    zone: Option<i16>,
    utc: Minute,
}

impl Time {
    /// Of the table at this block. UTC is what the core tells; local time stands
    /// in the table.
    pub fn of(disc: &Disc, table: u32, told: SaveTime) -> Time {
        let (image, _) = disc.lent();
        let mut stamp = [0; STAMP];
        let place = table as usize * SECTOR + MODIFICATION_TIME;
        stamp.copy_from_slice(&image[place..place + STAMP]);
        let local = Timestamp::from_bytes(stamp);
        Time {
            local: local.into(),
            zone: local.zone.filter(|_| told.zone_given),
            utc: Minute::since_1970(told.minutes.into()),
        }
    }

    /// For a column of such times.
    pub fn local(&self) -> String {
        let zone = self.zone.map_or("no zone".into(), zone_text);
        format!("{} {zone}", self.local)
    }

    pub fn utc(&self) -> String {
        self.utc.to_string()
    }
}

/// For example `+01:00`.
fn zone_text(minutes: i16) -> String {
    let sign = if minutes < 0 { '-' } else { '+' };
    let ahead = minutes.unsigned_abs();
    format!("{sign}{:02}:{:02}", ahead / 60, ahead % 60)
}

/// For example `2026-11-15 14:05 +01:00 (13:05 UTC)`. The date in UTC is told
/// where it is another.
impl fmt::Display for Time {
    fn fmt(&self, out: &mut fmt::Formatter) -> fmt::Result {
        let (local, utc) = (self.local, self.utc);
        match self.zone {
            None => write!(out, "{local}, zone not given, taken as UTC"),
            Some(zone) => {
                let same_day = local.date() == utc.date();
                let utc = match same_day {
                    true => utc.time(),
                    false => utc.to_string(),
                };
                write!(out, "{local} {} ({utc} UTC)", zone_text(zone))
            }
        }
    }
}
