//! The machine's clock, and the zone that it is set to. The standard library
//! knows no zones, so the system is asked here.

use std::ffi::CStr;
use std::mem::MaybeUninit;
use std::time::{SystemTime, UNIX_EPOCH};

use crate::zone;

/// The name of a zone that nobody has set, in the system's files of zones.
const NEVER_SET: &[u8] = b"-00";

/// What the clock shows.
pub struct Now {
    /// From the start of 1970, in UTC.
    pub seconds: i64,
    pub microseconds: u32,
    /// How many minutes local time is ahead of UTC, if the machine knows it.
    pub zone: Option<i16>,
}

pub fn now() -> Now {
    // The system lets no clock be set to a time before 1970.
    let since = SystemTime::now().duration_since(UNIX_EPOCH);
    let since = since.unwrap_or_default();
    let seconds = since.as_secs() as i64;
    Now {
        seconds,
        microseconds: since.subsec_micros(),
        zone: zone_at(seconds).filter(|_| zone::is_known()),
    }
}

/// Summer time counts: a zone is not the same all year. Seconds of a zone, which
/// only old ones have, are left out.
fn zone_at(seconds: libc::time_t) -> Option<i16> {
    let mut local = MaybeUninit::uninit();
    // SAFETY: both are alive, and the second is filled unless the answer is null.
    // There is one thread, so nobody changes the environment meanwhile, where the
    // zone may stand.
    let local: libc::tm = unsafe {
        if libc::localtime_r(&seconds, local.as_mut_ptr()).is_null() {
            return None;
        }
        local.assume_init()
    };
    // SAFETY: the name is a text of the library's own.
    let name = unsafe { CStr::from_ptr(local.tm_zone) };
    let known = name.to_bytes() != NEVER_SET;
    i16::try_from(local.tm_gmtoff / 60).ok().filter(|_| known)
}
