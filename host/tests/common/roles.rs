//! What document 02 claims of the roles while none is cut and all is lent on: kept up
//! they are what the history gives, and they add up.

use station_model::calls::Call;
use station_model::disc::Disc;
use station_model::ledger::Volume;
use station_model::roles::{Role, Since};

use super::closing::CLOSE;
use super::station::Station;

/// The ten calls that are lent roles.
pub const KEEPING: [Call; 10] = [
    Call::Begin,
    Call::Mount,
    Call::Write(0),
    Call::WriteUnnumbered,
    Call::Release(0),
    Call::ClosePacket,
    Call::Commit,
    Call::CommitAt,
    CLOSE,
    Call::LookBack(0),
];

/// The roles are these digits, and the rest of the disc is blank.
#[track_caller]
pub fn assert_roles(station: &Station, recorded: &str) {
    let digits = station.roles.iter().map(|role| char::from(b'0' + role));
    let blank = "6".repeat(station.roles.len() - recorded.len());
    assert_eq!(digits.collect::<String>(), recorded.to_string() + &blank);
}

/// How the roles differ from those worked out afresh, or do not add up.
pub fn astray(disc: &Disc, volume: &Volume, roles: &[u8], since: &Since) -> Option<String> {
    let afresh = since.roles(disc, volume);
    if roles != afresh {
        return Some(format!("roles kept up {roles:?}\n       afresh {afresh:?}"));
    }
    let recorded = roles.iter().filter(|role| **role < Role::Blank as u8);
    let count = recorded.count() as u32;
    (count != disc.recorded()).then(|| format!("{count} roles of recorded sectors"))
}
