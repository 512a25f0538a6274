//! The two versions of the thirteen calls, with the same signatures.

use crate::tuned;
use station::raw;

type Scanning = fn(&[u8], &[u8], &mut [u8], &mut [u8]) -> u64;
type Plain = fn(&[u8], &[u8], &[u8], &mut [u8]) -> u64;
type Numbered = fn(&[u8], &[u8], &mut [u8], &mut [u8], u32) -> u64;
type Committing = fn(&mut [u8], &mut [u8], &mut [u8], &mut [u8]) -> u64;
type Lending = fn(&mut [u8], &mut [u8], &mut [u8], &mut [u8], &[u8]) -> u64;
type Writing = fn(&mut [u8], &mut [u8], &mut [u8], &mut [u8], u32, &[u8]) -> u64;
type Closing = fn(&mut [u8], &mut [u8], &mut [u8], &mut [u8], u32, u32, u32, u32, u32) -> u64;
type Reading = fn(&[u8], &[u8], &[u8], u32, &mut [u8]) -> u64;
type Viewing = fn(&[u8], &[u8], &[u8], u32, u64, &mut [u8]) -> u64;

/// Thirteen functions. They are called through pointers, so that neither version
/// is compiled into the loop that measures it.
pub struct Version {
    pub begin: Scanning,
    pub mount: Scanning,
    pub write: Writing,
    pub write_unnumbered: Lending,
    pub release: Numbered,
    pub close_packet: Plain,
    pub commit: Committing,
    pub commit_at: Lending,
    pub read: Reading,
    pub look_back: Numbered,
    pub time_of: Reading,
    pub close_session: Closing,
    pub view: Viewing,
}

/// The recording core, through the package `station`.
pub const CORE: Version = Version {
    begin: raw::begin,
    mount: raw::mount,
    write: raw::write,
    write_unnumbered: raw::write_unnumbered,
    release: raw::release,
    close_packet: raw::close_packet,
    commit: raw::commit,
    commit_at: raw::commit_at,
    read: raw::read,
    look_back: raw::look_back,
    time_of: raw::time_of,
    close_session: raw::close_session,
    view: raw::view,
};

/// The version written for the comparison.
pub const TUNED: Version = Version {
    begin: tuned::begin,
    mount: tuned::mount,
    write: tuned::write,
    write_unnumbered: tuned::write_unnumbered,
    release: tuned::release,
    close_packet: tuned::close_packet,
    commit: tuned::commit,
    commit_at: tuned::commit_at,
    read: tuned::read,
    look_back: tuned::look_back,
    time_of: tuned::time_of,
    close_session: tuned::close_session,
    view: tuned::view,
};
