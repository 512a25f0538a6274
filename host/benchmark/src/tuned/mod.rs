//! A tuned version of the documents' thirteen calls, for the comparison alone.
//!
//! Written to be fast in safe Rust for plain x86-64, with the same contract as
//! the recording core: the 64-bit answer and every lent byte. No call allocates.
//!
//! - [`fields`]: little-endian fields; [`words`]: passes over many words;
//! - [`crc`]: the sum, sixteen bytes at a time;
//! - [`time`]: timestamps, their limits, and the minutes that they tell;
//! - [`extent`]: extents as descriptors name them;
//! - [`table`]: the table at block b, recognised; [`save`]: what a save records of one;
//! - [`anchor`]: the pointer that a closing records, and its tag;
//! - [`disc`]: one pass over the kinds, the newest table, the walk back, whether it
//!   is closed;
//! - [`run`]: the entry of a run longer than a block, and what it shows;
//! - [`ledger`]: the volume's working state, and when it fits the disc;
//! - [`roles`]: what each sector is used for, scanned and kept up;
//! - [`calls`]: the thirteen calls; [`answer`]: their two numbers.

#![forbid(unsafe_code)]

mod anchor;
mod answer;
mod calls;
mod crc;
mod disc;
mod extent;
mod fields;
mod ledger;
mod roles;
mod run;
mod save;
mod table;
mod time;
mod words;

use anchor::Anchor;
use answer::packed;
use extent::Extent;

pub use crc::crc;
pub use ledger::LEDGER;
pub use run::MOST_VIEWED;
pub use save::{own_sectors, put_table, EMBEDDED};
pub use table::{Sector, LIMIT, NONE, SECTOR};
pub use time::{Stamp, TIME};

pub fn begin(image: &[u8], kinds: &[u8], roles: &mut [u8], ledger: &mut [u8]) -> u64 {
    packed(calls::begin(image, kinds, roles, ledger))
}

pub fn mount(image: &[u8], kinds: &[u8], roles: &mut [u8], ledger: &mut [u8]) -> u64 {
    packed(calls::mount(image, kinds, roles, ledger))
}

pub fn write(
    image: &mut [u8],
    kinds: &mut [u8],
    roles: &mut [u8],
    ledger: &mut [u8],
    v: u32,
    block: &[u8],
) -> u64 {
    packed(calls::write(image, kinds, roles, ledger, Some(v), block))
}

pub fn write_unnumbered(
    image: &mut [u8],
    kinds: &mut [u8],
    roles: &mut [u8],
    ledger: &mut [u8],
    block: &[u8],
) -> u64 {
    packed(calls::write(image, kinds, roles, ledger, None, block))
}

pub fn release(image: &[u8], kinds: &[u8], roles: &mut [u8], ledger: &mut [u8], v: u32) -> u64 {
    packed(calls::release(image, kinds, roles, ledger, v))
}

pub fn close_packet(image: &[u8], kinds: &[u8], roles: &[u8], ledger: &mut [u8]) -> u64 {
    packed(calls::close_packet(image, kinds, roles, ledger))
}

pub fn commit(image: &mut [u8], kinds: &mut [u8], roles: &mut [u8], ledger: &mut [u8]) -> u64 {
    packed(calls::commit(image, kinds, roles, ledger))
}

pub fn commit_at(
    image: &mut [u8],
    kinds: &mut [u8],
    roles: &mut [u8],
    ledger: &mut [u8],
    stamp: &[u8],
) -> u64 {
    packed(calls::commit_at(image, kinds, roles, ledger, stamp))
}

pub fn read(image: &[u8], kinds: &[u8], ledger: &[u8], v: u32, block: &mut [u8]) -> u64 {
    packed(calls::read(image, kinds, ledger, v, block))
}

pub fn look_back(image: &[u8], kinds: &[u8], roles: &mut [u8], ledger: &mut [u8], k: u32) -> u64 {
    packed(calls::look_back(image, kinds, roles, ledger, k))
}

pub fn view(
    image: &[u8],
    kinds: &[u8],
    ledger: &[u8],
    v: u32,
    offset: u64,
    buffer: &mut [u8],
) -> u64 {
    packed(calls::view(image, kinds, ledger, v, offset, buffer))
}

pub fn time_of(image: &[u8], kinds: &[u8], ledger: &[u8], k: u32, answer: &mut [u8]) -> u64 {
    packed(calls::time_of(image, kinds, ledger, k, answer))
}

#[allow(clippy::too_many_arguments)]
pub fn close_session(
    image: &mut [u8],
    kinds: &mut [u8],
    roles: &mut [u8],
    ledger: &mut [u8],
    main_length: u32,
    main_location: u32,
    reserve_length: u32,
    reserve_location: u32,
    partition_start: u32,
) -> u64 {
    let anchor = Anchor {
        main: Extent {
            length: main_length,
            location: main_location,
        },
        reserve: Extent {
            length: reserve_length,
            location: reserve_location,
        },
        partition_start,
    };
    packed(calls::close_session(image, kinds, roles, ledger, &anchor))
}
