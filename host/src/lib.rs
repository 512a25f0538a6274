//! The recording core of a disc station: a write-once sector log on CD-R.
//!
//! These are safe functions over the proved core. Each call is lent the disc
//! as two buffers and the ledger, those that alter disc or ledger the roles too,
//! and says what it did:
//!
//! - the image, 2048 bytes a sector, and the kinds, one byte a sector: 0 blank,
//!   1 data, 2 link, 3 unreadable. A disc has 1 to 360,000 sectors, and all
//!   that are not blank form a beginning of it; their count is called
//!   *recorded*;
//! - the roles, one byte a sector: what each sector is there for, a [`Role`].
//!   [`begin`], [`mount`] and [`look_back`] make all of them anew, whatever they are
//!   lent, and every other call keeps them up if they come as the call before left
//!   them: it reads the role of the block that its number named before, which is
//!   superseded only if it was in use. [`space`] counts them;
//! - the ledger, 16,364 bytes: 4,087 map entries, then size, recorded, last table
//!   and mode, each 32 bits and little-endian. Unused entries, all entries from
//!   size on, and a missing last table are FFFFFFFF. Mode is 0 (no packet
//!   open), 1 (packet open) or 2 (looking only).
//!
//! A [`Refusal`] alters no lent byte. Any lengths and contents may be lent: the
//! core tests them itself. It allocates nothing.
//!
//! In mode 0 with recorded above 0, write, numbered or not, both forms of commit
//! and closing the session first record seven link sectors; of a link sector only
//! its kind changes. A power cut loses what is not committed, and [`mount`] then
//! finds the last finished save. [`close_session`] makes a last save that plain
//! CD-ROM drives can read; nothing is recorded after it.
//!
//! A save of up to 458 numbers is one table sector. The table of a larger one lies in
//! 1 to 8 sectors of its own, which the table sector names and which stand before it;
//! of these only such are recorded whose bytes differ from those at their place in the
//! save before.
//!
//! A run longer than a block lies in blocks that [`write_unnumbered`] records. A
//! numbered block holds its entry, which [`file_entry`] makes and which names
//! them; [`view`] shows the run's bytes.
//!
//! ```
//! use station::{Extent, Refusal, Role, SaveTime, Timestamp, LEDGER, SECTOR};
//!
//! let sectors = 40;
//! let mut image = vec![0; sectors * SECTOR];
//! let mut kinds = vec![0; sectors];
//! let mut roles = vec![0; sectors];
//! let mut ledger = [0; LEDGER];
//! let run = [0x5A; SECTOR];
//!
//! station::begin(&image, &kinds, &mut roles, &mut ledger)?;
//! let block = station::write(&mut image, &mut kinds, &mut roles, &mut ledger, 0, &run)?;
//! let table = station::commit(&mut image, &mut kinds, &mut roles, &mut ledger)?;
//! assert_eq!((block, table), (0, 1));
//!
//! // The next day, with fresh roles and a fresh ledger.
//! let mut roles = vec![0; sectors];
//! let mut ledger = [0; LEDGER];
//! let clean = station::mount(&image, &kinds, &mut roles, &mut ledger)?;
//! assert!(clean);
//!
//! let mut shown = [0; SECTOR];
//! station::read(&image, &kinds, &ledger, 0, &mut shown)?;
//! assert_eq!(shown, run);
//!
//! let missing = station::read(&image, &kinds, &ledger, 1, &mut shown);
//! assert_eq!(missing, Err(Refusal::NotInUse));
//!
//! // A run of 3,000 bytes: two blocks without a number, one behind the other, and
//! // behind them its entry, as number 1. The last block is filled up with zeros.
//! let long = [0xA5; 3000];
//! let mut blocks = long.to_vec();
//! blocks.resize(2 * SECTOR, 0);
//! let (one, other) = blocks.split_at(SECTOR);
//! let first = station::write_unnumbered(&mut image, &mut kinds, &mut roles, &mut ledger, one)?;
//! let last = station::write_unnumbered(&mut image, &mut kinds, &mut roles, &mut ledger, other)?;
//! let extent = Extent { length: 3000, location: first };
//! let entry = station::file_entry(&[extent], last + 1);
//! station::write(&mut image, &mut kinds, &mut roles, &mut ledger, 1, &entry)?;
//!
//! // Where the space went: two blocks with a number, two without, and a save; and
//! // seven links, since the mount had closed the packet.
//! let space = station::space(&roles);
//! let counts = Role::ALL.map(|role| space.count(role));
//! assert_eq!(counts, [2, 0, 2, 1, 7, 0, 28]);
//!
//! let mut shown = [0; 3000];
//! let filled = station::view(&image, &kinds, &ledger, 1, 0, &mut shown)?;
//! assert_eq!((filled, shown), (3000, long));
//! let filled = station::view(&image, &kinds, &ledger, 1, 2900, &mut shown)?;
//! assert_eq!(filled, 100);
//!
//! // A save that tells when it was made: half past midnight on 1 January 1970, by
//! // a clock one hour ahead of UTC.
//! let midnight = Timestamp::midnight(1970, 1, 1);
//! let stamp = Timestamp { minute: 30, zone: Some(60), ..midnight };
//! station::commit_at(&mut image, &mut kinds, &mut roles, &mut ledger, &stamp.to_bytes())?;
//! let told = station::time_of(&image, &kinds, &ledger, 0)?;
//! assert_eq!(told, SaveTime { minutes: -30, zone_given: true });
//!
//! // The save before was made without a timestamp.
//! let untold = station::time_of(&image, &kinds, &ledger, 1);
//! assert_eq!(untold, Err(Refusal::BadTimestamp));
//!
//! // A closing needs 257 sectors, and links as usual.
//! let extent = Extent { length: 16 * SECTOR as u32, location: 32 };
//! let closed =
//!     station::close_session(&mut image, &mut kinds, &mut roles, &mut ledger, extent, extent, 300);
//! assert_eq!(closed, Err(Refusal::NoRoom));
//! assert!(!station::is_closed(&image, &kinds)?);
//! # Ok::<(), Refusal>(())
//! ```
//!
//! # A disc that must outlive the program
//!
//! What a call's buffers hold at its end is proved. The order of its stores is
//! not: the compiler merges and reorders them, and a program that stops inside a
//! call can leave what no power cut leaves, such as a recorded sector after a
//! blank one. So a host must not lend the core the only copy of a disc that must
//! outlive a crash of the host itself, such as a mapped file. It lends working
//! buffers, and burns the sectors that the call recorded in ascending order:
//! [`recorded_since`] gives exactly these. Buffers that die with the process are
//! no matter.

#![deny(unsafe_code)]
#![warn(missing_docs)]

mod closing;
mod extent;
#[allow(unsafe_code)]
mod ffi;
mod recorded;
mod refusal;
mod role;
mod run;
mod tag;
mod timestamp;

pub use closing::{close_session, is_closed};
pub use extent::Extent;
pub use recorded::{recorded, recorded_since, Sector};
pub use refusal::Refusal;
pub use role::{space, NoRole, Role, Space};
pub use run::{file_entry, view, write_unnumbered};
pub use tag::tag_checksum;
pub use timestamp::{SaveTime, Timestamp};

/// The thirteen calls with the two numbers as the core answers them: outcome ×
/// 4,294,967,296 + second number. Outcome 0 is done, else it is the number of a
/// [`Refusal`], and the second number is 0.
pub mod raw {
    pub use crate::ffi::{
        begin, close_packet, close_session, commit, commit_at, look_back, mount, read, release,
        time_of, view, write, write_unnumbered,
    };
}

/// Bytes of a sector, and of a lent block.
pub const SECTOR: usize = 2048;

/// Bytes of the ledger.
pub const LEDGER: usize = 16_364;

/// Bytes of a timestamp.
pub const STAMP: usize = 12;

/// Bytes of the answer that [`raw::time_of`] is lent.
pub const TIME: usize = 8;

/// The most bytes of a buffer that [`view`] fills.
pub const MOST_VIEWED: usize = 65_536;

/// The most extents that a run's entry names.
pub const MOST_EXTENTS: usize = 100;

/// The most sectors that a disc has.
pub const MOST_SECTORS: usize = 360_000;

/// The ledger holds at most this many virtual numbers.
pub const LIMIT: u32 = 4087;

/// An unused map entry, or a missing last table: hex FFFFFFFF.
pub const UNUSED: u32 = u32::MAX;

/// Begin: size 0, no last table, mode 0. Allowed on a disc with recorded
/// sectors if none is a table sector. All roles are made anew.
///
/// # Errors
///
/// 1, 2, 3 and 6. The lengths of roles and ledger are tested, and their content is
/// not read.
pub fn begin(
    image: &[u8],
    kinds: &[u8],
    roles: &mut [u8],
    ledger: &mut [u8],
) -> Result<(), Refusal> {
    done(raw::begin(image, kinds, roles, ledger))
}

/// Mount: starts at the last recorded sector and goes towards block 0. The
/// first table sector met ends the search. Its entries and size fill the
/// ledger; it is the last table; mode 0. All roles are made anew.
///
/// True means clean: the table is the last recorded sector. False means dirty.
///
/// # Errors
///
/// 1, 2, 3 and 7. The lengths of roles and ledger are tested, and their content is
/// not read.
pub fn mount(
    image: &[u8],
    kinds: &[u8],
    roles: &mut [u8],
    ledger: &mut [u8],
) -> Result<bool, Refusal> {
    second(raw::mount(image, kinds, roles, ledger)).map(|clean| clean != 0)
}

/// Write number v: records one data sector with the lent block and sets entry v
/// to it. If v equals size, size grows by one. A released number below size may
/// be written again. Mode becomes 1. The answer is the block recorded.
///
/// # Errors
///
/// 1, 2, 3, 4, 5, 17, 13, 12, 14 and 15: a v at or above 4,087 gives 13, even above
/// size. On discs of 1,000 sectors or more a write leaves 264 blank sectors, room
/// for links and a closing, and on others 16, room for links and a commit.
pub fn write(
    image: &mut [u8],
    kinds: &mut [u8],
    roles: &mut [u8],
    ledger: &mut [u8],
    v: u32,
    block: &[u8],
) -> Result<u32, Refusal> {
    second(raw::write(image, kinds, roles, ledger, v, block))
}

/// Release v: sets the entry to unused. Size stays.
///
/// # Errors
///
/// 1, 2, 3, 4, 5, 17 and 10.
pub fn release(
    image: &[u8],
    kinds: &[u8],
    roles: &mut [u8],
    ledger: &mut [u8],
    v: u32,
) -> Result<(), Refusal> {
    done(raw::release(image, kinds, roles, ledger, v))
}

/// Close packet: mode 0 (also after an underrun). Nothing is recorded. Closing
/// a closed packet is done.
///
/// # Errors
///
/// 1, 2, 3, 4, 5 and 17.
pub fn close_packet(
    image: &[u8],
    kinds: &[u8],
    roles: &[u8],
    ledger: &mut [u8],
) -> Result<(), Refusal> {
    done(raw::close_packet(image, kinds, roles, ledger))
}

/// Commit: records the table sector, which becomes the last table, and with more than
/// 458 numbers before it those of the table's own sectors that are not named again. It
/// may follow in any mode but 2, and mode is 1 afterwards. Allowed with nothing
/// changed and with size 0. The answer is the block of the table sector.
///
/// # Errors
///
/// 1, 2, 3, 4, 5, 17 and 14.
pub fn commit(
    image: &mut [u8],
    kinds: &mut [u8],
    roles: &mut [u8],
    ledger: &mut [u8],
) -> Result<u32, Refusal> {
    second(raw::commit(image, kinds, roles, ledger))
}

/// Commit at: a commit whose table sector has the lent timestamp as access,
/// modification and attribute time; [`commit`] records zeros there.
/// [`Timestamp::to_bytes`] makes one. The answer is the block of the table sector.
///
/// # Errors
///
/// 1, 2, 3, 4, 5, 17, 16 and 14.
pub fn commit_at(
    image: &mut [u8],
    kinds: &mut [u8],
    roles: &mut [u8],
    ledger: &mut [u8],
    stamp: &[u8],
) -> Result<u32, Refusal> {
    second(raw::commit_at(image, kinds, roles, ledger, stamp))
}

/// Read v: copies the 2048 bytes to the lent block; allowed with mode 2.
///
/// # Errors
///
/// 1, 2, 3, 4, 10 and 11.
pub fn read(
    image: &[u8],
    kinds: &[u8],
    ledger: &[u8],
    v: u32,
    block: &mut [u8],
) -> Result<(), Refusal> {
    done(raw::read(image, kinds, ledger, v, block))
}

/// Look back k: from the table that mount would find, follows the previous
/// entry k times; k 0 is that table. The ledger gets its map, recorded as it is
/// now, that table as last, mode 2. All roles are made anew. The answer is the
/// table's block.
///
/// # Errors
///
/// 1, 2, 3, 7, then 8 or 9 at the first failing step. The lengths of roles and
/// ledger are tested, and their content is not read.
pub fn look_back(
    image: &[u8],
    kinds: &[u8],
    roles: &mut [u8],
    ledger: &mut [u8],
    k: u32,
) -> Result<u32, Refusal> {
    second(raw::look_back(image, kinds, roles, ledger, k))
}

/// Time of k: goes back as [`look_back`] k does and tells the modification time
/// of the table there.
///
/// # Errors
///
/// 1, 2, 3, 7, then 8 or 9 at the first failing step, then 16 if that time breaks
/// the limits, as the zeros of a plain [`commit`] do. The ledger's length is
/// tested, and its content is not read.
pub fn time_of(image: &[u8], kinds: &[u8], ledger: &[u8], k: u32) -> Result<SaveTime, Refusal> {
    let mut answer = [0; TIME];
    done(raw::time_of(image, kinds, ledger, k, &mut answer))?;
    Ok(SaveTime::told_in(answer))
}

/// The second number of a call that is done, else the refusal.
fn second(answer: u64) -> Result<u32, Refusal> {
    match (answer >> 32) as u32 {
        0 => Ok(answer as u32),
        outcome => Err(Refusal::of(outcome)),
    }
}

/// Of a call whose second number says nothing.
fn done(answer: u64) -> Result<(), Refusal> {
    second(answer).map(|_| ())
}
