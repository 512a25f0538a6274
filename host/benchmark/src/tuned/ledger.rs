//! The ledger, used where it lies: "map entries, then size, recorded, last table,
//! mode, each 32 bits".

use super::answer::{refuse, Refusal};
use super::disc::{Disc, Found, DATA};
use super::fields::{put, u32_at};
use super::table::{all_none_or_below, Vat, LIMIT, NONE};
use super::words::joined;

/// "4,087 numbers and the ledger 16,364 bytes" (document 02)
pub const LEDGER: usize = 16_364;
pub type Ledger = [u8; LEDGER];

/// "Mode is 0 (no packet open), 1 (packet open) or 2 (looking only)."
pub const IDLE: u32 = 0;
pub const PACKET_OPEN: u32 = 1;
pub const READ_ONLY: u32 = 2;

pub const SIZE: usize = 4 * LIMIT;
pub const RECORDED: usize = SIZE + 4;
pub const LAST_VAT: usize = SIZE + 8;
pub const MODE: usize = SIZE + 12;

/// "We count all seven at the opening."
const LINKS: usize = 7;

/// What a ledger that fits tells: the count of recorded sectors, and the last table.
pub struct Told<'a> {
    pub recorded: usize,
    pub last: Option<Vat<'a>>,
}

/// Refusals 3 and 4, or what the ledger tells.
#[inline(always)]
pub fn fitting<'a>(ledger: &Ledger, disc: &Disc<'a>) -> Result<Told<'a>, Refusal> {
    let recorded = disc.recorded_likely(u32_at(ledger, RECORDED) as usize)?;
    refuse(!fits(ledger, disc, recorded), Refusal::LedgerUnfit)?;
    let last = last_vat(ledger, disc)?;
    Ok(Told { recorded, last })
}

/// Refusal 5 too: "write, release, close packet or commit with mode 2"; and refusal
/// 17, "tested directly after 5" (document 02).
#[inline(always)]
pub fn writable<'a>(ledger: &Ledger, disc: &Disc<'a>) -> Result<Told<'a>, Refusal> {
    let told = fitting(ledger, disc)?;
    refuse(u32_at(ledger, MODE) == READ_ONLY, Refusal::ReadOnly)?;
    refuse(disc.is_closed(told.recorded), Refusal::SessionClosed)?;
    Ok(told)
}

/// Refusal 4 is the contrary, but for the last table, which is the dearest test.
#[inline(always)]
fn fits(ledger: &Ledger, disc: &Disc, recorded: usize) -> bool {
    u32_at(ledger, RECORDED) as usize == recorded
        && mode_fits(ledger, disc, recorded)
        && map_fits(ledger, recorded)
}

/// Against "last table neither FFFFFFFF nor a table sector".
#[inline(always)]
fn last_vat<'a>(ledger: &Ledger, disc: &Disc<'a>) -> Result<Option<Vat<'a>>, Refusal> {
    match u32_at(ledger, LAST_VAT) {
        NONE => Ok(None),
        last => {
            let found = disc.vat_at(last).ok_or(Refusal::LedgerUnfit)?;
            Ok(Some(found.vat))
        }
    }
}

/// Against "mode above 2; mode 1 where the last recorded sector is missing or
/// not kind 1".
#[inline(always)]
fn mode_fits(ledger: &Ledger, disc: &Disc, recorded: usize) -> bool {
    match u32_at(ledger, MODE) {
        PACKET_OPEN => disc.kinds[..recorded].last() == Some(&DATA),
        mode => mode <= READ_ONLY,
    }
}

/// Against "size above" the limit; "an entry from size on not FFFFFFFF; one below size
/// neither FFFFFFFF nor below recorded".
#[inline(always)]
fn map_fits(ledger: &Ledger, recorded: usize) -> bool {
    let size = u32_at(ledger, SIZE) as usize;
    if size > LIMIT {
        return false;
    }
    let (used, rest) = ledger[..SIZE].split_at(4 * size);
    all_none_or_below(used, recorded as u32) && joined(rest, |x| !x, |one, other| one | other) == 0
}

/// The block of number v, if v is below size and in use.
#[inline(always)]
pub fn block_of(ledger: &Ledger, v: u32) -> Option<u32> {
    if v >= u32_at(ledger, SIZE) {
        return None;
    }
    let block = u32_at(ledger, 4 * v as usize);
    (block != NONE).then_some(block)
}

/// The bytes of the entries below size.
#[inline(always)]
pub fn entries(ledger: &Ledger) -> &[u8] {
    &ledger[..4 * u32_at(ledger, SIZE) as usize]
}

/// Whether a block is that of one number alone.
#[inline(always)]
pub fn names_once(ledger: &Ledger, block: u32) -> bool {
    let is_named = |entry| u32::from(entry == block);
    joined(entries(ledger), is_named, |one, other| one + other) == 1
}

/// "In mode 0 with recorded above 0, write and commit first record seven link
/// sectors [...]. In mode 1, or with recorded 0, none."
#[inline(always)]
pub fn links(ledger: &Ledger, recorded: usize) -> usize {
    if u32_at(ledger, MODE) == IDLE && recorded > 0 {
        LINKS
    } else {
        0
    }
}

/// Begin: "size 0, no last table, mode 0".
#[inline(always)]
pub fn begin(ledger: &mut Ledger, recorded: usize) {
    ledger[..SIZE].fill(0xFF);
    put_state(ledger, 0, recorded, NONE, IDLE);
}

/// Mount and look back: "Its entries and size fill the ledger; it is the last
/// table". "Unused map entries, all entries from size on, [...] are hex FFFFFFFF."
#[inline(always)]
pub fn show(ledger: &mut Ledger, found: &Found, recorded: usize, mode: u32) {
    let numbers = found.vat.numbers;
    let (used, rest) = ledger[..SIZE].split_at_mut(4 * numbers);
    found.vat.copy_entries(used);
    rest.fill(0xFF);
    put_state(ledger, numbers as u32, recorded, found.block, mode);
}

#[inline(always)]
fn put_state(ledger: &mut Ledger, size: u32, recorded: usize, last: u32, mode: u32) {
    put_u32(ledger, SIZE, size);
    put_u32(ledger, RECORDED, recorded as u32);
    put_u32(ledger, LAST_VAT, last);
    put_u32(ledger, MODE, mode);
}

/// Sets a field of the ledger.
#[inline(always)]
pub fn put_u32(ledger: &mut Ledger, at: usize, number: u32) {
    put(ledger, at, &number.to_le_bytes());
}
