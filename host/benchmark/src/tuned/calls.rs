//! The thirteen calls, each with its refusals in the order of its tests.

use std::ops::Range;

use super::anchor::{has_pointer_tag, put_pointer, Anchor, MOST_START};
use super::answer::{refuse, Answer, Refusal};
use super::disc::{Disc, BEFORE_TABLE, DATA, LINK};
use super::fields::u32_at;
use super::ledger::{self, put_u32, Ledger, LEDGER};
use super::ledger::{IDLE, LAST_VAT, MODE, PACKET_OPEN, READ_ONLY, RECORDED, SIZE};
use super::roles::{self, IN_USE, TABLE, UNNUMBERED};
use super::run::{self, MOST_VIEWED};
use super::save::{Save, Table};
use super::table::{recognise, Sector, LIMIT, NONE};
use super::time::{self, Stamp, NO_STAMP, TIME};

/// "the short disc's reserve grows from 8 to 16"; "On discs of 1,000 sectors or more a
/// write must leave 264" (document 02).
#[inline(always)]
fn reserve(sectors: usize) -> usize {
    if sectors < 1000 {
        16
    } else {
        264
    }
}

/// Refusal 2 of roles and ledger: "a lent role buffer of another length than the
/// kinds" (document 02), or a ledger of another length than its own.
#[inline(always)]
fn lent_ledger<'a>(
    disc: &Disc,
    roles: &[u8],
    ledger: &'a mut [u8],
) -> Result<&'a mut Ledger, Refusal> {
    refuse(roles.len() != disc.kinds.len(), Refusal::LentLength)?;
    ledger.try_into().map_err(|_| Refusal::LentLength)
}

/// "Allowed on a disc with recorded sectors if none is a table sector."
pub fn begin(image: &[u8], kinds: &[u8], roles: &mut [u8], ledger: &mut [u8]) -> Answer {
    let disc = Disc::lent(image, kinds)?;
    let ledger = lent_ledger(&disc, roles, ledger)?;
    let recorded = disc.recorded()?;
    refuse(disc.newest_vat(recorded).is_some(), Refusal::VatExists)?;
    ledger::begin(ledger, recorded);
    roles::scan(roles, &disc, None, ledger);
    Ok(0)
}

/// "Clean means that it is the last recorded sector."
pub fn mount(image: &[u8], kinds: &[u8], roles: &mut [u8], ledger: &mut [u8]) -> Answer {
    let disc = Disc::lent(image, kinds)?;
    let ledger = lent_ledger(&disc, roles, ledger)?;
    let recorded = disc.recorded()?;
    let newest = disc.newest_vat(recorded).ok_or(Refusal::NoVat)?;
    ledger::show(ledger, &newest, recorded, IDLE);
    roles::scan(roles, &disc, Some(newest), ledger);
    Ok(u32::from(newest.block as usize + 1 == recorded))
}

/// "The ledger gets its map, recorded as it is now, that table as last, mode 2."
pub fn look_back(
    image: &[u8],
    kinds: &[u8],
    roles: &mut [u8],
    ledger: &mut [u8],
    k: u32,
) -> Answer {
    let disc = Disc::lent(image, kinds)?;
    let ledger = lent_ledger(&disc, roles, ledger)?;
    let recorded = disc.recorded()?;
    let newest = disc.newest_vat(recorded).ok_or(Refusal::NoVat)?;
    let found = disc.walk_back(newest, k)?;
    ledger::show(ledger, &found, recorded, READ_ONLY);
    roles::scan(roles, &disc, Some(newest), ledger);
    Ok(found.block)
}

/// "records one data sector with the lent block and sets entry v to it. If v
/// equals size, size grows by one." Without a number it is a write "in all but the
/// entry" (document 02).
#[inline(always)]
pub fn write(
    image: &mut [u8],
    kinds: &mut [u8],
    roles: &mut [u8],
    ledger: &mut [u8],
    v: Option<u32>,
    block: &[u8],
) -> Answer {
    let disc = Disc::lent(image, kinds)?;
    let ledger = lent_ledger(&disc, roles, ledger)?;
    let data: &Sector = block.try_into().map_err(|_| Refusal::LentLength)?;
    let recorded = ledger::writable(ledger, &disc)?.recorded;
    let size = u32_at(ledger, SIZE);
    let links = ledger::links(ledger, recorded);
    let place = recorded + links;
    if let Some(v) = v {
        refuse(v as usize >= LIMIT, Refusal::AboveLimit)?;
        refuse(v > size, Refusal::AboveSize)?;
    }
    refuse(
        kinds.len() - recorded < links + 1 + reserve(kinds.len()),
        Refusal::NoRoom,
    )?;
    refuse(
        has_pointer_tag(data, place as u32) || recognise(data, place as u32, &disc).is_some(),
        Refusal::WouldBeVat,
    )?;
    if let Some(v) = v {
        roles::let_go(roles, ledger, v);
    }
    put_kinds(kinds, roles, recorded..place, place);
    roles[place] = if v.is_some() { IN_USE } else { UNNUMBERED };
    image.as_chunks_mut().0[place] = *data;
    if let Some(v) = v {
        put_u32(ledger, 4 * v as usize, place as u32);
        put_u32(ledger, SIZE, size + u32::from(v == size));
    }
    open_packet(ledger, place);
    Ok(place as u32)
}

/// "sets the entry to unused. Size stays."
pub fn release(image: &[u8], kinds: &[u8], roles: &mut [u8], ledger: &mut [u8], v: u32) -> Answer {
    let disc = Disc::lent(image, kinds)?;
    let ledger = lent_ledger(&disc, roles, ledger)?;
    ledger::writable(ledger, &disc)?;
    ledger::block_of(ledger, v).ok_or(Refusal::NotInUse)?;
    roles::let_go(roles, ledger, v);
    put_u32(ledger, 4 * v as usize, NONE);
    Ok(0)
}

/// "mode 0 (also after an underrun). Nothing is recorded."
pub fn close_packet(image: &[u8], kinds: &[u8], roles: &[u8], ledger: &mut [u8]) -> Answer {
    let disc = Disc::lent(image, kinds)?;
    let ledger = lent_ledger(&disc, roles, ledger)?;
    ledger::writable(ledger, &disc)?;
    put_u32(ledger, MODE, IDLE);
    Ok(0)
}

/// "records the table sector, which becomes the last table"
pub fn commit(image: &mut [u8], kinds: &mut [u8], roles: &mut [u8], ledger: &mut [u8]) -> Answer {
    let disc = Disc::lent(image, kinds)?;
    let ledger = lent_ledger(&disc, roles, ledger)?;
    let told = ledger::writable(ledger, &disc)?;
    let save = Save::of(&table(ledger), told.last);
    record_save(image, kinds, roles, ledger, &save, save.fresh, &NO_STAMP)
}

/// "A second form of commit takes a 12-byte ECMA-167 timestamp"; 16 "is tested
/// after 5" (document 02).
pub fn commit_at(
    image: &mut [u8],
    kinds: &mut [u8],
    roles: &mut [u8],
    ledger: &mut [u8],
    stamp: &[u8],
) -> Answer {
    let disc = Disc::lent(image, kinds)?;
    let ledger = lent_ledger(&disc, roles, ledger)?;
    let stamp: &Stamp = stamp.try_into().map_err(|_| Refusal::LentLength)?;
    let told = ledger::writable(ledger, &disc)?;
    refuse(time::told(stamp).is_none(), Refusal::BadTimestamp)?;
    let save = Save::of(&table(ledger), told.last);
    record_save(image, kinds, roles, ledger, &save, save.fresh, stamp)
}

/// "Closing records, after links as usual, an Anchor Volume Descriptor Pointer, 255
/// zero sectors and the table sector, all as data"; own sectors "take the last of the
/// 255"; 18 is "tested directly after 17" (document 02).
pub fn close_session(
    image: &mut [u8],
    kinds: &mut [u8],
    roles: &mut [u8],
    ledger: &mut [u8],
    anchor: &Anchor,
) -> Answer {
    let disc = Disc::lent(image, kinds)?;
    let ledger = lent_ledger(&disc, roles, ledger)?;
    let told = ledger::writable(ledger, &disc)?;
    refuse(anchor.partition_start > MOST_START, Refusal::PartitionStart)?;
    let save = Save::of(&table(ledger), told.last);
    let icb = record_save(image, kinds, roles, ledger, &save, BEFORE_TABLE, &NO_STAMP)?;
    let pointer = icb as usize - BEFORE_TABLE;
    let sectors = &mut image.as_chunks_mut().0[pointer..icb as usize - save.fresh];
    sectors.as_flattened_mut().fill(0);
    put_pointer(&mut sectors[0], pointer as u32, anchor);
    Ok(icb)
}

/// The table of the ledger's map: "previous = the ledger's last table".
#[inline(always)]
fn table(ledger: &Ledger) -> Table<'_> {
    Table::of(ledger::entries(ledger), u32_at(ledger, LAST_VAT))
}

/// Either form of commit, and a closing: so many data sectors before the ICB, of which
/// the last are own sectors. "Commit needs blank sectors for what it records" (document
/// 02).
#[inline(always)]
fn record_save(
    image: &mut [u8],
    kinds: &mut [u8],
    roles: &mut [u8],
    ledger: &mut Ledger,
    save: &Save,
    before: usize,
    stamp: &Stamp,
) -> Answer {
    let recorded = u32_at(ledger, RECORDED) as usize;
    let first = recorded + ledger::links(ledger, recorded);
    let place = first + before;
    refuse(kinds.len() <= place, Refusal::NoRoom)?;
    let own = place - save.fresh;
    put_kinds(kinds, roles, recorded..first, place);
    roles[first..own].fill(UNNUMBERED);
    roles[own..=place].fill(TABLE);
    let sectors = &mut image.as_chunks_mut().0[own..=place];
    save.record(sectors, own as u32, &table(ledger), stamp);
    put_u32(ledger, LAST_VAT, place as u32);
    open_packet(ledger, place);
    Ok(place as u32)
}

/// "copies the 2048 bytes to the lent block; allowed with mode 2"
pub fn read(image: &[u8], kinds: &[u8], ledger: &[u8], v: u32, block: &mut [u8]) -> Answer {
    let disc = Disc::lent(image, kinds)?;
    let ledger: &Ledger = ledger.try_into().map_err(|_| Refusal::LentLength)?;
    let block: &mut Sector = block.try_into().map_err(|_| Refusal::LentLength)?;
    ledger::fitting(ledger, &disc)?;
    let place = ledger::block_of(ledger, v).ok_or(Refusal::NotInUse)?;
    *block = *disc.data(place).ok_or(Refusal::Unreadable)?;
    Ok(0)
}

/// "From a 64-bit offset it fills the lent buffer [...] as far as the run goes; the
/// second number counts the bytes" (document 02).
pub fn view(
    image: &[u8],
    kinds: &[u8],
    ledger: &[u8],
    v: u32,
    offset: u64,
    buffer: &mut [u8],
) -> Answer {
    let disc = Disc::lent(image, kinds)?;
    let ledger: &Ledger = ledger.try_into().map_err(|_| Refusal::LentLength)?;
    refuse(buffer.len() > MOST_VIEWED, Refusal::LentLength)?;
    ledger::fitting(ledger, &disc)?;
    let place = ledger::block_of(ledger, v).ok_or(Refusal::NotInUse)?;
    let sector = disc.data(place).ok_or(Refusal::Unreadable)?;
    let run = run::recognise(sector, place, &disc).ok_or(Refusal::NotARun)?;
    refuse(offset > run.length, Refusal::BeyondTheRun)?;
    Ok(run.fill(image, offset, buffer) as u32)
}

/// "tells, for k saves back, the modification time" (document 02). The ledger's
/// length is tested, and "The ledger is not read".
pub fn time_of(image: &[u8], kinds: &[u8], ledger: &[u8], k: u32, answer: &mut [u8]) -> Answer {
    let disc = Disc::lent(image, kinds)?;
    refuse(ledger.len() != LEDGER, Refusal::LentLength)?;
    let answer: &mut [u8; TIME] = answer.try_into().map_err(|_| Refusal::LentLength)?;
    let recorded = disc.recorded()?;
    let newest = disc.newest_vat(recorded).ok_or(Refusal::NoVat)?;
    let found = disc.walk_back(newest, k)?;
    let moment = time::told(&found.vat.modified()).ok_or(Refusal::BadTimestamp)?;
    *answer = moment.to_bytes();
    Ok(0)
}

/// "For a link sector only its kind changes, to 2; its image bytes stay." Behind the
/// links data sectors are recorded.
#[inline(always)]
fn put_kinds(kinds: &mut [u8], roles: &mut [u8], links: Range<usize>, last: usize) {
    kinds[links.end..=last].fill(DATA);
    kinds[links.clone()].fill(LINK);
    roles[links].fill(roles::LINK);
}

/// "After each call that is done, the ledger's recorded equals the disc's";
/// "Mode becomes 1", after a write as after a commit.
#[inline(always)]
fn open_packet(ledger: &mut Ledger, place: usize) {
    put_u32(ledger, RECORDED, place as u32 + 1);
    put_u32(ledger, MODE, PACKET_OPEN);
}
