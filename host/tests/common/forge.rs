//! Random discs, blocks, table sectors and ledgers, also such as look right.

use station_model::calls::Call;
use station_model::disc::{Disc, BLANK, DATA, UNREADABLE};
use station_model::fields::{put, u16_at, u32_at};
use station_model::ledger::{Volume, LEDGER, READ_ONLY};
use station_model::table::{seal, LIMIT, NONE, SECTOR};

use super::closing::{anchor, any_pointer};
use super::large;
use super::random::Random;
use super::runs;
use super::stamps::{put_modified, stamp};
use super::station::Station;
use super::tables::{most_attributes, put_lengths, vat_behind, ATTRIBUTES, MOST_EMBEDDED};

/// A disc of 1 to 60 sectors without a table sector: blank, or used.
pub fn disc_without_vat(random: &mut Random) -> Station {
    let sectors = sectors(random);
    if random.one_in(2) {
        Station::blank(sectors)
    } else {
        used_disc(random, sectors)
    }
}

/// Random kinds on at least one recorded sector, and random bytes also in the
/// blank ones.
pub fn used_disc(random: &mut Random, sectors: usize) -> Station {
    let mut station = Station::blank(sectors);
    let recorded = recorded(random, sectors);
    random.fill(&mut station.image);
    for kind in &mut station.kinds[..recorded] {
        *kind = 1 + random.below(usize::from(UNREADABLE)) as u8;
    }
    station
}

/// Half of the discs have room for longer lists.
fn sectors(random: &mut Random) -> usize {
    match random.below(2) {
        0 => 1 + random.below(60),
        _ => 40 + random.below(21),
    }
}

/// As a rule two thirds of a used disc are blank; some discs are full.
fn recorded(random: &mut Random, sectors: usize) -> usize {
    let most = if random.one_in(8) {
        sectors
    } else {
        sectors / 3 + 1
    };
    1 + random.below(most.min(sectors))
}

/// A disc with table sectors, embedded or in own sectors, whose entries and previous
/// name anything that they may: links, unreadable sectors, other tables, or a sector
/// that breaks the chain.
pub fn disc_with_vats(random: &mut Random) -> Station {
    let sectors = sectors(random);
    used_disc_with_vats(random, sectors)
}

pub fn used_disc_with_vats(random: &mut Random, sectors: usize) -> Station {
    let mut station = used_disc(random, sectors);
    let recorded = station.disc().recorded() as usize;
    for _ in 0..1 + random.below(3) {
        let block = random.below(recorded) as u32;
        let sector = match random.below(8) {
            0..=1 => near_vat(random, block),
            2..=3 if block > 0 => {
                large::forge(random, &mut station, block);
                continue;
            }
            _ => valid_vat(random, block),
        };
        station.put_sector(block, DATA, &sector);
    }
    station
}

/// A disc on which most sectors are table sectors, each naming an earlier
/// block; some are copies for another block or unreadable, so that chains end
/// or break.
pub fn disc_of_chains(random: &mut Random, sectors: usize) -> Station {
    let mut station = Station::blank(sectors);
    for block in 0..1 + random.below(sectors) as u32 {
        let previous = match random.below(6) {
            0 => entry(random, block),
            _ => block.checked_sub(1).unwrap_or(NONE),
        };
        let location = if random.one_in(12) { block + 1 } else { block };
        let kind = if random.one_in(12) { UNREADABLE } else { DATA };
        let map = vec![NONE; random.below(3)];
        let attributes = attributes(random, map.len());
        let mut sector = vat_behind(&attributes, location, &map, previous);
        put_modified(&mut sector, location, &stamp(random));
        station.put_sector(block, kind, &sector);
    }
    station
}

/// A table sector for the block, with right sums, that need not be one that
/// commit would record.
pub fn valid_vat(random: &mut Random, block: u32) -> [u8; SECTOR] {
    let size = size(random);
    let map = entries(random, size, block);
    let attributes = attributes(random, size);
    let mut sector = vat_behind(&attributes, block, &map, entry(random, block));
    if random.one_in(2) {
        foreign_fields(random, &mut sector);
        seal(&mut sector, block);
    }
    if random.one_in(2) {
        put_modified(&mut sector, block, &stamp(random));
    }
    sector
}

/// What is nearly a table sector, with right sums or without: as a rule it is
/// none.
pub fn near_vat(random: &mut Random, block: u32) -> [u8; SECTOR] {
    let mut sector = match random.below(8) {
        0 => vat_behind_any_length(random, block),
        1 => vat_elsewhere(random, block),
        _ => vat_with_a_bit_changed(random, block),
    };
    if random.one_in(2) {
        seal(&mut sector, block);
    }
    sector
}

/// All is right but the length of the attributes: of four lengths in a row one
/// is a multiple of 4, and for some tables it is one word too long.
fn vat_behind_any_length(random: &mut Random, block: u32) -> [u8; SECTOR] {
    let size = size(random);
    let map = entries(random, size, block);
    let length = match random.below(2) {
        0 => random.below(24),
        _ => most_attributes(size) + random.below(8),
    };
    let attributes = random.bytes(length);
    vat_behind(&attributes, block, &map, entry(random, block))
}

/// The lengths agree, and the table does not stand where they say.
fn vat_elsewhere(random: &mut Random, block: u32) -> [u8; SECTOR] {
    let mut sector = valid_vat(random, block);
    let (attributes, descriptors) = (u32_at(&sector, 168), u32_at(&sector, 172));
    let other = match random.below(4) {
        0 => 0,
        1 => attributes.wrapping_sub(4),
        2 => attributes + 4,
        _ => attributes ^ 1 << random.below(32),
    };
    put_lengths(&mut sector, other, descriptors);
    seal(&mut sector, block);
    sector
}

/// One bit: anywhere, in the tag and what follows it, in the lengths before the
/// attributes, in the attributes, or about the table's beginning.
fn vat_with_a_bit_changed(random: &mut Random, block: u32) -> [u8; SECTOR] {
    let mut sector = valid_vat(random, block);
    let table = ATTRIBUTES + u32_at(&sector, 168) as usize;
    let at = match random.below(8) {
        0 => random.below(SECTOR),
        1..=3 => random.below(64),
        4 => 168 + random.below(8),
        5 => ATTRIBUTES + random.below(table + 8 - ATTRIBUTES),
        _ => table - 8 + random.below(100),
    };
    sector[at.min(SECTOR - 1)] ^= 1 << random.below(8);
    sector
}

/// Fields that recognition does not test, as another writer would have them:
/// serial number, record format, the flags' high bits, user, group, times,
/// checkpoint, implementation, unique id, the attributes, the regid's flags and
/// suffix, and what lies behind the table.
pub fn foreign_fields(random: &mut Random, sector: &mut [u8; SECTOR]) {
    let table = ATTRIBUTES + u32_at(sector, 168) as usize;
    let end = 16 + usize::from(u16_at(sector, 10));
    let regid = end - 36;
    let fields = [
        6..8,
        16..20,
        22..27,
        28..34,
        35..48,
        50..56,
        64..168,
        ATTRIBUTES..table,
        regid..regid + 1,
        regid + 24..regid + 32,
        end..SECTOR,
    ];
    for field in fields {
        if random.one_in(2) {
            random.fill(&mut sector[field]);
        }
    }
    sector[34] = 3 | (random.next() as u8 & 0xF8);
}

/// None or a few words, as a rule; sometimes any number of words up to the most
/// before a table of this size, and sometimes the most.
fn attributes(random: &mut Random, size: usize) -> Vec<u8> {
    up_to(random, most_attributes(size))
}

/// The same up to so many bytes.
pub fn up_to(random: &mut Random, most: usize) -> Vec<u8> {
    let most = most / 4;
    let words = match random.below(24) {
        0 => most,
        1 => random.below(most + 1),
        2..=9 => most.min(1 + random.below(8)),
        _ => 0,
    };
    random.bytes(4 * words)
}

/// The size of an embedded table: small as a rule; sometimes near the most.
fn size(random: &mut Random) -> usize {
    match random.below(12) {
        0 => MOST_EMBEDDED - usize::from(random.one_in(4)),
        _ => random.below(7),
    }
}

pub fn entries(random: &mut Random, size: usize, below: u32) -> Vec<u32> {
    (0..size).map(|_| entry(random, below)).collect()
}

/// Unused, or a block below the bound.
pub fn entry(random: &mut Random, below: u32) -> u32 {
    if below == 0 || random.one_in(4) {
        NONE
    } else {
        random.below(below as usize) as u32
    }
}

/// A block to write: random, a copy of some sector, or a table sector, also one that
/// names own sectors, a closing's pointer or a run's entry, or nearly one, for a block
/// that the write may or may not take.
pub fn block(random: &mut Random, image: &[u8], kinds: &[u8]) -> Vec<u8> {
    let sectors = image.len() / SECTOR;
    let recorded = kinds.iter().take_while(|kind| **kind != BLANK).count() as u32;
    let next = recorded + random.pick(&[0, 7]);
    match random.below(16) {
        14..=15 => large::icb_on(random, image, kinds, next).to_vec(),
        0 => image[random.below(sectors) * SECTOR..][..SECTOR].to_vec(),
        1 => valid_vat(random, recorded).to_vec(),
        2 => valid_vat(random, recorded + 7).to_vec(),
        3 => {
            let other = random.below(sectors) as u32;
            valid_vat(random, other).to_vec()
        }
        4 => near_vat(random, next).to_vec(),
        5 => any_pointer(random, next).to_vec(),
        6..=8 => runs::any_entry(random, kinds, next).to_vec(),
        _ => random.bytes(SECTOR),
    }
}

/// What a call needs beside the three buffers: a block to write or to read into,
/// a timestamp, or an answer or a view to fill.
pub fn buffer(random: &mut Random, call: Call, image: &[u8], kinds: &[u8]) -> Vec<u8> {
    match call {
        Call::Write(_) | Call::WriteUnnumbered => block(random, image, kinds),
        Call::CommitAt => stamp(random).to_vec(),
        Call::View { .. } => vec![random.next() as u8; runs::most_viewed(random)],
        _ => vec![random.next() as u8; call.lent_length().unwrap_or(0)],
    }
}

/// What a lost ledger may hold: random bytes, one byte throughout, what it
/// held before, or a state that fits the disc.
pub fn lost_ledger(random: &mut Random, disc: &Disc, before: &[u8]) -> Vec<u8> {
    match random.below(5) {
        0 => random.bytes(LEDGER),
        1 => vec![random.pick(&[0, 0xFF]); LEDGER],
        2 => before.to_vec(),
        _ => fitting(random, disc).to_bytes().to_vec(),
    }
}

/// A state that fits the disc and need not be one that a call has left.
pub fn fitting(random: &mut Random, disc: &Disc) -> Volume {
    let mut volume = Volume::begun(disc);
    let size = match random.below(8) {
        0 => large::size(random),
        _ => size(random),
    };
    let map = entries(random, size, volume.recorded);
    volume.map[..size].copy_from_slice(&map);
    volume.size = size as u32;
    let last = entry(random, volume.recorded);
    if disc.vat_at(last).is_some() {
        volume.last_vat = last;
    }
    volume.mode = random.below(READ_ONLY as usize + 1) as u32;
    if !volume.fits(disc) {
        volume.mode = 0;
    }
    volume
}

/// A ledger one of whose fields was set to something else, near what it was or
/// near a bound.
pub fn spoiled(random: &mut Random, ledger: &[u8]) -> Vec<u8> {
    let mut spoiled = ledger.to_vec();
    let field = match random.below(3) {
        0 => random.below(8),
        1 => random.below(LIMIT),
        _ => LIMIT + random.below(4),
    };
    let old = u32_at(&spoiled, 4 * field);
    let new = match random.below(5) {
        0 => random.next() as u32,
        1 => old.wrapping_add(1),
        2 => old.wrapping_sub(1),
        3 => random.pick(&[0, 1, 2, 3, 458, 459, 4086, 4087, 4088, NONE]),
        _ => old ^ 1 << random.below(32),
    };
    put(&mut spoiled, 4 * field, &new.to_le_bytes());
    spoiled
}

/// The size that a ledger of 16,364 bytes holds, as far as it can be meant.
pub fn size_in(ledger: &[u8]) -> usize {
    let size = u32_at(ledger, 4 * LIMIT) as usize;
    size.min(LIMIT + 1)
}

/// A number near the bound, sometimes near the limit or far above it.
pub fn number(random: &mut Random, bound: usize) -> u32 {
    match random.below(16) {
        0 => random.pick(&[458, 500, 4086, 4087, 4088, u32::MAX, 1 << 31]),
        1 => random.next() as u32,
        2 => bound as u32 + 1,
        3..=6 => bound as u32,
        7 => (bound as u32).wrapping_sub(1),
        _ => random.below(bound + 1) as u32,
    }
}

/// Any call, with numbers near those that mean something.
pub fn call(random: &mut Random, size: usize, tables: usize) -> Call {
    match random.below(31) {
        0 => Call::Begin,
        1 => Call::Mount,
        2..=7 => Call::Write(number(random, size)),
        8..=9 => Call::Release(number(random, size)),
        10 => Call::ClosePacket,
        11..=12 => Call::Commit,
        13..=14 => Call::CommitAt,
        15..=17 => Call::Read(number(random, size)),
        18..=20 => Call::LookBack(number(random, tables)),
        21..=23 => Call::TimeOf(number(random, tables)),
        24 => Call::CloseSession(anchor(random)),
        25..=26 => Call::WriteUnnumbered,
        _ => Call::View {
            v: number(random, size),
            offset: runs::offset(random),
        },
    }
}
