//! Runs longer than a block (document 02): a disc with an entry, what entries were
//! seen to show, and random entries, also such as are nearly right.

use std::collections::BTreeMap;
use std::ops::Range;

use station_model::calls::Call;
use station_model::disc::{Disc, DATA};
use station_model::extent::Extent;
use station_model::fields::{put, u16_at};
use station_model::ledger::Volume;
use station_model::run::{entry_sector, MOST_EXTENTS, MOST_VIEWED};
use station_model::table::{seal, SECTOR};

use super::core::Core;
use super::forge;
use super::pair::Pair;
use super::random::Random;
use super::station::{refused, Station};

/// A view's buffer before it is filled.
pub static VIEWED: [u8; MOST_VIEWED] = [0xC7; MOST_VIEWED];

/// Where the entry of [`with_entry`] stands, and how many sectors are recorded there.
pub const ENTRY: u32 = 20;
pub const RECORDED: usize = 30;

pub fn extent(length: usize, location: u32) -> Extent {
    Extent {
        length: length as u32,
        location,
    }
}

/// Bytes of an image that differ from place to place and from sector to sector.
pub fn byte_at(at: usize) -> u8 {
    (at as u64)
        .wrapping_mul(0x9E37_79B9_7F4A_7C15)
        .to_le_bytes()[7]
}

/// A disc of 40 sectors, of which the recorded ones are all data, with this sector
/// at its block as number 0.
pub fn with_entry(sector: &[u8; SECTOR]) -> Station {
    let mut station = Station::blank(40);
    for (at, byte) in station.image.iter_mut().enumerate() {
        *byte = byte_at(at);
    }
    station.kinds[..RECORDED].fill(DATA);
    station.put_sector(ENTRY, DATA, sector);
    name(&mut station, &[ENTRY]);
    station
}

/// A disc of 40 sectors with an entry that names these extents.
pub fn with_run(extents: &[Extent]) -> Station {
    with_entry(&entry_sector(ENTRY, extents))
}

/// A ledger in which these blocks are the numbers from 0 on.
pub fn name(station: &mut Station, blocks: &[u32]) {
    let mut volume = Volume::begun(&station.disc());
    for (v, block) in (0..).zip(blocks) {
        volume.set(v, *block);
    }
    station.ledger = volume.to_bytes().to_vec();
}

/// Three extents, the last in part: a run of 7,144 bytes.
pub fn three() -> [Extent; 3] {
    [extent(4096, 3), extent(2048, 10), extent(1000, 12)]
}

/// Whether number 0 is an entry to the core and to the model.
pub fn shows_a_run(pair: &mut Pair) -> bool {
    let answer = pair.call(Call::View { v: 0, offset: 0 }, &VIEWED[..9000]);
    assert!(answer.is_done() || answer == refused(19), "{answer:?}");
    answer.is_done()
}

/// What blocks were first seen to show of their runs: "A later save never alters
/// what an earlier entry shows" (document 02).
#[derive(Clone, Default)]
pub struct Shown(BTreeMap<u32, Vec<u8>>);

impl Shown {
    /// Views the beginning of each run of each save that the core finds, on a copy.
    pub fn compare(&mut self, core: &Core) -> Result<(), String> {
        let mut copy = core.clone();
        for k in 0.. {
            if !copy.call(Call::LookBack(k)).is_done() {
                break;
            }
            let volume = copy.volume();
            for (v, block) in (0..).zip(volume.entries()) {
                if is_likely(&copy.disc(), *block) {
                    self.compare_number(&mut copy, v, *block)?;
                }
            }
        }
        Ok(())
    }

    /// Of what is no entry nothing is shown, neither now nor later.
    fn compare_number(&mut self, copy: &mut Core, v: u32, block: u32) -> Result<(), String> {
        let mut buffer = vec![0; 5000];
        let answer = copy.call_lent(Call::View { v, offset: 0 }, &mut buffer);
        buffer.truncate(answer.second as usize);
        let first = self.0.entry(block).or_insert_with(|| buffer.clone());
        match *first == buffer {
            true => Ok(()),
            false => Err(format!("block {block} showed another run before")),
        }
    }
}

/// Whether a block of the disc begins as an entry does.
pub fn is_likely(disc: &Disc, block: u32) -> bool {
    let data = disc.data(block);
    data.is_some_and(|sector| u16_at(sector, 0) == 261 && sector[27] == 5)
}

/// How many bytes a view is lent: a few sectors as a rule.
pub fn most_viewed(random: &mut Random) -> usize {
    match random.below(16) {
        0 => 0,
        1 => MOST_VIEWED,
        2 => MOST_VIEWED + 1,
        3 => random.below(MOST_VIEWED),
        _ => random.below(3 * SECTOR),
    }
}

/// An offset: often about a sector's border, rarely far beyond any run.
pub fn offset(random: &mut Random) -> u64 {
    let within = |random: &mut Random| random.below(8 * SECTOR) as u64;
    match random.below(16) {
        0 => random.next(),
        1 => u64::MAX - within(random),
        2 => within(random) + (1 << 32),
        3..=6 => 0,
        7..=11 => (SECTOR * random.below(6) + random.below(3)).saturating_sub(1) as u64,
        _ => within(random),
    }
}

/// A view as it is, or of a number whose block shows a run, if the ledger names one,
/// from an offset in it or about its end.
pub fn aimed(random: &mut Random, disc: &Disc, volume: &Volume, call: Call) -> Call {
    if !matches!(call, Call::View { .. }) || random.one_in(3) {
        return call;
    }
    let numbered = (0..).zip(volume.entries());
    let runs = numbered.filter_map(|(v, block)| Some((v, disc.run_at(*block)?.length())));
    let runs: Vec<(u32, u64)> = runs.collect();
    if runs.is_empty() {
        return call;
    }
    let (v, length) = random.pick(&runs);
    let offset = match random.below(6) {
        0 => length + 1,
        1 => length,
        _ => random.next() % length,
    };
    Call::View { v, offset }
}

/// A disc with some entries, or nearly such, among other sectors, and a ledger that
/// names recorded blocks.
pub fn disc_with_runs(random: &mut Random) -> Station {
    let sectors = 12 + random.below(28);
    let mut station = forge::used_disc_with_vats(random, sectors);
    plant_entries(random, &mut station);
    let recorded = station.disc().recorded();
    let blocks: Vec<u32> = (0..recorded).rev().collect();
    name(&mut station, &blocks);
    station
}

/// Puts some entries, or nearly such, into recorded sectors.
pub fn plant_entries(random: &mut Random, station: &mut Station) {
    let recorded = station.disc().recorded() as usize;
    for _ in 0..recorded.min(1 + random.below(4)) {
        let block = random.below(recorded) as u32;
        let sector = any_entry(random, &station.kinds, block);
        station.put_sector(block, DATA, &sector);
    }
}

/// An entry for the block: as a rule one of a run on a disc of these kinds, else
/// nearly one.
pub fn any_entry(random: &mut Random, kinds: &[u8], block: u32) -> [u8; SECTOR] {
    let mut extents = extents(random, kinds, block);
    if random.one_in(5) {
        spoil_extent(random, &mut extents);
    }
    let mut sector = entry_sector(block, &extents);
    if random.one_in(2) {
        free_fields(random, &mut sector);
        seal(&mut sector, block);
    }
    if random.one_in(5) {
        spoil_entry(random, &mut sector, block);
    }
    sector
}

/// Extents over data below the block: a few as a rule, seldom none, and seldom about
/// as many as an entry may name.
fn extents(random: &mut Random, kinds: &[u8], block: u32) -> Vec<Extent> {
    let below = &kinds[..kinds.len().min(block as usize)];
    let stretches = stretches_of_data(below);
    let count = match random.below(24) {
        0 => 0,
        1 => MOST_EXTENTS - 1 + random.below(3),
        _ => 1 + random.below(4),
    };
    let within = |m: usize| {
        let any = random.below(stretches.len().max(1));
        let stretch = stretches.get(any).cloned().unwrap_or(0..1);
        let first = stretch.start + random.below(stretch.len());
        let sectors = 1 + random.below(stretch.end - first);
        let missing = if m + 1 == count {
            random.below(SECTOR)
        } else {
            0
        };
        extent(sectors * SECTOR - missing, first as u32)
    };
    (0..count).map(within).collect()
}

/// Where sectors of kind 1 follow each other.
fn stretches_of_data(kinds: &[u8]) -> Vec<Range<usize>> {
    let mut stretches = Vec::new();
    let mut start = 0;
    for alike in kinds.chunk_by(|one, next| one == next) {
        let end = start + alike.len();
        if alike[0] == DATA {
            stretches.push(start..end);
        }
        start = end;
    }
    stretches
}

/// One extent is another.
fn spoil_extent(random: &mut Random, extents: &mut [Extent]) {
    if extents.is_empty() {
        return;
    }
    let Extent { length, location } = &mut extents[random.below(extents.len())];
    match random.below(8) {
        0 => *length = 0,
        1 => *length = length.wrapping_sub(1),
        2 => *length += 1,
        3 => *length += SECTOR as u32,
        4 => *length ^= 1 << random.below(32),
        5 => *location += 1,
        6 => *location = location.wrapping_sub(1),
        _ => *location ^= 1 << random.below(32),
    }
}

/// One bit, or a length, is another, as a rule under right sums.
fn spoil_entry(random: &mut Random, sector: &mut [u8; SECTOR], block: u32) {
    match random.below(6) {
        0 => sector[random.below(SECTOR)] ^= 1 << random.below(8),
        1 => sector[176 + random.below(40)] ^= 1 << random.below(8),
        2 => sector[56] ^= 1,
        3 => put(sector, 172, &(8 * random.below(103) as u32).to_le_bytes()),
        _ => sector[random.below(176)] ^= 1 << random.below(8),
    }
    if !random.one_in(4) {
        seal(sector, block);
    }
}

/// Fields of an entry that nothing is asked of, each with any bytes or as it was:
/// serial number, prior entries, strategy parameter, maximum entries, parent, the
/// flags' other bits, user, group, permissions, link count, record, blocks recorded,
/// times, checkpoint, implementation, unique id, and what lies behind the
/// descriptors.
pub fn free_fields(random: &mut Random, sector: &mut [u8; SECTOR]) {
    let end = 16 + usize::from(u16_at(sector, 10));
    let fields = [
        6..8,
        16..20,
        22..27,
        28..34,
        35..56,
        64..168,
        end.min(SECTOR)..SECTOR,
    ];
    for field in fields {
        if random.one_in(2) {
            random.fill(&mut sector[field]);
        }
    }
    sector[34] = sector[34] & 7 | (random.next() as u8 & 0xF8);
}
