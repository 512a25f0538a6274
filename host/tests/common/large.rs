//! Tables in sectors of their own (document 02), as a save records them and as other
//! decks may: in any blocks, behind attributes, also for few numbers.

use station_model::disc::{Disc, DATA, LINK, UNREADABLE};
use station_model::ledger::Volume;
use station_model::own::{extents, filled, MOST_OWN};
use station_model::table::{own_icb, seal, table_bytes, table_length, LIMIT, NONE, SECTOR};
use station_model::time::{Stamp, NO_STAMP};

use super::forge::{entries, entry, up_to};
use super::random::Random;
use super::stamps;
use super::station::Station;
use super::tables::{put_attributes, ATTRIBUTES};

/// A table in own sectors: the block of its ICB, the blocks of its own sectors, place
/// by place, and what it holds.
#[derive(Clone, Debug)]
pub struct Large {
    pub block: u32,
    pub own: Vec<u32>,
    pub map: Vec<u32>,
    pub previous: u32,
    pub attributes: Vec<u8>,
    pub stamp: Stamp,
}

impl Large {
    /// A table as a save records it that names no sector again: its own sectors from
    /// this block on, and behind them the ICB.
    pub fn recorded_from(first: u32, map: &[u32], previous: u32) -> Large {
        let own: Vec<u32> = (first..).take(places(map.len())).collect();
        Large::lying_in(&own, first + own.len() as u32, map, previous)
    }

    /// A table whose own sectors lie in these blocks.
    pub fn lying_in(own: &[u32], block: u32, map: &[u32], previous: u32) -> Large {
        Large {
            block,
            own: own.to_vec(),
            map: map.to_vec(),
            previous,
            attributes: Vec::new(),
            stamp: NO_STAMP,
        }
    }

    pub fn icb(&self) -> [u8; SECTOR] {
        let own = extents(table_length(self.map.len()), &self.own);
        let mut sector = own_icb(self.block, &own, &self.stamp);
        put_attributes(&mut sector, &self.attributes);
        seal(&mut sector, self.block);
        sector
    }

    /// The blocks of the own sectors with their bytes; where a block is at two places,
    /// the later one is what it comes to hold.
    pub fn sectors(&self) -> Vec<(u32, [u8; SECTOR])> {
        let bytes = filled(&table_bytes(&self.map, self.previous));
        self.own.iter().copied().zip(bytes).collect()
    }

    /// Records all of it, wherever it stands.
    pub fn put(&self, station: &mut Station) {
        for (block, bytes) in self.sectors() {
            station.put_sector(block, DATA, &bytes);
        }
        station.put_sector(self.block, DATA, &self.icb());
    }
}

/// In how many own sectors a table of so many numbers lies.
pub fn places(size: usize) -> usize {
    table_length(size).div_ceil(SECTOR)
}

/// A map of so many numbers, each on one of the blocks, all of which it names if it is
/// large enough, and some of which are unused.
pub fn map_over(blocks: u32, size: usize) -> Vec<u32> {
    let entry = |v: u32| match v % 13 {
        12 => NONE,
        _ => (v * 7 + v / 64) % blocks,
    };
    (0..size as u32).map(entry).collect()
}

/// Sizes about those at which a table comes to need one sector more, and the limits.
pub const SIZES: [usize; 24] = [
    0, 1, 457, 458, 459, 460, 502, 503, 504, 505, 511, 512, 513, 514, 1014, 1015, 1016, 1527, 1528,
    2040, 3575, 3576, 4086, 4087,
];

/// A disc with so many sectors of data, each unlike the others, and a ledger that fits.
pub fn with_data(sectors: usize, data: u32) -> Station {
    let mut station = Station::blank(sectors);
    for block in 0..data {
        station.put_sector(block, DATA, &[block as u8 ^ 0x6D; SECTOR]);
    }
    station.ledger = Volume::begun(&station.disc()).to_bytes().to_vec();
    station
}

/// Lends a ledger with another map, and with the newest table of the disc as its last.
pub fn lend_map(station: &mut Station, map: &[u32], mode: u32) {
    let mut volume = Volume::begun(&station.disc());
    volume.map[..map.len()].copy_from_slice(map);
    volume.size = map.len() as u32;
    volume.mode = mode;
    if let Some(found) = station.disc().newest_vat() {
        volume.last_vat = found.block;
    }
    station.ledger = volume.to_bytes().to_vec();
}

/// The most bytes of attributes before the descriptors of so many own sectors.
pub fn most_attributes(places: usize) -> usize {
    SECTOR - 4 - ATTRIBUTES - 8 * places
}

/// The size of a table in own sectors: more than an ICB holds, as a rule.
pub fn size(random: &mut Random) -> usize {
    match random.below(8) {
        0 => random.pick(&SIZES),
        1 => LIMIT - random.below(3),
        2 => random.below(20),
        _ => 459 + random.below(LIMIT - 458),
    }
}

/// Puts a table in own sectors on the disc, its ICB at the block, which is not 0, and
/// its own sectors in any blocks below, whatever these held. Now and then it is nearly
/// one.
pub fn forge(random: &mut Random, station: &mut Station, block: u32) {
    let mut large = any(random, block);
    if random.one_in(2) {
        large.stamp = stamps::stamp(random);
    }
    large.put(station);
    if random.one_in(5) {
        spoil(random, station, &large);
    }
}

/// A disc of up to 100 sectors whose last recorded one is a table in own sectors, as a
/// rule with room for links and some writes.
pub fn disc_to_go_on(random: &mut Random) -> Station {
    let recorded = 2 + random.below(20);
    let mut station = Station::blank(recorded + 14 + random.below(64));
    for kind in &mut station.kinds[..recorded] {
        *kind = random.pick(&[DATA, DATA, DATA, LINK, UNREADABLE]);
    }
    forge(random, &mut station, recorded as u32 - 1);
    station
}

/// In distinct blocks, if there are as many; or all places but the last in one block,
/// which hold the same.
fn any(random: &mut Random, block: u32) -> Large {
    let size = size(random);
    let mut map = entries(random, size, block);
    let mut own = some_below(random, block, places(size));
    if random.one_in(4) {
        map.fill(entry(random, block));
        let first = own[0];
        let (_, others) = own.split_last_mut().expect("a place");
        others.fill(first);
    }
    let previous = entry(random, block);
    Large {
        attributes: up_to(random, most_attributes(own.len())),
        ..Large::lying_in(&own, block, &map, previous)
    }
}

/// So many blocks below this one, distinct as far as there are as many.
fn some_below(random: &mut Random, block: u32, count: usize) -> Vec<u32> {
    let mut blocks: Vec<u32> = (0..block).collect();
    for at in 0..blocks.len() {
        let other = at + random.below(blocks.len() - at);
        blocks.swap(at, other);
    }
    blocks.into_iter().cycle().take(count).collect()
}

/// One bit of the ICB or of an own sector is another, or an own sector's kind.
fn spoil(random: &mut Random, station: &mut Station, large: &Large) {
    let own = random.pick(&large.own);
    let block = random.pick(&[own, large.block]);
    if block == own && random.one_in(3) {
        station.kinds[own as usize] = random.pick(&[LINK, UNREADABLE]);
        return;
    }
    let mut sector = *station.sector(block);
    let at = match random.below(3) {
        0 => random.below(SECTOR),
        1 => random.below(ATTRIBUTES + 8 * MOST_OWN),
        _ => random.pick(&[34, 56, 57, 64, 168, 172, 176, 177, 179, 180, 184]),
    };
    sector[at] ^= 1 << random.below(8);
    if block == large.block && !random.one_in(4) {
        seal(&mut sector, block);
    }
    station.put_sector(block, DATA, &sector);
}

/// An ICB for the block that names own sectors of this disc: that of its newest table,
/// if it lies in such, or of any blocks.
pub fn icb_on(random: &mut Random, image: &[u8], kinds: &[u8], block: u32) -> [u8; SECTOR] {
    let disc = Disc::lent(image, kinds).ok();
    let newest = disc.and_then(|disc| disc.newest_vat());
    let newest = newest.filter(|found| !found.vat.own.is_empty());
    let (own, size) = match newest {
        Some(found) if !random.one_in(4) => (found.vat.own, found.vat.map.len()),
        _ => {
            let count = 1 + random.below(MOST_OWN);
            (entries(random, count, block), 500 * count)
        }
    };
    let mut sector = own_icb(block, &extents(table_length(size), &own), &NO_STAMP);
    if random.one_in(4) {
        sector[34 + random.below(SECTOR - 34)] ^= 1 << random.below(8);
        seal(&mut sector, block);
    }
    sector
}
