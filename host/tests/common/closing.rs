//! Closings, closed discs, and discs that are nearly closed.

use station_model::anchor::{has_pointer_tag, pointer_sector, Anchor, MOST_START};
use station_model::calls::Call;
use station_model::disc::{Disc, BEFORE_TABLE, BLANK, DATA, LINK, UNREADABLE};
use station_model::extent::Extent;
use station_model::fields::put;
use station_model::ledger::Volume;
use station_model::table::{vat_sector, NONE, SECTOR};

use super::random::Random;
use super::station::Station;
use super::tables::put_sum;

/// "Closing needs links + 257 blank sectors": the pointer, 255 zero sectors and the
/// table.
pub const CLOSING: usize = 257;

/// What the host gives, each number unlike the others.
pub const ANCHOR: Anchor = Anchor {
    main: Extent {
        length: 0x0001_8000,
        location: 0x0102_0304,
    },
    reserve: Extent {
        length: 0x8765_4321,
        location: 0xFEDC_BA98,
    },
    partition_start: 257,
};

pub const CLOSE: Call = Call::CloseSession(ANCHOR);

/// The same with another start.
pub fn starting(partition_start: u32) -> Anchor {
    Anchor {
        partition_start,
        ..ANCHOR
    }
}

/// The pointer of a closing at the block with this tag location; also one that no
/// start gives.
pub fn pointer(block: u32, location: u32) -> [u8; SECTOR] {
    let mut sector = pointer_sector(block, &starting(0));
    put(&mut sector, 12, &location.to_le_bytes());
    put_sum(&mut sector);
    sector
}

/// Whether a sector of the disc has the tag of a closing's pointer.
pub fn has_pointer(disc: &Disc) -> bool {
    let mut recorded = 0..disc.recorded();
    recorded.any(|block| {
        let data = disc.data(block);
        data.is_some_and(|sector| has_pointer_tag(sector, block))
    })
}

/// After how many of its sectors a call is cut: after each number of them, but of a
/// closing about its pointer, in the zeros, and about its table.
pub fn cuts(sectors: usize, random: &mut Random) -> Vec<usize> {
    match sectors.checked_sub(CLOSING) {
        None => (0..=sectors).collect(),
        Some(links) => {
            let zeros = links + 2 + random.below(CLOSING - 3);
            vec![0, links, links + 1, zeros, sectors - 1, sectors]
        }
    }
}

/// A disc that another deck closed: so many sectors before the pointer, the
/// pointer, sectors of any bytes, the table, and so many blank ones. The ledger is
/// as after a mount.
pub fn closed_by_another(before: u32, blank: usize) -> Station {
    let table = before + BEFORE_TABLE;
    let mut station = Station::blank(table as usize + 1 + blank);
    for block in 0..table {
        station.put_sector(block, DATA, &[block as u8 ^ 0x96; SECTOR]);
    }
    station.put_sector(before, DATA, &pointer(before, before));
    station.put_sector(table, DATA, &vat_sector(table, &[NONE], NONE));
    mounted(&mut station);
    station
}

/// A ledger as after a mount, or after a begin where there is no table.
pub fn mounted(station: &mut Station) {
    let disc = station.disc();
    let volume = match disc.newest_vat() {
        Some(found) => Volume::showing(&disc, &found, 0),
        None => Volume::begun(&disc),
    };
    station.ledger = volume.to_bytes().to_vec();
}

/// What the host gives for a closing: as a rule what is accepted.
pub fn anchor(random: &mut Random) -> Anchor {
    let mut extent = || Extent {
        length: random.next() as u32,
        location: random.next() as u32,
    };
    let (main, reserve) = (extent(), extent());
    let partition_start = match random.below(8) {
        0 => random.pick(&[MOST_START + 1, MOST_START + 2, 1 << 31, NONE]),
        1 => MOST_START,
        2 => random.below(2 * MOST_START as usize) as u32,
        _ => random.below(1000) as u32,
    };
    Anchor {
        main,
        reserve,
        partition_start,
    }
}

/// A closing's pointer for the block, or nearly one: the tag location at or near an
/// end of its range, or in it; sometimes a bit of the tag is another, with the
/// right checksum or without.
pub fn any_pointer(random: &mut Random, block: u32) -> [u8; SECTOR] {
    let within = block + random.below(MOST_START as usize + 1) as u32;
    let farthest = block + MOST_START;
    let about = [block.wrapping_sub(1), block, farthest, farthest + 1];
    let location = match random.below(3) {
        0 => within,
        _ => random.pick(&about),
    };
    let mut sector = pointer(block, location);
    if random.one_in(3) {
        random.fill(&mut sector[16..]);
    }
    match random.below(5) {
        0 => sector[random.below(16)] ^= 1 << random.below(8),
        1 => {
            sector[random.below(16)] ^= 1 << random.below(8);
            put_sum(&mut sector);
        }
        _ => {}
    }
    sector
}

/// A disc with room for a closing, or one that is closed, or nearly: up to 40
/// sectors are recorded before the 257.
pub fn disc_of_closings(random: &mut Random) -> Station {
    if random.one_in(2) {
        return disc_with_room(random);
    }
    let mut station = closed_by_another(random.below(40) as u32, random.below(20));
    if random.one_in(3) {
        spoil(random, &mut station);
    }
    station
}

/// None or some sectors of any kind, the last as a rule a table, and behind them
/// room for a closing and sometimes for more.
pub fn disc_with_room(random: &mut Random) -> Station {
    let recorded = random.below(2) * random.below(40);
    let mut station = Station::blank(recorded + CLOSING + random.below(60));
    for kind in &mut station.kinds[..recorded] {
        *kind = random.pick(&[DATA, DATA, LINK, UNREADABLE]);
    }
    if let (Some(last), false) = (recorded.checked_sub(1), random.one_in(4)) {
        let last = last as u32;
        station.put_sector(last, DATA, &vat_sector(last, &[], NONE));
    }
    station
}

/// One thing of a closed disc is another: a kind, the table, or the pointer.
fn spoil(random: &mut Random, station: &mut Station) {
    let recorded = station.disc().recorded();
    let Some(pointer) = recorded.checked_sub(BEFORE_TABLE + 1) else {
        return;
    };
    let any = random.below(recorded as usize);
    match random.below(4) {
        0 => station.kinds[any] = random.pick(&[LINK, UNREADABLE]),
        1 => {
            station.kinds[recorded as usize - 1] = random.pick(&[BLANK, DATA, LINK]);
            station.image[(recorded as usize - 1) * SECTOR] ^= 1;
        }
        _ => station.put_sector(pointer, DATA, &any_pointer(random, pointer)),
    }
}
