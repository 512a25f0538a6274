//! The largest disc full of saves of 4,087 numbers: 30,000 of them, which share seven of
//! their eight own sectors. Each call is compared, on a stack of 256 KiB, and the whole
//! image at the end.

mod common;

use common::closing::CLOSE;
use common::full::{FullSize, SECTORS};
use common::station::{done, refused};
use station_model::anchor::has_pointer_tag;
use station_model::calls::Call;
use station_model::disc::{DATA, LINK, UNREADABLE};
use station_model::own::{extents, filled};
use station_model::table::{own_icb, table_bytes, table_length, LIMIT, NONE, SECTOR};
use station_model::time::NO_STAMP;

/// What a save takes behind a closed packet: seven links, three writes, the own sector
/// that they change, and the ICB. In the place of the first links stand the seven own
/// sectors that all share.
const EACH: u32 = 12;
const SAVES: u32 = SECTORS / EACH;

/// The first number whose entry lies in the eighth own sector.
const EIGHTH: usize = 7 * 512;

/// The block of the table of a save, counted from the oldest.
fn table_of(save: u32) -> u32 {
    EACH * save + 11
}

/// The ICB of a save.
fn icb(save: u32) -> [u8; SECTOR] {
    let block = table_of(save);
    let own = [0, 1, 2, 3, 4, 5, 6, block - 1];
    own_icb(block, &extents(table_length(LIMIT), &own), &NO_STAMP)
}

/// The eight own sectors of the last save so far, which change from save to save.
struct Growing {
    map: Vec<u32>,
    own: Vec<[u8; SECTOR]>,
}

impl Growing {
    /// The three numbers that the save writes, in turn of those of the eighth sector.
    fn save(&mut self, save: u32) {
        for write in 0..3 {
            let v = EIGHTH + (3 * save + write) as usize % (LIMIT - EIGHTH);
            self.map[v] = EACH * save + 7 + write;
        }
        let previous = save.checked_sub(1).map_or(NONE, table_of);
        self.own = filled(&table_bytes(&self.map, previous));
    }

    fn new() -> Growing {
        let mut map: Vec<u32> = (0..LIMIT as u32).map(|v| 7 + v % 3).collect();
        map[EIGHTH..].fill(NONE);
        Growing {
            map,
            own: Vec::new(),
        }
    }
}

/// Fills the disc; the map of the newest save.
fn full_of_saves(disc: &mut FullSize) -> Vec<u32> {
    let mut growing = Growing::new();
    for save in 0..SAVES {
        growing.save(save);
        let block = table_of(save);
        disc.put_sector(block - 1, &growing.own[7]);
        disc.put_sector(block, &icb(save));
        let links = (EACH * save) as usize..(EACH * save + 7) as usize;
        let data = links.end..block as usize + 1;
        disc.kinds()[links].fill(if save == 0 { DATA } else { LINK });
        disc.kinds()[data].fill(DATA);
    }
    for (block, bytes) in (0..7).zip(&growing.own) {
        disc.put_sector(block, bytes);
    }
    growing.map
}

/// The newest is mounted, the oldest looked back to, and nothing more fits.
fn shown(disc: &mut FullSize, map: &[u32]) {
    assert_eq!(disc.call(Call::Mount), done(1));
    assert_eq!(disc.core.volume().entries(), map);
    let table_roles = disc.core.roles.iter().filter(|role| **role == 3);
    assert_eq!(table_roles.count() as u32, 2 * SAVES + 7);
    assert_eq!(
        disc.call(Call::LookBack(SAVES / 2)),
        done(table_of(SAVES / 2 - 1))
    );
    assert_eq!(disc.call(Call::LookBack(SAVES - 1)), done(table_of(0)));
    assert_eq!(disc.call(Call::LookBack(SAVES)), refused(9));
    assert_eq!(disc.call(Call::TimeOf(SAVES - 1)), refused(16));
    assert_eq!(disc.call(Call::TimeOf(NONE)), refused(9));
    assert_eq!(disc.call(Call::Begin), refused(6));
    assert_eq!(disc.call(Call::Mount), done(1));
    assert_eq!(disc.call(Call::Read(4086)), done(0));
    assert_eq!(disc.call(Call::Release(4086)), done(0));
    for call in [Call::Write(0), Call::Commit, Call::CommitAt, CLOSE] {
        assert_eq!(disc.call(call), refused(14));
    }
}

/// One own sector is lost: of one save, and of all.
fn broken(disc: &mut FullSize) {
    let lost = table_of(99) - 1;
    disc.kinds()[lost as usize] = UNREADABLE;
    assert_eq!(disc.call(Call::LookBack(SAVES - 101)), done(table_of(100)));
    assert_eq!(disc.call(Call::LookBack(SAVES - 100)), refused(8));
    assert_eq!(disc.call(Call::LookBack(NONE)), refused(8));
    disc.kinds()[lost as usize] = DATA;
    disc.kinds()[3] = UNREADABLE;
    assert_eq!(disc.call(Call::Mount), refused(7));
    assert_eq!(disc.call(Call::TimeOf(0)), refused(7));
    assert_eq!(disc.call(Call::Begin), done(0));
    disc.kinds()[3] = DATA;
}

/// With the last 600 sectors blank again: saves of which each records the own sectors in
/// which numbers were written, and a closing.
fn gone_on_with(disc: &mut FullSize) {
    let recorded = SECTORS - 600;
    disc.kinds()[recorded as usize..].fill(0);
    assert_eq!(disc.call(Call::Mount), done(1));
    assert_eq!(disc.call(Call::Write(0)), done(recorded + 7));
    assert_eq!(disc.call(Call::Commit), done(recorded + 10));
    assert_eq!(disc.call(Call::Write(4086)), done(recorded + 11));
    assert_eq!(disc.call(Call::Commit), done(recorded + 13));
    disc.lend_ledger(|volume| volume.map.fill(recorded - 1));
    assert_eq!(disc.call(Call::Commit), done(recorded + 22));
    disc.lend_ledger(|volume| volume.map[..2048].copy_from_slice(&near_tags(recorded)));
    assert_eq!(disc.call(Call::Commit), done(recorded + 28));
    for block in recorded + 23..recorded + 28 {
        let bytes = &disc.core.image[block as usize * SECTOR..];
        let sector = bytes.first_chunk().expect("a sector");
        assert!(!has_pointer_tag(sector, block), "{block}");
    }
    assert_eq!(disc.call(CLOSE), done(recorded + 29 + 256));
    assert_eq!(disc.call(Call::Mount), done(1));
    assert_eq!(disc.call(Call::LookBack(5)), done(recorded - 1));
}

/// Entries that come near the tag of a table sector, or of a closing's pointer, as far as
/// blocks below recorded do: identifier and version are right, and the checksum.
fn near_tags(recorded: u32) -> [u32; 2048] {
    let mut entries = [NONE; 2048];
    for (place, identifier) in [(0, 261), (1, 2), (2, 2), (3, 261)] {
        let near = &mut entries[512 * place..][..5];
        let version = 2 << 16;
        near.copy_from_slice(&[identifier | version, 0, 5 << 16, recorded - 1, 4]);
        let bytes = near[..4].iter().flat_map(|entry| entry.to_le_bytes());
        near[1] = bytes.fold(0u8, |sum, byte| sum.wrapping_add(byte)).into();
    }
    entries
}

#[test]
fn thirty_thousand_saves() {
    let mut disc = FullSize::blank();
    let map = full_of_saves(&mut disc);
    shown(&mut disc, &map);
    broken(&mut disc);
    let mut growing = Growing::new();
    growing.save(0);
    disc.compare_image(|block| match (block, block % EACH) {
        (0..7, _) => growing.own[block as usize],
        (_, 10) if block < SECTORS => {
            growing.save(block / EACH);
            growing.own[7]
        }
        (_, 11) if block < SECTORS => icb(block / EACH),
        _ => [0; SECTOR],
    });
    gone_on_with(&mut disc);
    println!("{} calls compared on {SAVES} saves", disc.compared);
}
