//! The measured calls: what each is prepared with, and one call of its batch.

use crate::buffers::{Buffers, BATCH, HIGHEST, STAMP};
use crate::discs::{
    all_plain, all_saves, all_vats, blank, clean, clean_large, clean_swept, dirty_by_all,
    dirty_by_one, long_run, many_extents, one_extent, open, open_empty, open_large, open_twice,
    open_unused, open_without_vat, short_run, swept, two_large_vats, two_vats,
};
use crate::tuned::{MOST_VIEWED, SECTOR};
use crate::version::Version;

/// Sectors that a batch of several calls may record: half of the smallest disc,
/// less the reserve that its last write leaves.
const ROOM: usize = 500 - 264;

/// How the work of a call grows with the disc.
#[derive(Clone, Copy, PartialEq)]
pub enum Work {
    /// The kinds, the ledger and a few sectors.
    Few,
    /// Every recorded sector of a disc that is half full.
    HalfOfThem,
    /// Every sector of a full one.
    EverySector,
}

impl Work {
    /// The recorded sectors that it goes over, if it does.
    pub fn recorded(self, sectors: usize) -> Option<usize> {
        match self {
            Work::Few => None,
            Work::HalfOfThem => Some(sectors / 2),
            Work::EverySector => Some(sectors),
        }
    }
}

/// Call i of a batch.
type Call = fn(&Version, &mut Buffers, usize) -> u64;

pub struct Row {
    pub name: &'static str,
    pub work: Work,
    pub prepare: fn(&mut Buffers),
    pub call: Call,
    /// Sectors that one call records.
    records: usize,
}

impl Row {
    pub fn batch(&self, sectors: usize) -> usize {
        match self.work {
            Work::Few if self.records > 0 => BATCH.min(ROOM / self.records).max(1),
            Work::Few => BATCH,
            // Smaller on large discs.
            Work::HalfOfThem | Work::EverySector => (BATCH * 1000 / sectors).max(1),
        }
    }

    const fn over_every_sector(mut self) -> Row {
        self.work = Work::EverySector;
        self
    }

    const fn over_half_of_them(mut self) -> Row {
        self.work = Work::HalfOfThem;
        self
    }

    const fn recording(mut self, sectors: usize) -> Row {
        self.records = sectors;
        self
    }
}

const fn row(name: &'static str, prepare: fn(&mut Buffers), call: Call) -> Row {
    Row {
        name,
        work: Work::Few,
        prepare,
        call,
        records: 0,
    }
}

/// Close packet before the first commit: kinds and ledger, and no table.
pub const CLOSE_PACKET: &str = "close packet, no table yet";

/// A mount that finds its table at once, and a call that goes the same way without
/// the scan of the roles.
pub const MOUNT: &str = "mount, clean";
pub const TIME_OF: &str = "time of 0";

pub static ROWS: [Row; 45] = [
    row("begin, blank disc", blank, begin),
    row("begin, all data, no table", all_plain, begin).over_every_sector(),
    row(MOUNT, clean, mount).over_half_of_them(),
    row("mount, clean, image swept", clean_swept, mount).over_half_of_them(),
    row("mount, clean, 4,087 numbers", clean_large, mount).over_half_of_them(),
    row("mount, dirty by one", dirty_by_one, mount).over_half_of_them(),
    row("mount, dirty by all", dirty_by_all, mount).over_every_sector(),
    row("mount, dirty by all, image swept", swept, mount).over_every_sector(),
    row("mount, all tables", all_vats, mount).over_every_sector(),
    row("mount, all saves of 4,087 numbers", all_saves, mount).over_every_sector(),
    row("write, mode 1, no table yet", open_without_vat, write).recording(1),
    row("write, mode 1", open, write).recording(1),
    row("write, mode 1, named twice", open_twice, write).recording(1),
    row("write, mode 1, unused", open_unused, write).recording(1),
    row("write, mode 1, 4,087 numbers", open_large, write).recording(1),
    row("write, mode 0 with links", open, write_links).recording(8),
    row("write unnumbered, mode 1", open, write_unnumbered).recording(1),
    row("release, no table yet", open_without_vat, release),
    row("release", open, release),
    row("release, named twice", open_twice, release),
    row("release, 4,087 numbers", open_large, release),
    row(CLOSE_PACKET, open_without_vat, close_packet),
    row("close packet", open, close_packet),
    row("close packet, 4,087 numbers", open_large, close_packet),
    row("commit, 0 numbers", open_empty, commit).recording(1),
    row("commit, 458 numbers", open, commit).recording(1),
    row("commit, 4,087 numbers", open_large, commit).recording(2),
    row("commit, 4,087, all recorded", open_large, commit_all).recording(9),
    row("commit at, 458 numbers", open, commit_at).recording(1),
    row("read, no table yet", open_without_vat, read),
    row("read", open, read),
    row("read, 4,087 numbers", open_large, read),
    row("look back 1", two_vats, look_back_one).over_half_of_them(),
    row("look back 1, 4,087 numbers", two_large_vats, look_back_one).over_half_of_them(),
    row("look back to the first", all_vats, look_back_all).over_every_sector(),
    row(TIME_OF, clean, time_of_newest),
    row("time of 0, 4,087 numbers", clean_large, time_of_newest),
    row("close session", open, close_session).recording(257),
    row("close session, 4,087 numbers", open_large, close_session).recording(257),
    row("view 4,096, 1 extent", one_extent, view_some),
    row("view 65,536, 1 extent", one_extent, view_most),
    row("view 4,096, 100 extents", many_extents, view_some),
    row("view 65,536, 100 extents", many_extents, view_most),
    row("view 4,096 of 32 sectors", short_run, view_some),
    row("view 4,096 of nearly all sectors", long_run, view_some),
];

fn begin(version: &Version, b: &mut Buffers, _: usize) -> u64 {
    (version.begin)(&b.image, &b.kinds, &mut b.roles, &mut b.ledger)
}

fn mount(version: &Version, b: &mut Buffers, _: usize) -> u64 {
    (version.mount)(&b.image, &b.kinds, &mut b.roles, &mut b.ledger)
}

/// Each call of a batch takes the next sector, for another number.
fn write(version: &Version, b: &mut Buffers, i: usize) -> u64 {
    let v = i as u32;
    (version.write)(
        &mut b.image,
        &mut b.kinds,
        &mut b.roles,
        &mut b.ledger,
        v,
        &b.block,
    )
}

/// Mode 0 is set before each call of the batch, within the measured time.
fn write_links(version: &Version, b: &mut Buffers, i: usize) -> u64 {
    b.set_mode(0);
    write(version, b, i)
}

/// Each call of a batch takes the next sector.
fn write_unnumbered(version: &Version, b: &mut Buffers, _: usize) -> u64 {
    (version.write_unnumbered)(
        &mut b.image,
        &mut b.kinds,
        &mut b.roles,
        &mut b.ledger,
        &b.block,
    )
}

/// Another number each time.
fn release(version: &Version, b: &mut Buffers, i: usize) -> u64 {
    (version.release)(&b.image, &b.kinds, &mut b.roles, &mut b.ledger, i as u32)
}

/// Closing a closed packet does the same work but for one kind.
fn close_packet(version: &Version, b: &mut Buffers, _: usize) -> u64 {
    (version.close_packet)(&b.image, &b.kinds, &b.roles, &mut b.ledger)
}

/// Each commit of a batch finds the one before as its last table.
fn commit(version: &Version, b: &mut Buffers, _: usize) -> u64 {
    (version.commit)(&mut b.image, &mut b.kinds, &mut b.roles, &mut b.ledger)
}

/// One entry in each own sector is set before each call of the batch, within the
/// measured time, so that none is named again.
fn commit_all(version: &Version, b: &mut Buffers, i: usize) -> u64 {
    b.change_each_sector(i as u32 + 1);
    commit(version, b, i)
}

/// A commit with a timestamp.
fn commit_at(version: &Version, b: &mut Buffers, _: usize) -> u64 {
    (version.commit_at)(
        &mut b.image,
        &mut b.kinds,
        &mut b.roles,
        &mut b.ledger,
        &STAMP,
    )
}

/// 64 numbers in turn, whose sectors stay in the cache.
fn read(version: &Version, b: &mut Buffers, i: usize) -> u64 {
    (version.read)(&b.image, &b.kinds, &b.ledger, i as u32, &mut b.block)
}

fn look_back_one(version: &Version, b: &mut Buffers, _: usize) -> u64 {
    (version.look_back)(&b.image, &b.kinds, &mut b.roles, &mut b.ledger, 1)
}

/// "follows the previous entry k times", as far as it goes.
fn look_back_all(version: &Version, b: &mut Buffers, _: usize) -> u64 {
    let k = b.sectors() as u32 - 1;
    (version.look_back)(&b.image, &b.kinds, &mut b.roles, &mut b.ledger, k)
}

/// The time of the table that a mount finds at once.
fn time_of_newest(version: &Version, b: &mut Buffers, _: usize) -> u64 {
    (version.time_of)(&b.image, &b.kinds, &b.ledger, 0, &mut b.answer)
}

/// In an open packet: the pointer, zeros and a table.
fn close_session(version: &Version, b: &mut Buffers, _: usize) -> u64 {
    let (length, start) = (32_768, 257);
    let (image, kinds, roles) = (&mut b.image, &mut b.kinds, &mut b.roles);
    let ledger = &mut b.ledger;
    (version.close_session)(image, kinds, roles, ledger, length, 96, length, 240, start)
}

fn view_some(version: &Version, b: &mut Buffers, i: usize) -> u64 {
    view(version, b, i, 4096)
}

fn view_most(version: &Version, b: &mut Buffers, i: usize) -> u64 {
    view(version, b, i, MOST_VIEWED)
}

/// Of the first 614,400 bytes another part each time, of which the buffer is filled.
fn view(version: &Version, b: &mut Buffers, i: usize, most: usize) -> u64 {
    let offset = i * (b.run().min(300 * SECTOR) - most) / BATCH;
    let buffer = &mut b.viewed[..most];
    (version.view)(
        &b.image,
        &b.kinds,
        &b.ledger,
        HIGHEST,
        offset as u64,
        buffer,
    )
}
