//! The discs, ledgers and roles that the rows are prepared with.

use crate::buffers::{Buffers, BATCH};
use crate::tuned::{EMBEDDED, LIMIT, NONE};

pub fn blank(buffers: &mut Buffers) {
    buffers.record_plain(0);
}

pub fn all_plain(buffers: &mut Buffers) {
    buffers.record_plain(buffers.sectors());
}

/// Half of the disc is recorded, and its last sector is a table of 458 numbers.
pub fn clean(buffers: &mut Buffers) {
    clean_of(buffers, EMBEDDED);
}

/// The same with a table of 4,087, whose eight own sectors are before it.
pub fn clean_large(buffers: &mut Buffers) {
    clean_of(buffers, LIMIT);
}

fn clean_of(buffers: &mut Buffers, numbers: usize) {
    let half = buffers.sectors() / 2;
    buffers.record_plain(half);
    buffers.plant_vat(half - 1, numbers, NONE);
}

/// The disc of 458 numbers with the caches full of other sectors.
pub fn clean_swept(buffers: &mut Buffers) {
    clean(buffers);
    buffers.sweep();
}

pub fn dirty_by_one(buffers: &mut Buffers) {
    let half = buffers.sectors() / 2;
    buffers.record_plain(half);
    buffers.plant_vat(half - 2, EMBEDDED, NONE);
}

/// The only table, of no numbers, is at block 0, and every sector is recorded.
pub fn dirty_by_all(buffers: &mut Buffers) {
    all_plain(buffers);
    buffers.plant_vat(0, 0, NONE);
}

/// The same with the caches full of other sectors.
pub fn swept(buffers: &mut Buffers) {
    dirty_by_all(buffers);
    buffers.sweep();
}

/// A packet is open, and the last table is the last sector.
pub fn open(buffers: &mut Buffers) {
    clean(buffers);
    buffers.mount(1);
}

/// The same, and each block is that of two numbers.
pub fn open_twice(buffers: &mut Buffers) {
    open(buffers);
    buffers.edit_map(|v, map| map[v] = map[v % (EMBEDDED / 2)]);
}

/// The same, and the numbers that are written are not in use.
pub fn open_unused(buffers: &mut Buffers) {
    open(buffers);
    buffers.edit_map(|v, map| {
        if v < BATCH {
            map[v] = NONE.to_le_bytes();
        }
    });
}

pub fn open_without_vat(buffers: &mut Buffers) {
    open(buffers);
    buffers.forget_last_vat();
}

/// A packet is open, and the last table has 4,087 numbers.
pub fn open_large(buffers: &mut Buffers) {
    clean_large(buffers);
    buffers.mount(1);
}

/// The same with a table of no numbers.
pub fn open_empty(buffers: &mut Buffers) {
    clean_of(buffers, 0);
    buffers.mount(1);
}

/// Two tables of 458 numbers, the newest in the last sector.
pub fn two_vats(buffers: &mut Buffers) {
    two_of(buffers, EMBEDDED);
}

pub fn two_large_vats(buffers: &mut Buffers) {
    two_of(buffers, LIMIT);
}

fn two_of(buffers: &mut Buffers, numbers: usize) {
    let half = buffers.sectors() / 2;
    buffers.record_plain(half);
    buffers.plant_vat(half / 2, numbers, NONE);
    buffers.plant_vat(half - 1, numbers, half as u32 / 2);
}

/// Every sector is a table of no numbers that names the one before.
pub fn all_vats(buffers: &mut Buffers) {
    all_plain(buffers);
    buffers.plant_vat(0, 0, NONE);
    for block in 1..buffers.sectors() {
        buffers.plant_vat(block, 0, block as u32 - 1);
    }
}

/// A disc full of saves of 4,087 numbers, one after another with nothing changed: each
/// names seven own sectors again and records the eighth.
pub fn all_saves(buffers: &mut Buffers) {
    buffers.record_plain(100);
    buffers.plant_vat(99, LIMIT, NONE);
    buffers.mount(1);
    buffers.save_until_full();
}

/// Half of the disc is recorded, and a number is the entry of a run of 300 sectors.
pub fn one_extent(buffers: &mut Buffers) {
    run_in_half(buffers, 1);
}

/// The same in a hundred parts, of three sectors each.
pub fn many_extents(buffers: &mut Buffers) {
    run_in_half(buffers, 100);
}

fn run_in_half(buffers: &mut Buffers, extents: usize) {
    clean(buffers);
    let table = buffers.sectors() / 2 - 1;
    buffers.plant_entry(table, extents, 300 / extents);
    buffers.mount(0);
}

/// The disc is full, and a number is the entry of a run in one extent.
pub fn short_run(buffers: &mut Buffers) {
    run_on_a_full_disc(buffers, 32);
}

/// The same, over 350,000 of 360,000 sectors.
pub fn long_run(buffers: &mut Buffers) {
    run_on_a_full_disc(buffers, buffers.sectors() / 36 * 35);
}

fn run_on_a_full_disc(buffers: &mut Buffers, sectors: usize) {
    all_plain(buffers);
    let table = buffers.sectors() - 1;
    buffers.plant_vat(table, EMBEDDED, NONE);
    buffers.plant_entry(table, 1, sectors);
    buffers.mount(0);
}
