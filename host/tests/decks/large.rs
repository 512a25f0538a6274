//! Tables of more numbers than an ICB holds, in sectors of their own, beside an
//! independent writer and an independent reader: laid out from ECMA-167 and UDF 1.50 on
//! a disc of `mkudffs` and mounted; and recorded by the core there, and read by
//! `udfinfo`, which reads the file set through them.

use station::{Extent, SECTOR};

use super::descriptors::{
    entries, extents, name_file_set, recorded_entries, recorded_in, renamed_file_set, table_of,
    NONE,
};
use super::disc::Disc;
use super::udftools::{written_by_mkudffs, Recipe};
use super::{assert_both_find, outcome, writers_vat};

/// Discs with room for some thousand sectors.
const RECIPES: [Recipe; 2] = [
    Recipe("cdr", "1.50", 360_000, &[]),
    Recipe(
        "cdr",
        "1.50",
        8_000,
        &["--minblocks=1", "--label=Bench disc"],
    ),
];

/// The most numbers.
const MOST: usize = 4087;

/// A disc whose file set is the virtual number, with so many blank sectors.
fn naming(recipe: Recipe, number: u32, blank: usize) -> Disc {
    let mut volume = written_by_mkudffs(recipe);
    name_file_set(&mut volume, number);
    Disc::of_volume(&volume).with_blank(blank)
}

/// Another writer's save behind the last sector: the table in sectors of its own, the
/// last in part, and a file entry like that of the save before, with its attributes.
fn append_table(disc: &mut Disc, map: &[u32], previous: usize) -> usize {
    let like = disc.sector(previous).to_vec();
    let table = table_of(map, previous as u32);
    let mut own = Vec::new();
    for bytes in table.chunks(SECTOR) {
        let mut sector = bytes.to_vec();
        // What lies behind the table in its last sector means nothing.
        sector.resize(SECTOR, 0xB7);
        own.push(Extent {
            length: bytes.len() as u32,
            location: disc.append(&sector) as u32,
        });
    }
    let block = disc.recorded();
    disc.append(&recorded_in(&like, block, &own))
}

/// A table of 459 to 4,087 numbers, whose last one is the file set: mounted clean, with
/// the map that was laid out and the writer's own save before it.
#[test]
fn a_large_table_of_another_writer_mounts() {
    for recipe in RECIPES {
        for size in [459, 504, 513, 1500, 3575, MOST] {
            let last = size as u32 - 1;
            let mut disc = naming(recipe, last, 40);
            let writers = writers_vat(&disc);
            let name = format!("number {last}");
            let file_set = renamed_file_set(disc.sector(0), &name, last);
            let file_set = disc.append(&file_set) as u32;
            let own_map = entries(disc.sector(writers));
            let mut map = own_map.clone();
            map.resize(size - 1, NONE);
            map[2..].iter_mut().step_by(3).for_each(|entry| *entry = 1);
            map.push(file_set);
            let vat = append_table(&mut disc, &map, writers);
            assert_eq!(disc.mount(), Ok(true), "{size}, {recipe:?}");
            assert_eq!(disc.last_vat(), Some(vat), "{size}, {recipe:?}");
            assert_eq!(disc.map(), map, "{size}, {recipe:?}");
            let model = disc.found_by_model(vat);
            assert_eq!((&model.map, model.previous), (&map, writers as u32));
            let shown = disc.read(last).expect("a number in use");
            assert!(shown == disc.sector(file_set as usize));
            let report = assert_both_find(&disc, vat);
            report.expect("fsid", &name);
            report.expect_no_complaint();
            assert_eq!(disc.look_back(1), Ok(writers), "{size}, {recipe:?}");
            assert_eq!(disc.map(), own_map, "{size}, {recipe:?}");
        }
    }
}

/// One byte of such a table is another, each of those that are tested: the map is the
/// writer's own again.
#[test]
fn a_large_table_of_another_writer_that_is_broken() {
    let mut disc = naming(RECIPES[1], 0, 40);
    let writers = writers_vat(&disc);
    let mut map = entries(disc.sector(writers));
    map.resize(600, NONE);
    let vat = append_table(&mut disc, &map, writers);
    assert_eq!(disc.mount(), Ok(true));
    let descriptors = 176 + 220;
    for (block, at) in [
        (vat, 8),
        (vat, 34),
        (vat, 56),
        (vat, 172),
        (vat, descriptors),
        (vat, descriptors + 3),
        (vat, descriptors + 4),
        (vat - 2, 8),
        (vat - 1, 2400 - SECTOR + 1),
        (vat - 1, 2400 - SECTOR + 22),
        (vat - 1, 2400 - SECTOR + 32),
    ] {
        let mut broken = disc.clone();
        let mut bytes = broken.sector(block).to_vec();
        bytes[at] ^= 0x40;
        broken.set_sector(block, &bytes);
        assert_eq!(broken.mount(), Ok(false), "byte {at} of {block}");
        assert_eq!(broken.last_vat(), Some(writers), "byte {at} of {block}");
    }
}

/// 4,087 numbers written and saved by the core: udfinfo reads the last of them, and the
/// table's bytes, read here by its descriptors, are the map. A second save, which names
/// all sectors again but two, shows the number that was changed.
#[test]
fn udfinfo_reads_the_last_number_of_the_largest_map() {
    let last = MOST as u32 - 1;
    let mut disc = naming(RECIPES[0], last, MOST + 400);
    assert_eq!(disc.mount(), Ok(true));
    for v in 2..last {
        disc.write(v, &[v as u8; SECTOR]);
    }
    for name in ["number 4086", "written again"] {
        let previous = disc.last_vat().map_or(NONE, |block| block as u32);
        let file_set = renamed_file_set(disc.sector(0), name, last);
        disc.write(last, &file_set);
        let before = disc.recorded();
        let vat = disc.commit();
        let expected = match name {
            "number 4086" => before + 8,
            _ => before + 1,
        };
        assert_eq!(vat, expected, "{name}");
        let read = recorded_entries(&disc.image, disc.sector(vat));
        assert_eq!(read, (disc.map(), previous), "{name}");
        let report = assert_both_find(&disc, vat);
        report.expect("fsid", name);
        report.expect_no_complaint();
    }
}

/// A large save behind the table of another writer whose bytes are the same: its own
/// sectors are named again, behind attributes and in part as they were.
#[test]
fn a_save_names_another_writers_sectors_again() {
    let mut disc = naming(RECIPES[0], 0, 200);
    let writers = writers_vat(&disc);
    let mut map = entries(disc.sector(writers));
    map.resize(1500, NONE);
    let vat = append_table(&mut disc, &map, writers);
    assert_eq!(disc.mount(), Ok(true));
    let saved = disc.commit();
    assert_eq!(saved, vat + 7 + 2, "links, the last own sector, the ICB");
    let named = extents(disc.sector(saved));
    let blocks: Vec<u32> = named.iter().map(|extent| extent.location).collect();
    assert_eq!(
        blocks,
        [vat - 3, vat - 2, saved - 1].map(|block| block as u32)
    );
    assert_both_find(&disc, saved).expect("fsid", "LinuxUDF");
    assert_eq!(outcome(disc.begin()), 6);
}
