//! An independent writer's discs, given to the core as they are: the tables that
//! it finds on them, and what keeps it from taking another edition's for one.

use std::fmt::Debug;
use std::time::{SystemTime, UNIX_EPOCH};

use station::{Timestamp, SECTOR};

use super::descriptors::{
    attributes, entries, put, rows_not_kept, seal, seal_over, u16_at, with_attributes, NONE,
};
use super::disc::Disc;
use super::udftools::{written_by_mkudffs, written_in_zone, Recipe};
use super::{
    assert_both_find, outcome, writers_vat, EDITION_150, EDITION_150_FULL, EDITION_200,
    EDITION_200_PLAIN,
};

/// Document 01: mount 7 if no table sector exists, and exactly then begin is
/// done. So begin says of all sectors at once that none is a table sector.
fn assert_no_table(disc: &mut Disc, case: impl Debug) {
    assert_eq!(outcome(disc.mount()), 7, "mount, {case:?}");
    assert_eq!(outcome(disc.look_back(0)), 7, "look back, {case:?}");
    assert_eq!(outcome(disc.time_of(0)), 7, "time of, {case:?}");
    assert_eq!(outcome(disc.begin()), 0, "begin, {case:?}");
    assert_eq!(disc.map(), [], "map after begin, {case:?}");
    assert_eq!(disc.last_vat(), None, "last table after begin, {case:?}");
}

/// Identifiers of volume structures (ECMA-167 3/7.2.1) and file structures
/// (4/7.2.1). Blank sectors have 0, and the recognition sequence has text.
fn has_tag(sector: &[u8]) -> bool {
    matches!(u16_at(sector, 0), 1..=9 | 256..=266)
}

/// The sums that these tests seal with: laid over every descriptor of the
/// writer, they change no byte.
#[test]
fn sums_of_every_descriptor_are_the_writers() {
    let discs = EDITION_150.into_iter().chain(EDITION_200);
    for recipe in discs.chain(EDITION_200_PLAIN) {
        let volume = written_by_mkudffs(recipe);
        let mut seen = 0;
        for sector in volume.chunks_exact(SECTOR).filter(|sector| has_tag(sector)) {
            let mut sealed = sector.to_vec();
            seal(&mut sealed);
            assert!(sealed == sector, "tag {}, {recipe:?}", u16_at(sector, 0));
            seen += 1;
        }
        assert!(seen > 15, "{seen} descriptors, {recipe:?}");
    }
}

/// mkudffs puts 220 bytes of extended attributes (`*UDF VAT LVExtension`: the
/// volume's name, and how many files and directories it has) between file entry
/// and table. All rows hold, so its discs mount as they are, clean, and the core
/// shows the writer's map, which the model finds too.
#[test]
fn a_150_disc_mounts_as_it_is() {
    for recipe in EDITION_150.into_iter().chain(EDITION_150_FULL) {
        let mut disc = Disc::of_volume(&written_by_mkudffs(recipe));
        let vat = writers_vat(&disc);
        let icb = disc.sector(vat).to_vec();
        assert_eq!(rows_not_kept(&icb, vat), NO_ROWS, "{recipe:?}");
        assert_eq!(attributes(&icb).len(), 220, "{recipe:?}");
        assert!(holds(attributes(&icb), b"*UDF VAT LVExtension"));
        assert_eq!(outcome(disc.begin()), 6, "{recipe:?}");
        assert_eq!(disc.mount(), Ok(true), "clean, {recipe:?}");
        assert_eq!(disc.last_vat(), Some(vat), "{recipe:?}");
        assert_writers_map(&disc, &icb, recipe);
        // The writer recorded one table, and says so in its previous block.
        assert_eq!(disc.look_back(0), Ok(vat), "{recipe:?}");
        assert_writers_map(&disc, &icb, recipe);
        assert_eq!(outcome(disc.look_back(1)), 9, "{recipe:?}");
        let report = assert_both_find(&disc, vat);
        report.expect_no_complaint();
    }
}

const NO_ROWS: [&str; 0] = [];

fn holds(bytes: &[u8], text: &[u8]) -> bool {
    bytes.windows(text.len()).any(|part| part == text)
}

/// The ledger has the map of this table, the writer's only one, as the model
/// does; and each number reads the sector that the map names.
fn assert_writers_map(disc: &Disc, icb: &[u8], recipe: Recipe) {
    let map = entries(icb);
    assert_eq!(map.len(), 2, "file set and root directory, {recipe:?}");
    assert_eq!(disc.map(), map, "{recipe:?}");
    let found = disc.found_by_model(writers_vat(disc));
    assert_eq!(
        (found.map, found.previous),
        (map.clone(), NONE),
        "{recipe:?}"
    );
    for (v, block) in map.iter().enumerate() {
        let shown = disc.read(v as u32).expect("a number in use");
        assert!(shown == disc.sector(*block as usize), "{v}, {recipe:?}");
    }
}

/// Time zones as TZ names them, and the minutes that their clocks are ahead of
/// UTC. They have no daylight saving time: where a zone has one, mkudffs 2.3 writes
/// that zone all year, also beside a clock without it.
const ZONES: [(&str, i16); 8] = [
    ("UTC0", 0),
    ("XXX-1", 60),
    ("XXX-5:45", 345),
    ("XXX-14", 840),
    ("XXX-24", 1440),
    ("XXX3:30", -210),
    ("XXX12", -720),
    ("XXX24", -1440),
];

/// The machine's clock: whole minutes from 1 January 1970 UTC.
fn minutes_now() -> i32 {
    let since = SystemTime::now().duration_since(UNIX_EPOCH);
    (since.expect("a clock after 1970").as_secs() / 60) as i32
}

/// The writer records when it made the disc, by the clock of its own zone; what is
/// told of it is the minute in which it ran, and the time in its table is that of
/// its zone.
#[test]
fn the_writers_table_tells_when_it_was_made() {
    let plain = EDITION_150.into_iter().chain(EDITION_150_FULL);
    let in_utc = plain.map(|recipe| (recipe, ZONES[0]));
    for (recipe, (name, zone)) in in_utc.chain(ZONES.map(|zone| (EDITION_150[1], zone))) {
        let before = minutes_now();
        let disc = Disc::of_volume(&written_in_zone(recipe, name));
        let after = minutes_now();
        let told = disc.time_of(0).expect("a time that keeps the limits");
        assert!(told.zone_given, "{name}, {recipe:?}");
        let made = before..=after;
        assert!(made.contains(&told.minutes), "{told:?}, {name}, {recipe:?}");
        let modified = modified(disc.sector(writers_vat(&disc)));
        assert_eq!(modified.zone, Some(zone), "{name}, {recipe:?}");
        let of_the_day = 60 * i32::from(modified.hour) + i32::from(modified.minute);
        let local = (told.minutes + i32::from(zone)).rem_euclid(24 * 60);
        assert_eq!(of_the_day, local, "{name}, {recipe:?}");
    }
}

/// The modification time of a file entry (ECMA-167 4/14.9.13: byte 84).
fn modified(icb: &[u8]) -> Timestamp {
    let bytes = icb[84..].first_chunk();
    Timestamp::from_bytes(*bytes.expect("a whole file entry"))
}

/// From UDF 2.00 on the table is of another edition: tag identifier 266 with the
/// lengths 40 bytes further on, descriptor version 3, file type 248, and a header
/// of 152 bytes in front of the entries instead of the regid behind them.
#[test]
fn a_200_disc_has_a_table_of_another_edition() {
    for recipe in EDITION_200 {
        let mut disc = Disc::of_volume(&written_by_mkudffs(recipe));
        let vat = writers_vat(&disc);
        let not_kept = rows_not_kept(disc.sector(vat), vat);
        let edition = ["tag identifier", "descriptor version"];
        assert_eq!(not_kept[..2], edition, "{recipe:?}");
        assert!(not_kept.contains(&"file type"), "{recipe:?}");
        assert_no_table(&mut disc, recipe);
    }
}

/// In a plain file entry such a table differs by version, file type, the missing
/// regid, and text of its header where the entries should be. Dressed up with
/// version 2, file type 0 and right sums it still is none.
#[test]
fn a_200_table_in_a_plain_file_entry_is_none() {
    let contents = ["regid text", "entries and previous"];
    for recipe in EDITION_200_PLAIN {
        let mut disc = Disc::of_volume(&written_by_mkudffs(recipe));
        let vat = writers_vat(&disc);
        let mut icb = disc.sector(vat).to_vec();
        let not_kept = rows_not_kept(&icb, vat);
        let edition = ["descriptor version", "file type"];
        assert_eq!(not_kept, [edition, contents].concat(), "{recipe:?}");
        assert_no_table(&mut disc, recipe);
        put(&mut icb, 2, &2u16.to_le_bytes());
        icb[27] = 0;
        seal(&mut icb);
        assert_eq!(rows_not_kept(&icb, vat), contents, "{recipe:?}");
        disc.set_sector(vat, &icb);
        assert_no_table(&mut disc, recipe);
    }
}

/// The writer's table without attributes, and behind others of every length up to
/// the sector's end: it has the same map wherever it stands, and is no table where
/// its own row says so, and that row alone.
#[test]
fn the_writers_table_behind_attributes_of_every_length() {
    let mut disc = Disc::of_volume(&written_by_mkudffs(EDITION_150[1]));
    let vat = writers_vat(&disc);
    let icb = disc.sector(vat).to_vec();
    assert_eq!(entries(&icb).len(), 2, "a table of 44 bytes");
    for length in 0..=SECTOR - 176 - 44 {
        let other = with_attributes(&icb, &vec![length as u8; length]);
        disc.set_sector(vat, &other);
        if length % 4 == 0 && 176 + length + 44 < SECTOR {
            assert_eq!(rows_not_kept(&other, vat), NO_ROWS, "{length}");
            assert_eq!(disc.mount(), Ok(true), "{length}");
            assert_eq!(disc.map(), entries(&icb), "{length}");
        } else {
            assert_eq!(rows_not_kept(&other, vat), ["attribute length"], "{length}");
            assert_no_table(&mut disc, length);
        }
    }
}

/// Both readers find the writer's table without attributes, behind a few bytes of
/// them, and at the sector's end.
#[test]
fn udfinfo_finds_the_writers_table_behind_other_attributes() {
    for recipe in [EDITION_150[0], EDITION_150[1], EDITION_150_FULL[0]] {
        let mut disc = Disc::of_volume(&written_by_mkudffs(recipe));
        let vat = writers_vat(&disc);
        let icb = disc.sector(vat).to_vec();
        for length in [0, 4, 216, 224, 1824] {
            disc.set_sector(vat, &with_attributes(&icb, &vec![0; length]));
            assert_both_find(&disc, vat);
        }
    }
}

/// "15: the lent block would be a table sector at the block it is about to take":
/// so would the writer's ICB, behind its attributes, once it is tagged for that
/// block. As it is, tagged for its own, it is written like any other block.
#[test]
fn the_writers_table_is_refused_as_a_block() {
    let volume = written_by_mkudffs(EDITION_150[1]);
    let mut disc = Disc::of_volume(&volume).with_blank(40);
    let vat = writers_vat(&disc);
    let copy = disc.sector(vat).to_vec();
    assert_eq!(disc.mount(), Ok(true));
    let taken = disc.recorded() + 7;
    let mut tagged = copy.clone();
    put(&mut tagged, 12, &(taken as u32).to_le_bytes());
    seal(&mut tagged);
    let Disc {
        image,
        kinds,
        roles,
        ledger,
        ..
    } = &mut disc;
    let refused = station::write(image, kinds, roles, ledger, 2, &tagged);
    assert_eq!(outcome(refused), 15);
    assert_eq!(disc.write(2, &copy), taken);
    assert_eq!(disc.mount(), Ok(false), "dirty, and no copy counts");
    assert_eq!(disc.last_vat(), Some(vat));
}

/// A row and bytes that break it, each with its place, in the table at block 2 of
/// a disc whose map is 0, 1: attribute length 220, descriptor length 44, CRC
/// length 424 (hex 1A8), table at byte 396, regid at 404, previous block at 436.
type Breach = (&'static str, &'static [(usize, u8)]);

/// Broken before the sums are laid.
const BREACHES: [Breach; 17] = [
    ("tag identifier", &[(0, 10)]),
    ("descriptor version", &[(2, 3)]),
    ("zero byte 5", &[(5, 1)]),
    ("CRC length", &[(10, 0xA9)]),
    ("tag location", &[(12, 1)]),
    ("strategy", &[(20, 0), (21, 16)]),
    ("file type", &[(27, 248)]),
    ("flags", &[(34, 1)]),
    ("link count", &[(48, 1)]),
    ("information length", &[(56, 40)]),
    ("attribute length", &[(168, 222), (10, 0xAA)]),
    (
        "attribute length",
        &[(168, 0x24), (169, 7), (10, 0xF0), (11, 7)],
    ),
    ("table length", &[(172, 45), (56, 45), (10, 0xA9)]),
    ("regid text", &[(168, 216), (10, 0xA4)]),
    ("regid text", &[(404 + 22, b'L')]),
    ("entries and previous", &[(400, 2)]),
    (
        "entries and previous",
        &[(436, 2), (437, 0), (438, 0), (439, 0)],
    ),
];

/// Broken sums: the CRC covers byte 40 (the group) and byte 300 (an attribute),
/// the tag's sum byte 6 (the serial number). These fields are in no row, so with
/// right sums they may change.
const WRONG_SUMS: [Breach; 3] = [
    ("CRC", &[(40, 7)]),
    ("CRC", &[(300, 7)]),
    ("tag sum", &[(6, 7)]),
];

fn altered(icb: &[u8], breach: &Breach) -> Vec<u8> {
    let mut altered = icb.to_vec();
    for (place, byte) in breach.1 {
        assert_ne!(altered[*place], *byte, "{}", breach.0);
        altered[*place] = *byte;
    }
    altered
}

/// The writer's table is one; with any one row broken it is none. So each row
/// counts by itself.
#[test]
fn each_row_alone_unmakes_the_writers_table() {
    let mut disc = Disc::of_volume(&written_by_mkudffs(EDITION_150[1]));
    let vat = writers_vat(&disc);
    let whole = disc.sector(vat).to_vec();
    assert_eq!((vat, entries(&whole)), (2, vec![0, 1]));
    for breach in BREACHES {
        let mut icb = altered(&whole, &breach);
        seal(&mut icb);
        assert!(rows_not_kept(&icb, vat).contains(&breach.0), "{}", breach.0);
        disc.set_sector(vat, &icb);
        assert_eq!(outcome(disc.mount()), 7, "{}", breach.0);
        // Nor with a CRC that covers what it covered before.
        seal_over(&mut icb, 424);
        disc.set_sector(vat, &icb);
        assert_eq!(outcome(disc.mount()), 7, "{}", breach.0);
    }
    for breach in WRONG_SUMS {
        let mut icb = altered(&whole, &breach);
        assert_eq!(rows_not_kept(&icb, vat), [breach.0]);
        disc.set_sector(vat, &icb);
        assert_eq!(outcome(disc.mount()), 7, "{}", breach.0);
        seal(&mut icb);
        disc.set_sector(vat, &icb);
        assert_eq!(disc.mount(), Ok(true), "{} laid again", breach.0);
    }
}
