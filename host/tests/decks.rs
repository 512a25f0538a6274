//! The core against Debian's udftools: `mkudffs` as an independent writer of
//! CD-R discs, `udfinfo` as an independent reader of ours.
//!
//! Needs the package udftools; without it every test here fails and says so.
//!
//! Both directions stand on one arrangement. A UDF volume on CD-R is a front
//! (recognition, volume descriptors, anchor) and behind it the partition, which
//! reaches to the last recorded sector. The partition is document 01's disc: its
//! blocks count from the partition's first sector, which udfinfo adds when it
//! tells a place.

#[path = "decks/descriptors.rs"]
mod descriptors;
#[path = "decks/disc.rs"]
mod disc;
#[path = "decks/large.rs"]
mod large;
#[path = "decks/reader.rs"]
mod reader;
#[path = "decks/runs.rs"]
mod runs;
#[path = "decks/udftools.rs"]
mod udftools;
#[path = "decks/writer.rs"]
mod writer;

use descriptors::{partition, vat_icbs};
use disc::Disc;
use station::Refusal;
use udftools::{udfinfo, Recipe, Report};

/// UDF 1.50 discs with room behind the table. The table stands right behind the
/// root directory or far behind it; the partition starts at sector 257, or 258 (a
/// closed disc has a second anchor in front of it), or 272 (as on DVD-R). The
/// volume's name, which stands in the table's attributes, is mkudffs's own, a
/// short one, the longest, or one with letters of two bytes.
const EDITION_150: [Recipe; 8] = [
    Recipe("cdr", "1.50", 2_000, &[]),
    Recipe("cdr", "1.50", 860, &["--minblocks=1"]),
    Recipe("cdr", "1.50", 4_000, &["--minblocks=1000"]),
    Recipe("cdr", "1.50", 360_000, &["--closed"]),
    Recipe("dvdr", "1.50", 2_298_496, &["--uid=1000", "--gid=-1"]),
    Recipe(
        "cdr",
        "1.50",
        333_000,
        &["--label=Bench disc", "--read-only"],
    ),
    Recipe("cdr", "1.50", 2_000, &[LONGEST_NAME]),
    Recipe("cdr", "1.50", 1_000, &["--label=Prüfstand Łódź"]),
];

/// A logical volume's name has 126 bytes, between those of its encoding and its
/// length (ECMA-167 3/10.6.4).
const LONGEST_NAME: &str = "--lvid=\
    A disc of the archive, recorded by another deck, whose name fills its field \
    to the last byte, as long as a name can be: 126 ..";

/// UDF 1.50 discs that end with their table, the smallest among them.
const EDITION_150_FULL: [Recipe; 2] = [
    Recipe("cdr", "1.50", 260, &["--minblocks=1"]),
    Recipe("cdr", "1.50", 300, &["--mode=0500"]),
];

/// UDF 2.00 and 2.01 discs, whose table is an extended file entry.
const EDITION_200: [Recipe; 5] = [
    Recipe("cdr", "2.00", 2_000, &[]),
    Recipe("cdr", "2.00", 300, &["--uid=1000"]),
    Recipe("cdr", "2.00", 360_000, &["--closed"]),
    Recipe("cdr", "2.00", 260, &["--minblocks=1", "--label=Bench disc"]),
    Recipe("dvdr", "2.01", 2_298_496, &[]),
];

/// The same with a plain file entry around the table.
const EDITION_200_PLAIN: [Recipe; 2] = [
    Recipe("cdr", "2.00", 2_000, &["--noefe"]),
    Recipe("cdr", "2.00", 360_000, &["--noefe", "--closed"]),
];

/// A refusal's number, or 0.
fn outcome<T>(answer: Result<T, Refusal>) -> u32 {
    answer.map_or_else(|refusal| refusal.number(), |_| 0)
}

/// The one VAT ICB of a disc that mkudffs made.
fn writers_vat(disc: &Disc) -> usize {
    let icbs = vat_icbs(&disc.image);
    assert_eq!(icbs, [disc.recorded() - 1], "mkudffs ends with its table");
    icbs[0]
}

/// Fails unless mount and udfinfo find their table at this block, and agree
/// whether it is the last recorded sector: document 01's clean.
fn assert_both_find(disc: &Disc, block: usize) -> Report {
    let mut mounted = disc.cut_to(disc.recorded());
    let clean = mounted.mount().expect("a table");
    assert_eq!(mounted.last_vat(), Some(block), "mount's table");
    let volume = disc.volume();
    let report = udfinfo(&volume);
    report.expect("vatblock", disc.start() + block);
    report.expect("udfrev", "1.50");
    // What lies behind the table, to the partition's end, is free for udfinfo.
    let behind = partition(&volume).end - (disc.start() + block + 1);
    report.expect("freeblocks", behind);
    report.expect_vat_last(clean);
    report
}
