//! An independent writer's file entry held against a run's (document 02). `mkudffs`
//! writes the root directory's: on media without a table it names the directory's
//! bytes by a short allocation descriptor, if it is asked to, and on CD-R it embeds
//! them.

use station::{file_entry, Extent, Refusal, SECTOR};
use station_model::run::{entry_sector, recognise};

use super::descriptors::{extents, put, root_entry, run_rows_not_kept, seal, u16_at};
use super::disc::Disc;
use super::udftools::{written_by_mkudffs, Recipe};
use super::{outcome, EDITION_150, EDITION_150_FULL};

/// Discs whose root directory has a short allocation descriptor, with entries of
/// descriptor version 2. The directory's bytes stand behind its entry.
const SHORT: [Recipe; 5] = [
    Recipe("cd", "1.50", 2_000, &["--ad=short"]),
    Recipe("hd", "1.50", 2_000, &["--ad=short", "--uid=1000"]),
    Recipe("dvdram", "1.02", 2_000, &["--ad=short"]),
    Recipe("worm", "1.50", 2_000, &["--ad=short", "--strategy=4"]),
    Recipe("mo", "1.02", 2_000, &["--ad=short", "--strategy=4"]),
];

/// The same with another row that is not kept: descriptor version 3, and strategy 4096.
const OTHER_ROWS: [(Recipe, &str); 3] = [
    (
        Recipe("hd", "2.00", 2_000, &["--ad=short", "--noefe"]),
        "descriptor version",
    ),
    (Recipe("worm", "1.50", 2_000, &["--ad=short"]), "strategy"),
    (Recipe("mo", "1.02", 2_000, &["--ad=short"]), "strategy"),
];

/// Room for links, a few writes and what they leave.
const ROOM: usize = 300;

/// Begun on the writer's disc, with links still to come.
fn begun(recipe: Recipe) -> Disc {
    let mut disc = Disc::of_volume(&written_by_mkudffs(recipe)).with_blank(ROOM);
    assert_eq!(outcome(disc.begin()), 0, "{recipe:?}");
    disc
}

/// The writer's entry as an ordinary file's, to be recorded at the block: no other
/// field is changed.
fn as_a_run(entry: &[u8], block: usize) -> Vec<u8> {
    let mut entry = entry.to_vec();
    entry[27] = 5;
    put(&mut entry, 12, &(block as u32).to_le_bytes());
    seal(&mut entry);
    entry
}

/// What the model says of it.
fn model_extents(entry: &[u8], block: usize) -> Option<Vec<Extent>> {
    let entry: &[u8; SECTOR] = entry.try_into().expect("a sector");
    let named = recognise(entry, block as u32)?;
    let extent = |named: &station_model::extent::Extent| Extent {
        length: named.length,
        location: named.location,
    };
    Some(named.iter().map(extent).collect())
}

/// Two rows are not kept: a directory's file type, and bytes that stand behind the
/// entry. With file type 5 and recorded behind its bytes, it shows the directory.
#[test]
fn the_writers_entry_shows_its_bytes() {
    for recipe in SHORT {
        let mut disc = begun(recipe);
        let root = root_entry(&disc.image);
        let entry = disc.sector(root).to_vec();
        let not_kept = ["file type", "extents below the entry"];
        assert_eq!(run_rows_not_kept(&entry, root), not_kept, "{recipe:?}");
        let named = extents(&entry);
        assert_eq!((named.len(), named[0].length), (1, 40), "{recipe:?}");

        let taken = disc.recorded() + 7;
        let run = as_a_run(&entry, taken);
        assert_eq!(run_rows_not_kept(&run, taken), NO_ROWS, "{recipe:?}");
        assert_eq!(model_extents(&run, taken), Some(named.clone()));
        assert_eq!(disc.write(0, &run), taken);
        let directory = &disc.sector(named[0].location as usize)[..40];
        assert_eq!(u16_at(directory, 0), 257, "a file identifier descriptor");
        assert_eq!(disc.view(0, 0, 100).as_deref(), Ok(directory));
        assert_eq!(disc.view(0, 17, 9).as_deref(), Ok(&directory[17..26]));
        assert_eq!(disc.view(0, 41, 1), Err(Refusal::BeyondTheRun));
    }
}

const NO_ROWS: [&str; 0] = [];

/// As the writer recorded it, or with one of the two rows alone kept, it is none.
#[test]
fn each_of_the_two_rows_counts() {
    for recipe in SHORT {
        let mut disc = begun(recipe);
        let root = root_entry(&disc.image);
        let entry = disc.sector(root).to_vec();
        let taken = disc.recorded() + 7;
        let mut directory = as_a_run(&entry, taken);
        directory[27] = 4;
        seal(&mut directory);
        disc.write(0, &directory);
        assert_eq!(run_rows_not_kept(&directory, taken), ["file type"]);
        disc.name(1, root);
        assert_eq!(disc.view(0, 0, 100), Err(Refusal::NotARun), "{recipe:?}");
        assert_eq!(disc.view(1, 0, 100), Err(Refusal::NotARun), "{recipe:?}");
        disc.set_sector(root, &as_a_run(&entry, root));
        assert_eq!(disc.view(1, 0, 100), Err(Refusal::NotARun), "{recipe:?}");
    }
}

/// Fields in which the writer's entry and ours differ, by their bytes: checksum,
/// serial number and CRC; user, group and permissions; times; implementation; unique
/// id.
const OTHERS: [std::ops::Range<usize>; 5] = [4..10, 36..48, 72..108, 128..160, 160..168];

/// Our makers' entry of the same extents: every other field is the writer's.
#[test]
fn our_entry_beside_the_writers() {
    for recipe in SHORT {
        let disc = begun(recipe);
        let root = root_entry(&disc.image);
        let taken = disc.recorded() + 7;
        let theirs = as_a_run(disc.sector(root), taken);
        let named = extents(&theirs);
        let ours = file_entry(&named, taken as u32);
        let model = station_model::extent::Extent {
            length: named[0].length,
            location: named[0].location,
        };
        assert!(ours == entry_sector(taken as u32, &[model]));
        assert_eq!(run_rows_not_kept(&ours, taken), NO_ROWS);
        let differ = |at: &usize| ours[*at] != theirs[*at];
        let known = |at: &usize| OTHERS.iter().any(|field| field.contains(at));
        let unknown: Vec<usize> = (0..SECTOR).filter(differ).filter(|at| !known(at)).collect();
        assert_eq!(unknown, [0; 0], "{recipe:?}");
    }
}

/// "version 2, strategy 4": an entry of another is none, and with these and right sums
/// it is one.
#[test]
fn entries_of_another_version_or_strategy_are_none() {
    for (recipe, row) in OTHER_ROWS {
        let mut disc = begun(recipe);
        let root = root_entry(&disc.image);
        let taken = disc.recorded() + 7;
        let mut run = as_a_run(disc.sector(root), taken);
        assert_eq!(run_rows_not_kept(&run, taken), [row]);
        assert_eq!(disc.write(0, &run), taken);
        assert_eq!(disc.view(0, 0, 100), Err(Refusal::NotARun), "{row}");
        put(&mut run, 2, &2u16.to_le_bytes());
        put(&mut run, 20, &4u16.to_le_bytes());
        seal(&mut run);
        disc.set_sector(taken, &run);
        assert_eq!(
            disc.view(0, 0, 100).map(|shown| shown.len()),
            Ok(40),
            "{row}"
        );
    }
}

/// On CD-R the directory is embedded in its entry. With allocation type 0, short
/// allocation descriptors of the disc's own sectors in place of the directory, and
/// their total, it shows these.
#[test]
fn an_embedded_directory_made_a_run() {
    for recipe in EDITION_150.into_iter().chain(EDITION_150_FULL) {
        let volume = written_by_mkudffs(recipe);
        let mut disc = Disc::of_volume(&volume).with_blank(ROOM);
        assert_eq!(disc.mount(), Ok(true), "{recipe:?}");
        let root = root_entry(&disc.image);
        let taken = disc.recorded() + 7;
        let embedded = as_a_run(disc.sector(root), taken);
        let not_kept = ["allocation type", "extents"];
        assert_eq!(run_rows_not_kept(&embedded, taken)[..2], not_kept);
        let mut run = embedded;
        put(&mut run, 10, &(160u16 + 16).to_le_bytes());
        put(&mut run, 34, &0u16.to_le_bytes());
        put(&mut run, 56, &2_058u64.to_le_bytes());
        put(&mut run, 172, &16u32.to_le_bytes());
        for (place, field) in [(176, 2048), (180, root as u32), (184, 10), (188, 0)] {
            put(&mut run, place, &u32::to_le_bytes(field));
        }
        seal(&mut run);
        assert_eq!(run_rows_not_kept(&run, taken), NO_ROWS, "{recipe:?}");
        assert_eq!(disc.write(2, &run), taken);
        let shown = disc.view(2, 0, 3000).expect("a run");
        assert!(shown == [disc.sector(root), &disc.sector(0)[..10]].concat());
        assert_eq!(disc.view(1, 0, 100), Err(Refusal::NotARun), "the writer's");
    }
}
