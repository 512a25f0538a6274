//! More than 458 numbers: tables in sectors of their own, through an operator's day, and
//! what they cost.

mod common;

use common::refusals::{refused, refused_with};
use common::{disc_file, padded, Folder, CLOSE_SESSION};
use station::{LIMIT, SECTOR};

/// A number in each of the eight own sectors of a table of 4,087 numbers.
const IN_EACH: [u32; 8] = [0, 512, 1024, 1536, 2048, 2560, 3072, 3584];

/// With all numbers of a disc, saved and mounted.
fn with_all_numbers(sectors: usize) -> Folder {
    let folder = Folder::numbered(sectors, LIMIT);
    folder.done("mount run.disc");
    folder
}

/// Another folder with the same files.
fn copy(folder: &Folder) -> Folder {
    let copy = Folder::new();
    for name in folder.names() {
        copy.put(&name, &folder.bytes(&name));
    }
    copy
}

fn reads(folder: &Folder, line: &str, text: &str) {
    assert!(folder.done_with(line, b"") == padded(text), "{line}");
}

/// How many sectors are recorded.
fn recorded(folder: &Folder) -> usize {
    let kinds = folder.kinds();
    kinds.find('0').unwrap_or(kinds.len())
}

/// The last numbers are written and stored, everything is saved, shown, looked back at,
/// cut, drawn and closed.
#[test]
fn an_operators_day() {
    let folder = Folder::numbered(5000, 4080);
    let mounted = "clean, table at block 4088\nsize 4,080, 4,080 in use: 0 to 4079\n";
    assert_eq!(folder.done("mount run.disc"), mounted);
    for v in 4080..4086 {
        folder.write(v, &format!("run {v}"));
    }
    folder.done_with("store run.disc 4086", &[7; 3 * SECTOR]);
    let why = refused_with(&folder, "write run.disc 4087", &[7; SECTOR], 13);
    assert!(why.starts_with("Numbers end at 4086, and all of them are taken"));
    folder.write(7, "run 7 again");
    let status = folder.done("status run.disc");
    for line in [
        "size 4,087, 4,087 in use: 0 to 4086\n",
        "not saved yet, written: 7, 4080 to 4086\n",
        "newest save: table at block 4088, without a time\n",
        "a save takes 3 sectors now: 2 own sectors and the table\n",
    ] {
        assert!(status.contains(line), "{status}");
    }
    let saved = "saved, table at block 4109: 4,087 numbers in use, 8 new since the last save: \
                 7, 4080 to 4086\n2026-11-15 14:05 +01:00 (13:05 UTC)\n";
    let told = folder.done("commit run.disc --at 2026-11-15T14:05+01:00");
    assert_eq!(told, saved);
    folder.done("mount run.disc");
    reads(&folder, "read run.disc 7", "run 7 again");
    reads(&folder, "read run.disc 7 --back 1", "run 7");
    for v in [458, 511, 512, 4079, 4085] {
        reads(&folder, &format!("read run.disc {v}"), &format!("run {v}"));
    }
    assert!(folder.done_with("view run.disc 4086", b"") == [7; 3 * SECTOR]);
    let contents = folder.done("contents run.disc");
    assert_eq!(contents.lines().count(), 1 + 4087);
    assert!(contents.ends_with("  4086    4105  run           6144  yes\n"));
    let looking =
        "looking only, 1 back, table at block 4088\nsize 4,080, 4,080 in use: 0 to 4079\n";
    assert_eq!(folder.done("look-back run.disc 1"), looking);
    reads(&folder, "read run.disc 7", "run 7");
    folder.fails("read run.disc 4080", 10);
    folder.done("mount run.disc");
    is_closed(&folder);
}

/// Its own sectors are the last but one, and what they and the table say is read back,
/// also from a raw image.
fn is_closed(folder: &Folder) {
    for v in IN_EACH {
        folder.write(v, "at last");
    }
    let told = folder.run(CLOSE_SESSION);
    let answer = "saved and closed, pointer at block 4125, table at block 4381: \
                  4,087 numbers in use, 8 new since the last save: \
                  0, 512, 1024, 1536, 2048, 2560, 3072, 3584\n";
    assert_eq!(String::from_utf8(told.out).expect("text"), answer);
    let roles = format!("2{}{}", "2".repeat(247), "3".repeat(9));
    let kept: String = folder.roles()[4125..4382]
        .iter()
        .map(u8::to_string)
        .collect();
    assert_eq!(kept, roles);
    folder.done("export run.disc run.img");
    folder.done("import run.img back.disc --start 0");
    let mounted = "clean, table at block 4381\nsize 4,087, 4,087 in use: 0 to 4086\n\
                   closed: nothing can be recorded on this disc any more\n";
    for name in ["run.disc", "back.disc"] {
        assert_eq!(folder.done(&format!("mount {name}")), mounted);
        reads(folder, &format!("read {name} 3584"), "at last");
        reads(folder, &format!("read {name} 3585"), "run 3585");
        reads(folder, &format!("read {name} 3584 --back 1"), "run 3584");
    }
    let row = "   0    4381  4087  4087     8     8     0  4373 to 4380\n";
    let listed = String::from_utf8(folder.run("list run.disc --long").out).expect("text");
    assert!(listed.contains(row), "{listed}");
}

/// Seven links, eight own sectors and the table: cut before the last of them, the old save
/// is shown, and what was recorded of the new one is superseded.
#[test]
fn a_save_cut_after_each_of_its_sectors() {
    let folder = with_all_numbers(4500);
    for v in IN_EACH {
        folder.write(v, "again");
    }
    folder.done("close run.disc");
    let (old, new) = ("run 512", "again");
    for kept in 0..=16usize {
        for torn in ["", " --torn"] {
            let folder = copy(&folder);
            let told = folder.run(&format!("cut {kept}{torn} commit run.disc"));
            if kept == 16 && !torn.is_empty() {
                assert_eq!(told.status, 64);
                continue;
            }
            assert_eq!(told.status, 0, "{told:?}");
            let told = String::from_utf8(told.out).expect("text");
            let start = format!("cut after {kept} of 16 sectors");
            assert!(told.starts_with(&start), "{told}");
            let (state, table, text) = match kept {
                16 => ("clean", 4126, new),
                _ => ("dirty", 4095, old),
            };
            let told = folder.done("mount run.disc");
            let start = format!("{state}, table at block {table}\n");
            assert!(told.starts_with(&start), "{kept}: {told}");
            reads(&folder, "read run.disc 512", text);
            let own = kept.saturating_sub(7).min(8);
            let role = if kept == 16 { 3 } else { 1 };
            assert_eq!(folder.roles()[4118..4118 + own], vec![role; own]);
            folder.done("space run.disc");
        }
    }
}

/// What `status` says that a save takes is what it records; and a commit that has no room
/// says so.
#[test]
fn what_a_save_takes() {
    for size in [458, 459, 503, 504, 1015, 1016, LIMIT] {
        let folder = Folder::numbered(6000, size);
        folder.done("mount run.disc");
        takes_what_it_says(&folder, size);
        // Nothing is new.
        takes_what_it_says(&folder, size);
        for v in [0, size / 2, size - 1] {
            folder.write(v, "again");
            takes_what_it_says(&folder, size);
        }
        folder.done(&format!("release run.disc {}", size / 3));
        takes_what_it_says(&folder, size);
        if size < LIMIT {
            folder.write(size, "one more");
            takes_what_it_says(&folder, size + 1);
        }
        folder.done("close run.disc");
        folder.write(0, "behind links");
        takes_what_it_says(&folder, size);
        // By the table of an earlier save, which has other own sectors.
        folder.done("mount run.disc");
        takes_what_it_says(&folder, size);
    }
}

fn takes_what_it_says(folder: &Folder, size: u32) {
    let told = folder.done("status run.disc");
    let line = told
        .lines()
        .find_map(|line| line.strip_prefix("a save takes "));
    let count = line.and_then(|line| line.split(' ').next());
    let links = told.contains("no packet open");
    let told = match count {
        Some(count) => count.parse().expect("a count"),
        None if links => 8,
        None => 1,
    };
    assert!(size <= 458 || count.is_some(), "{size}");
    let before = recorded(folder);
    folder.done("commit run.disc");
    assert_eq!(recorded(folder) - before, told, "{size}");
}

/// The core admits a commit exactly where the room is as large as it is told to be.
#[test]
fn no_room_for_a_save() {
    for (change, own) in [(&[][..], 1), (&[3][..], 2)] {
        for closed in [false, true] {
            let (links, among) = match closed {
                true => (
                    7,
                    format!("seven of them links and {own} of the table's own"),
                ),
                false => (0, format!("{own} of them of the table's own")),
            };
            let takes = links + own + 1;
            for blank in takes - 2..=takes {
                let folder = nearly_full(change, blank, closed);
                let told = folder.run("commit run.disc");
                if blank >= takes {
                    assert_eq!(told.status, 0, "{told:?}");
                    continue;
                }
                let why = refused(&folder, "commit run.disc", 14);
                let is = if blank == 1 {
                    "sector is"
                } else {
                    "sectors are"
                };
                let start =
                    format!("{blank} {is} blank; this commit takes {takes}, {among}. Take another");
                assert!(why.starts_with(&start), "{why}");
            }
        }
    }
}

/// A disc of 520 numbers, of which these are released, with so many blank sectors left.
fn nearly_full(released: &[u32], blank: usize, closed: bool) -> Folder {
    let folder = Folder::numbered(560, 520);
    // Blank sectors behind are cut off: a disc file of fewer sectors.
    let kinds: Vec<u8> = folder.kinds().bytes().map(|digit| digit - b'0').collect();
    let sectors = recorded(&folder) + 9 + blank;
    let image: Vec<u8> = (0..sectors)
        .flat_map(|block| folder.sector(block))
        .collect();
    folder.put("run.disc", &disc_file(&kinds[..sectors], &image));
    folder.done("mount run.disc");
    // Seven links, an own sector and a table.
    folder.done("commit run.disc");
    for v in released {
        folder.done(&format!("release run.disc {v}"));
    }
    if closed {
        folder.done("close run.disc");
    }
    folder
}

/// A closing's own sectors are among its 257; where a commit would take the room for it,
/// that is said.
#[test]
fn the_room_for_a_closing() {
    let commit = "Commit what is written, and take another disc.";
    let either = "Commit what is written, or close the disc, and take another one.";
    let one = "Commit what is written, or close the disc, for which a commit would leave no room, \
               and take another one.";
    for (blank, todo) in [(256, commit), (257, one), (265, one), (266, either)] {
        let folder = with_all_numbers(4096 + 9 + blank);
        folder.done("commit run.disc");
        for v in IN_EACH {
            folder.done(&format!("release run.disc {v}"));
        }
        assert_eq!(folder.kinds().len() - recorded(&folder), blank);
        let why = refused_with(&folder, "store run.disc 0", &[7; 300 * SECTOR], 14);
        assert!(why.ends_with(todo), "{why}");
        let status = if blank < 257 { 14 } else { 0 };
        assert_eq!(copy(&folder).run(CLOSE_SESSION).status, status);
        folder.done("commit run.disc");
        let status = if blank < 266 { 14 } else { 0 };
        assert_eq!(folder.run(CLOSE_SESSION).status, status);
    }
}

/// `list` alone is document 01's; `--long` stands behind its columns, and behind the times.
#[test]
fn own_sectors_are_listed() {
    let folder = Folder::numbered(600, 520);
    folder.done("mount run.disc");
    folder.done("commit run.disc --at 2026-11-15T14:05+01:00");
    folder.write(3, "again");
    folder.done("commit run.disc");
    let before = folder.files();
    let listed = "   k   block  size  used\n   0     535   520   520\n   \
                  1     531   520   520\n   2     522   520   520\nclean\n";
    assert_eq!(folder.done("list run.disc"), listed);
    let long = "   k   block  size  used   own   new again  own sectors at block\n   \
                0     535   520   520     2     2     0  533 to 534\n   \
                1     531   520   520     2     1     1  520, 530\n   \
                2     522   520   520     2     2     0  520 to 521\nclean\n";
    assert_eq!(folder.done("list run.disc --long"), long);
    let both = folder.done("list run.disc --long --times");
    let rows: Vec<&str> = both.lines().collect();
    let heading = "   k   block  size  used  local time                UTC                \
                   own   new again  own sectors at block";
    assert_eq!(rows[0], heading);
    let row = "   1     531   520   520  2026-11-15 14:05 +01:00   2026-11-15 13:05     \
               2     1     1  520, 530";
    assert_eq!(rows[2], row);
    assert!(folder.files() == before);
    let none = "   k   block  size  used   own   new again  own sectors at block\n   \
                0      11     2     1     0     0     0  -\n   \
                1       3     2     1     0     0     0  -\n   \
                2       1     1     1     0     0     0  -\nclean\n";
    assert_eq!(Folder::example().done("list run.disc --long"), none);
}

/// An own sector that cannot be read takes every save with it that names it.
#[test]
fn an_own_sector_that_cannot_be_read() {
    let folder = Folder::numbered(600, 458);
    folder.done("mount run.disc");
    for v in 458..520 {
        folder.write(v, &format!("run {v}"));
    }
    folder.done("commit run.disc");
    folder.write(519, "again");
    folder.done("commit run.disc");
    let listed = folder.done("list run.disc --long");
    assert!(
        listed.contains("     2     1     1  528, 532\n"),
        "{listed}"
    );
    assert!(
        listed.contains("     2     2     0  528 to 529\n"),
        "{listed}"
    );
    folder.set_kind(532, b'3');
    let told = folder.done("list run.disc --long");
    assert!(told.starts_with(
        "   k   block  size  used   own   new again  own sectors at block\n   0     530   520"
    ));
    assert!(told.ends_with("\ndirty\n"), "{told}");
    folder.set_kind(528, b'3');
    let told = folder.done("mount run.disc");
    assert!(told.starts_with("dirty, table at block 458\n"), "{told}");
}

/// Its own sectors are table sectors, on the map and under the pointer.
#[test]
fn own_sectors_are_drawn() {
    let folder = Folder::numbered(600, 520);
    folder.done("mount run.disc");
    folder.write(519, "again");
    folder.done("commit run.disc");
    let map = folder.done("map run.disc");
    assert!(
        map.contains("\n   480  uuuuuuuuuu uuuuuuuuuu uuuuuuuuuu uuuuuuuuus TTTlllllll uTT......."),
        "{map}"
    );
    let said = "2 saves, newest first, at block 532, 522.\n\
                3 of the table sectors are tables' own sectors; list --long tells whose.\n";
    assert!(map.ends_with(said), "{map}");
    let picture = folder.done("map run.disc --svg -");
    for told in [
        "block 520: table's own sector, the newest save to 1 back",
        "block 521: table's own sector, the save 1 back",
        "block 522: table, the save 1 back",
        "block 531: table's own sector, the newest save",
        "block 532: table, the newest save",
    ] {
        let title = format!("<title>{told}</title>");
        assert_eq!(picture.matches(&title).count(), 1, "{told}");
    }
    let space = folder.done("space run.disc");
    assert!(
        space.contains("table                   5     0.8 %\n"),
        "{space}"
    );
}

/// A ledger is believed only beside its disc: the map of a large table is not in the
/// table sector, which may be the same on two discs.
#[test]
fn discs_that_differ_in_own_sectors_alone() {
    let made = |again: u32| {
        let folder = Folder::numbered(600, 498);
        folder.done("mount run.disc");
        folder.write(again, "again");
        folder.done("commit run.disc");
        folder
    };
    let (one, other) = (made(0), made(1));
    let table = recorded(&one) - 1;
    assert!(one.sector(table) == other.sector(table));
    assert!(one.sector(table - 1) != other.sector(table - 1));
    one.put("run.disc", &other.bytes("run.disc"));
    let why = refused(&one, "read run.disc 0", 4);
    assert!(why.contains("was kept for another disc file"), "{why}");
}

/// The name of a large table is not in its table sector either.
#[test]
fn an_image_with_another_start() {
    let folder = Folder::numbered(600, 520);
    folder.done("export run.disc run.img");
    let image = [vec![0; 16 * SECTOR], folder.bytes("run.img")].concat();
    folder.put("whole.img", &image);
    let told = folder.done("import whole.img a.disc --start 16");
    let found = "the newest save: table at block 522, 520 numbers\n";
    assert!(told.ends_with(found), "{told}");
    let told = folder.done("import whole.img b.disc --start 0");
    let found = "no save is found from sector 0 on, but from sector 16 on: \
                 table at block 522, 520 numbers\n";
    assert!(told.contains(found), "{told}");
}

/// Many saves that name the same own sectors again.
#[test]
fn a_long_list() {
    let folder = Folder::numbered(5100, 4080);
    let (mut image, mut kinds) = (Vec::new(), Vec::new());
    let file = folder.bytes("run.disc");
    kinds.extend(folder.kinds().bytes().map(|digit| digit - b'0'));
    image.extend(&file[9 + kinds.len() + 1..]);
    let (mut roles, mut ledger) = (vec![0; kinds.len()], [0; station::LEDGER]);
    let (i, k, r, l) = (&mut image, &mut kinds, &mut roles, &mut ledger);
    station::mount(i, k, r, l).expect("mount");
    let mut saves = 1;
    while station::commit(i, k, r, l).is_ok() {
        saves += 1;
    }
    folder.put("run.disc", &disc_file(&kinds, &image));
    let listed = folder.done("list run.disc --long");
    let rows: Vec<&str> = listed.lines().collect();
    assert_eq!(rows.len(), saves + 2);
    for row in &rows[1..saves] {
        assert!(
            row.contains("  4080  4080     8     1     7  4080 to 4086, "),
            "{row}"
        );
    }
    assert!(
        rows[saves].ends_with("     8     8     0  4080 to 4087"),
        "{}",
        rows[saves]
    );
}
