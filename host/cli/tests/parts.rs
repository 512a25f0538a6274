//! What `space` and `map` tell of the parts of runs in use, whose own roles do not tell
//! that a number leads to them.

mod common;

use common::{disc_file, Folder};
use station::{Extent, LEDGER, SECTOR};

/// The answer of `space`, and the letters of `map`; the lines of the seven roles are
/// what the role file has.
fn told(folder: &Folder) -> (String, String) {
    let told = folder.done("space run.disc");
    let lines: Vec<&str> = told.lines().collect();
    let roles = folder.roles();
    for (number, line) in (0..7).zip(&lines) {
        let count = roles.iter().filter(|role| **role == number).count();
        assert_eq!(line[17..25].trim(), count.to_string(), "{line}");
    }
    let map = folder.done("map run.disc");
    let row = map.lines().find_map(|line| line.strip_prefix("     0  "));
    let letters = row.expect("a row").replace([' ', '.'], "");
    (lines[7].into(), letters)
}

/// Before a mount the parts of a run are without a number, and after it superseded:
/// of a run in use they are told as its parts.
#[test]
fn parts_of_runs_in_use() {
    let folder = Folder::begun(60);
    folder.done_with("store run.disc 0", &[7; 2 * SECTOR + 1]);
    let (answer, letters) = told(&folder);
    assert_eq!(letters, "pppu");
    let said = "4 of 60 sectors are recorded, 1 of them in use and 3 as parts of runs in use \
                (counted as without a number, since only a run's entry has one).";
    assert_eq!(answer, said);
    folder.done("commit run.disc");
    folder.done("mount run.disc");
    let (answer, letters) = told(&folder);
    assert_eq!(letters, "pppuT");
    let said = "5 of 60 sectors are recorded, 1 of them in use and 3 as parts of runs in use \
                (counted as superseded, since only a run's entry has a number); the rest went \
                above all into tables (1): one for each save, more above 458 numbers.";
    assert_eq!(answer, said);
    folder.done_with("store run.disc 1", b"a short run");
    let (answer, letters) = told(&folder);
    assert_eq!(letters, "pppuTlllllllpu");
    let said = "14 of 60 sectors are recorded, 2 of them in use and 4 as parts of runs in use \
                (counted as superseded or without a number, since only a run's entry has one); \
                the rest went above all into links (7): seven at each opening of a packet.";
    assert_eq!(answer, said);
    // A run that no number leads to any more is told by its role alone.
    folder.done_with("store run.disc 1", b"another");
    folder.done("release run.disc 0");
    let (answer, letters) = told(&folder);
    assert_eq!(letters, "ssssTlllllllwspu");
    assert!(
        answer.contains(" 1 of them in use and 1 as a part of a run in use "),
        "{answer}"
    );
    let back = folder.done("space run.disc --back 0");
    folder.done("look-back run.disc 0");
    assert_eq!(told(&folder).1, "pppuTlllllllssss");
    assert_eq!(folder.done("space run.disc"), back);
}

/// Of a run with an unreadable sector nothing is shown, so it has no parts.
#[test]
fn a_run_that_cannot_be_viewed() {
    let folder = Folder::begun(60);
    folder.done_with("store run.disc 0", &[7; 3 * SECTOR]);
    folder.done("commit run.disc");
    folder.set_kind(1, b'3');
    folder.done("mount run.disc");
    assert_eq!(told(&folder).1, "sxsuT");
}

/// As many runs as there are numbers, each of 100 extents, on the same few sectors: a
/// sector is told once. A part that has a number itself is in use.
#[test]
fn parts_that_many_runs_share() {
    let sectors = 3000;
    let (mut image, mut kinds) = (vec![0; sectors * SECTOR], vec![0; sectors]);
    let (mut roles, mut ledger) = (vec![0; sectors], [0; LEDGER]);
    let (i, k, r, l) = (&mut image, &mut kinds, &mut roles, &mut ledger);
    station::begin(i, k, r, l).expect("begin");
    station::write(i, k, r, l, 0, &[7; SECTOR]).expect("write");
    for _ in 0..1000 {
        station::write_unnumbered(i, k, r, l, &[7; SECTOR]).expect("write unnumbered");
    }
    for v in 1..458 {
        let extent = |place: u32| Extent {
            length: 900 * SECTOR as u32,
            location: place,
        };
        let extents: Vec<Extent> = (0..100).map(extent).collect();
        let entry = station::file_entry(&extents, 1000 + v);
        let block = station::write(i, k, r, l, v, &entry).expect("an entry");
        assert_eq!(block, 1000 + v);
    }
    station::commit(i, k, r, l).expect("commit");
    let folder = Folder::new();
    folder.put("run.disc", &disc_file(&kinds, &image));
    folder.done("mount run.disc");
    let told = folder.done("space run.disc");
    let said = "1,459 of 3,000 sectors are recorded, 458 of them in use and 998 as parts of runs \
                in use (counted as superseded, since only a run's entry has a number); the rest \
                went above all into superseded data (2): ";
    assert!(told.contains(said), "{told}");
}
