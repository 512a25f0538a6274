//! The listing: document 01's lines exactly, and nothing changed by it.

mod common;

use common::{disc_file, Folder, EXAMPLE_LISTING};
use station::{LEDGER, LIMIT, SECTOR};

/// The listing and the exit status; no file may change.
fn listed(folder: &Folder) -> (String, i32, String) {
    let before = folder.files();
    let told = folder.run("list run.disc");
    assert!(folder.files() == before);
    let text = String::from_utf8(told.out).expect("text");
    (text, told.status, told.err)
}

fn lists(folder: &Folder, text: &str) {
    assert_eq!(listed(folder), (text.into(), 0, String::new()));
}

#[test]
fn document_01s_listing() {
    let folder = Folder::example();
    lists(&folder, EXAMPLE_LISTING);
    // Whatever the ledger holds, or if there is none.
    folder.put("run.disc.ledger", b"anything");
    lists(&folder, EXAMPLE_LISTING);
    std::fs::remove_file(folder.path("run.disc.ledger")).expect("the ledger");
    lists(&folder, EXAMPLE_LISTING);
}

#[test]
fn a_dirty_disc() {
    let folder = Folder::example();
    folder.write(0, "run C");
    lists(&folder, &EXAMPLE_LISTING.replace("clean", "dirty"));
}

#[test]
fn a_save_of_nothing() {
    let folder = Folder::begun(8);
    folder.done("commit run.disc");
    lists(
        &folder,
        "   k   block  size  used\n   0       0     0     0\nclean\n",
    );
}

#[test]
fn a_refused_mount() {
    let folder = Folder::begun(31);
    let (text, status, told) = listed(&folder);
    assert_eq!((text.as_str(), status), ("refused   7\n", 7));
    assert!(told.starts_with("station: refusal 7: "), "{told}");
    folder.set_kind(1, b'1');
    let (text, status, _) = listed(&folder);
    assert_eq!((text.as_str(), status), ("refused   3\n", 3));
}

#[test]
fn a_broken_disc() {
    let folder = Folder::example_on(60);
    folder.set_kind(3, b'3');
    let broken = "   k   block  size  used\n   0      11     2     1\nbroken\n";
    let (text, status, told) = listed(&folder);
    assert_eq!((text.as_str(), status), (broken, 8));
    assert!(told.starts_with("station: refusal 8: "), "{told}");
    // Broken, and dirty as well. The ledger was kept for a disc that was whole.
    folder.run("mount run.disc");
    folder.write(0, "run C");
    assert_eq!(listed(&folder).0, broken);
}

/// Each row of a long listing is what look back k shows.
#[test]
fn rows_are_those_of_look_back() {
    let sectors = 700;
    let (mut image, mut kinds) = (vec![0; sectors * SECTOR], vec![0; sectors]);
    let (mut roles, mut ledger) = (vec![0; kinds.len()], [0; LEDGER]);
    let (i, k, r, l) = (&mut image, &mut kinds, &mut roles, &mut ledger);
    station::begin(i, k, r, l).expect("begin");
    for v in 0..300 {
        station::write(i, k, r, l, v, &[7; SECTOR]).expect("write");
        if v % 3 == 2 {
            station::release(i, k, r, l, v - 1).expect("release");
        }
        station::commit(i, k, r, l).expect("commit");
    }
    let folder = Folder::new();
    folder.put("run.disc", &disc_file(&kinds, &image));
    let text = folder.done("list run.disc");
    let lines: Vec<&str> = text.lines().collect();
    assert_eq!(lines.len(), 302);
    for k in 0..300 {
        let back = station::look_back(&image, &kinds, &mut roles, &mut ledger, k);
        let block = back.expect("look back");
        let word = |place: usize| &ledger[place * 4..place * 4 + 4];
        let limit = LIMIT as usize;
        let size = u32::from_le_bytes(word(limit).try_into().expect("four bytes"));
        let used = (0..limit).filter(|v| word(*v) != [0xFF; 4]).count();
        let row = format!("{k:4}{block:8}{size:6}{used:6}");
        assert_eq!(lines[k as usize + 1], row);
    }
    assert_eq!(lines[301], "clean");
}
