//! The picture in docs/OPERATORS.md is what the program draws of the disc of a lesson
//! in which every role occurs, and parts of runs in use.

mod common;

use std::fs;
use std::path::Path;

use common::Folder;
use station::SECTOR;

const PICTURE: &str = concat!(env!("CARGO_MANIFEST_DIR"), "/../../docs/pictures/space.svg");

/// Six runs are driven again and again in the morning, each time with a save, and late
/// in the morning some with a save each. A save is cut in its links. In the afternoon
/// the operator mounts, goes on, stores a long run, and again since it was broken off,
/// gives up a number, and after a pause drives the last runs.
fn lesson(folder: &Folder) {
    for drive in 1..8 {
        for v in 0..6 {
            folder.write(v, &format!("run {v}, drive {drive}"));
        }
        folder.done("commit run.disc");
    }
    folder.done("close run.disc");
    for v in 2..6 {
        folder.write(v, &format!("run {v}, late in the morning"));
        folder.done("commit run.disc");
    }
    folder.done("close run.disc");
    folder.done("cut 3 --torn commit run.disc");
    folder.done("mount run.disc");
    for drive in ["after lunch", "again"] {
        for v in 4..9 {
            folder.write(v, &format!("run {v}, {drive}"));
        }
        folder.done("commit run.disc --at 2026-11-16T14:05Z");
    }
    folder.done_with("store run.disc 9", &[7; 5 * SECTOR]);
    folder.done_with("store run.disc 9", &[7; 14 * SECTOR]);
    folder.done("commit run.disc --at 2026-11-16T14:40Z");
    folder.done("release run.disc 3");
    folder.done("close run.disc");
    for v in [0, 1, 8, 8] {
        folder.write(v, &format!("run {v}, before the end"));
    }
    folder.done("commit run.disc --at 2026-11-16T16:55Z");
}

#[test]
fn the_handbook_shows_what_is_drawn() {
    let folder = Folder::begun(160);
    lesson(&folder);
    folder.done("map run.disc --svg drawn.svg");
    let drawn = folder.bytes("drawn.svg");
    let left = Path::new(env!("CARGO_TARGET_TMPDIR")).join("space.svg");
    fs::write(&left, &drawn).expect("the picture is left for a look");
    let shown = fs::read(PICTURE).expect("the picture of the handbook");
    assert!(
        drawn == shown,
        "docs/pictures/space.svg is not what the program draws of the lesson: {}",
        left.display()
    );
}
