//! Pictures as files: their size, their form, and what they tell under the pointer.

use std::ops::Range;
use std::path::Path;

use super::super::Own;
use super::{in_use, none, plan, saves, svg, times, BENCH, EACH, LARGE};

/// It has no size of its own, and on paper that of the sheet; no script.
#[test]
fn a_picture_fits_every_window() {
    let picture = svg(&plan(&BENCH, &none(BENCH.len()), &[]));
    let opening = picture.split_once('>').expect("a tag").0;
    assert!(opening.contains(" viewBox=\"0 0 1680 1188\""), "{opening}");
    for size in [" width=", " height=", "mm"] {
        assert!(!opening.contains(size), "{opening}");
    }
    assert!(picture.contains("<style>@page{size:A3 landscape;margin:0}"));
    assert!(!picture.contains("<script"));
}

/// Large discs give small files: neighbours are one piece. Even where no two squares
/// are alike, and each holds all roles.
#[test]
fn a_picture_is_small() {
    let in_use = none(LARGE);
    let mixed: Vec<u8> = (0..LARGE).map(|block| (block / 700 % 7) as u8).collect();
    assert!(svg(&plan(&mixed, &in_use, &[])).len() < 200_000);
    assert!(svg(&plan(&[1; LARGE], &in_use, &[])).len() < 150_000);
    assert!(svg(&plan(&[6; LARGE], &in_use, &[])).len() < 20_000);
    let of_each: Vec<u8> = (0..LARGE).map(|block| (block * block % 7) as u8).collect();
    let runs: Vec<(u32, Range<usize>)> = (0..LARGE)
        .step_by(5)
        .map(|block| (7, block..block + 2))
        .collect();
    let in_use = super::in_use(LARGE, &[], &runs);
    let many = saves((0..LARGE).step_by(50));
    assert!(svg(&plan(&of_each, &in_use, &many)).len() < 1_000_000);
}

/// The pointer is told of each sector once, and over all that is drawn.
#[test]
fn under_the_pointer() {
    let saves = saves([1, 3, 11, 14].into_iter());
    let in_use = in_use(BENCH.len(), &[(4, 12), (0, 13)], &[(0, 2..3)]);
    let picture = svg(&plan(&BENCH, &in_use, &saves));
    let (_, over) = picture
        .split_once("pointer-events=\"all\">")
        .expect("a layer");
    let told = over
        .split("<title>")
        .skip(1)
        .map(|title| title.split('<').next());
    let told: Vec<&str> = told.map(Option::unwrap_or_default).collect();
    let all = [
        "block 0: superseded",
        "block 1: table, the save 3 back",
        "block 2: part of run 0 (superseded)",
        "block 3: table, the save 2 back",
        "blocks 4 to 10: link",
        "block 11: table, the save 1 back",
        "block 12: in use, number 4",
        "block 13: in use, number 0, the entry of a run",
        "block 14: table, the newest save",
        "blocks 15 to 30: blank",
    ];
    assert_eq!(told, all);
    // Two rows of ten and a beginning of a third.
    assert!(over.contains("<path d=\"M4 0h6v1h-6zM0 1h1v1h-1z\"><title>blocks 4 to 10"));
    assert!(over.contains("<path d=\"M5 1h5v1h-5zM0 2h10v1h-10zM0 3h1v1h-1z\"><title>blocks 15"));
}

/// Squares that stand for many sectors: what they hold, and how many of each.
#[test]
fn groups_under_the_pointer() {
    let mut roles = vec![6; LARGE];
    roles[..20_000].fill(1);
    roles[20_000..20_007].fill(4);
    roles[20_007..20_010].fill(0);
    roles[20_010..20_012].fill(3);
    roles[20_012] = 5;
    roles[20_013..20_020].fill(2);
    roles[20_020..20_050].fill(1);
    roles[20_050] = 3;
    let numbers = [(5, 20_007), (2, 20_008), (3, 20_009)];
    let runs = [(5, 300..12_000), (2, 12_000..12_040), (3, 20_013..20_014)];
    let in_use = in_use(LARGE, &numbers, &runs);
    let saves = saves([20_010, 20_011].into_iter());
    let picture = svg(&plan(&roles, &in_use, &saves));
    for told in [
        "blocks 0 to 299: superseded",
        "blocks 300 to 11999: part of run 5 (superseded)",
        "blocks 12000 to 12099: 60 superseded, 40 parts of run 2",
        "blocks 12100 to 19999: superseded",
        "blocks 20000 to 20099: 3 in use (numbers 2 to 3, 5), 30 superseded, 6 without a number, \
         1 part of run 3, 3 tables (the newest save to 1 back), 7 links, 1 unreadable, 49 blank",
        "blocks 20100 to 359999: blank",
    ] {
        assert!(
            picture.contains(&format!("<title>{told}</title>")),
            "{told}"
        );
    }
    // Without the picture's own, and that of the disc.
    assert_eq!(times(&picture, "<title>"), 1 + 6);
}

/// Of table sectors it tells which are saves and which own sectors, and whose.
#[test]
fn own_sectors_under_the_pointer() {
    let roles = [0, 3, 3, 3, 3, 3, 3, 3, 6];
    let (saves, in_use) = (saves([3, 6].into_iter()), none(roles.len()));
    let own = |block, newest, oldest| Own {
        block,
        newest,
        oldest,
    };
    let own = [own(1, 1, 1), own(2, 0, 1), own(4, 0, 0), own(5, 0, 0)];
    let mut plan = plan(&roles, &in_use, &saves);
    plan.own = &own;
    let picture = svg(&plan);
    for told in [
        "block 1: table's own sector, the save 1 back",
        "block 2: table's own sector, the newest save to 1 back",
        "block 3: table, the save 1 back",
        "blocks 4 to 5: table's own sector, the newest save",
        "block 6: table, the newest save",
        // Counting back does not reach it.
        "block 7: table",
    ] {
        assert_eq!(times(&picture, &format!("<title>{told}</title>")), 1);
    }
    let mut roles = vec![6; LARGE];
    roles[..200].fill(3);
    let in_use = none(LARGE);
    let mut plan = super::plan(&roles, &in_use, &saves);
    plan.own = &own;
    let told = "blocks 0 to 99: 96 tables (the newest save to 1 back), 4 own sectors of tables \
                (the newest save to 1 back)";
    assert!(svg(&plan).contains(&format!("<title>{told}</title>")));
}

#[test]
fn pictures_are_well_formed() {
    // Some of them are not on the disc.
    let many = saves(0..2000);
    for roles in [&[][..], &[6], &BENCH, &[1; 1000], &EACH, &[5; LARGE]] {
        for name in [
            "run.disc",
            "a<b>&\"'.disc",
            "\u{1}\u{1b}[31m\u{fffe}\n",
            "",
            &"x".repeat(900),
        ] {
            let in_use = none(roles.len());
            let mut plan = plan(roles, &in_use, &many);
            plan.name = Path::new(name);
            check_xml(&svg(&plan));
        }
    }
}

/// Every element is closed, in order; no sign stands bare; nothing is fetched.
fn check_xml(text: &str) {
    let mut open: Vec<&str> = Vec::new();
    for piece in text.split('<').skip(1) {
        let (tag, words) = piece.split_once('>').expect("the end of a tag");
        assert!(!words.contains('>'));
        assert_eq!(times(tag, "\"") % 2, 0, "{tag}");
        let name = tag.split(' ').next().expect("a name");
        match name.strip_prefix('/') {
            Some(name) => assert_eq!(open.pop(), Some(name)),
            None if tag.ends_with('/') => {}
            None => open.push(name),
        }
    }
    assert!(open.is_empty() && text.ends_with("</svg>\n"));
    for entity in text.split('&').skip(1) {
        let name = entity.split(';').next().expect("a name");
        assert!(["amp", "lt", "gt", "quot"].contains(&name), "{name}");
    }
    assert!(text
        .chars()
        .all(|letter| letter == '\n' || !letter.is_control()));
    assert_eq!(times(text, "://"), 1, "only the name of the form");
    assert!(!text.contains("NaN") && !text.contains("inf"));
}
