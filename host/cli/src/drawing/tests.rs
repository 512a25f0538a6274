//! The drawings of small and large discs: their cells, their legend, and what is said
//! beside them.

mod pictures;
mod sentences;

use std::ops::Range;
use std::path::Path;

use super::{colours, letters, svg, Plan, Save};
use crate::runs::{InUse, Number};

const BENCH: [u8; 31] = [
    1, 3, 1, 3, 4, 4, 4, 4, 4, 4, 4, 3, 0, 0, 3, 6, 6, 6, 6, 6, 6, 6, 6, 6, 6, 6, 6, 6, 6, 6, 6,
];
const EACH: [u8; 7] = [0, 1, 2, 3, 4, 5, 6];
const LARGE: usize = 360_000;

fn plan<'a>(roles: &'a [u8], in_use: &'a InUse, saves: &'a [Save]) -> Plan<'a> {
    let name = Path::new("run.disc");
    Plan {
        name,
        roles,
        in_use,
        saves,
        own: &[],
        note: "",
    }
}

/// Of so many sectors no number is known to be in use, and no run.
fn none(sectors: usize) -> InUse {
    in_use(sectors, &[], &[])
}

/// These numbers at their blocks, some of them runs with these parts.
fn in_use(sectors: usize, numbers: &[(u32, usize)], parts: &[(u32, Range<usize>)]) -> InUse {
    let is_run = |v| parts.iter().any(|(run, _)| *run == v);
    let named = |&(v, block): &(u32, usize)| Number {
        v,
        block,
        run: is_run(v),
    };
    let mut in_use = InUse {
        numbers: numbers.iter().map(named).collect(),
        parts: vec![None; sectors],
    };
    for (v, blocks) in parts {
        in_use.parts[blocks.clone()].fill(Some(*v));
    }
    in_use
}

/// At these blocks, newest first.
fn saves(blocks: impl DoubleEndedIterator<Item = usize>) -> Vec<Save> {
    let counted = blocks.rev().enumerate();
    counted.map(|(back, block)| Save { block, back }).collect()
}

/// The letters of the cells, without the block numbers before them.
fn cells(drawn: &str) -> String {
    let rows = drawn.split("\n\n").nth(1).expect("rows");
    let without_number = |row: &str| row[8..].replace(' ', "");
    rows.lines().map(without_number).collect()
}

/// How often a piece stands in a text.
fn times(text: &str, piece: &str) -> usize {
    text.matches(piece).count()
}

#[test]
fn a_cell_a_sector() {
    let saves = saves([1, 3, 11, 14].into_iter());
    let in_use = none(BENCH.len());
    let plan = plan(&BENCH, &in_use, &saves);
    let drawn = letters(&plan, 80);
    assert!(drawn.contains("\n     0  sTsTllllll lTuuT..... .......... .\n"));
    assert!(drawn.contains("\nOne cell is one sector.\n"));
    assert!(drawn.contains("\n4 saves, newest first, at block 14, 11, 3, 1.\n"));
    let picture = svg(&plan);
    for text in [
        "One cell is one sector.",
        ">2–3 back<",
        ">newest–1 back<",
        ">30<",
    ] {
        assert!(picture.contains(text), "{text}");
    }
}

#[test]
fn each_row_has_its_first_block() {
    let drawn = letters(&plan(&[1; 240], &none(240), &[]), 60);
    for block in ["     0  ", "    40  ", "   200  "] {
        assert!(drawn.contains(&format!("\n{block}ssssssssss ")), "{block}");
    }
}

#[test]
fn the_legend_has_counts_and_shares() {
    let counts = [31, 118, 20, 12, 49, 10, 60];
    let runs = counts.iter().enumerate();
    let roles: Vec<u8> = runs
        .flat_map(|(role, &count)| vec![role as u8; count])
        .collect();
    let in_use = none(roles.len());
    let plan = plan(&roles, &in_use, &[]);
    let (drawn, picture) = (letters(&plan, 80), svg(&plan));
    for (line, count, share) in [
        (
            "u  in use                 31    10.3 %  a number",
            31,
            "10.3 %",
        ),
        (
            "s  superseded            118    39.3 %  written",
            118,
            "39.3 %",
        ),
        ("w  without a number       20     6.7 %  parts", 20, "6.7 %"),
        ("T  table                  12     4.0 %  one", 12, "4.0 %"),
        (
            "l  link                   49    16.3 %  seven",
            49,
            "16.3 %",
        ),
        ("x  unreadable             10     3.3 %  left", 10, "3.3 %"),
        (
            ".  blank                  60    20.0 %  nothing",
            60,
            "20.0 %",
        ),
    ] {
        assert!(drawn.contains(line), "{line}");
        assert!(picture.contains(&format!(">{count}</text>")), "{count}");
        assert!(picture.contains(&format!(">{share}</text>")), "{share}");
    }
}

#[test]
fn a_group_does_not_hide_a_table_or_an_unreadable_sector() {
    let mut roles = vec![1; LARGE];
    roles[200_001] = 3;
    roles[300_001] = 5;
    roles[100_001] = 0;
    let saves = saves([200_001].into_iter());
    let in_use = none(LARGE);
    let plan = plan(&roles, &in_use, &saves);
    let drawn = letters(&plan, 80);
    assert!(drawn.contains("One cell is 200 sectors"));
    let cells = cells(&drawn);
    assert_eq!(cells.len(), LARGE / 200);
    assert_eq!((times(&cells, "S"), times(&cells, "x")), (1, 1));
    assert_eq!(cells.find('S'), Some(200_001 / 200));
    assert_eq!(cells.find('x'), Some(300_001 / 200));
    let picture = svg(&plan);
    assert!(picture.contains("One cell is 100 sectors"));
    let upper_corner = "h.6l-.6 .6z\" fill";
    let lower_corner = "h-.6l.6-.6z\" fill";
    let cross = "m-.48 0l.48-.48\" fill";
    // One of each in the disc, one in the legend; a cross has an edge.
    assert_eq!(times(&picture, upper_corner), 2);
    assert_eq!(times(&picture, lower_corner), 2);
    assert_eq!(times(&picture, cross), 2 * 3);
    assert!(picture.contains(">newest</text>"));
}

#[test]
fn a_table_and_an_unreadable_sector_in_one_group() {
    let mut roles = vec![0; LARGE];
    roles[100] = 3;
    roles[101] = 5;
    assert!(cells(&letters(&plan(&roles, &none(LARGE), &[]), 80)).starts_with("Xuuu"));
}

/// A few sectors at the start of a large disc are not lost among the blank ones.
#[test]
fn a_nearly_blank_disc() {
    let mut roles = vec![6; LARGE];
    roles[0] = 0;
    roles[1] = 0;
    roles[2] = 3;
    let cells = cells(&letters(&plan(&roles, &none(LARGE), &[]), 80));
    assert_eq!(cells, "U".to_string() + &".".repeat(LARGE / 200 - 1));
}

#[test]
fn lines_fit_the_width_with_and_without_colours() {
    let many = saves(0..200);
    for roles in [&[][..], &[6], &BENCH, &[1; 1000], &EACH, &[2; LARGE]] {
        let in_use = none(roles.len());
        let plan = plan(roles, &in_use, &many);
        for width in [0, 1, 39, 40, 60, 75, 76, 80, 120, 300] {
            let plain = letters(&plan, width);
            let longest = plain.lines().map(|line| line.chars().count()).max();
            assert!(longest <= Some(width.max(40)), "{width}");
            assert_eq!(without_colours(&colours(&plan, width)), plain);
        }
    }
}

fn without_colours(text: &str) -> String {
    let mut pieces = text.split("\x1b[");
    let first = pieces.next().unwrap_or_default().to_string();
    let rest = pieces.filter_map(|piece| piece.split_once('m'));
    first + &rest.map(|(_, text)| text).collect::<String>()
}

#[test]
fn many_saves_are_shortened() {
    let many = saves((0..500).map(|place| 2 * place + 1));
    let roles: Vec<u8> = (0..1000).map(|block| [1, 3][block % 2]).collect();
    let in_use = none(roles.len());
    let plan = plan(&roles, &in_use, &many);
    let drawn = letters(&plan, 80);
    assert!(drawn.contains("\n500 saves, newest first, at block 999, 997, "));
    assert!(drawn.contains(" 979, ..., 1.\n"));
    let picture = svg(&plan);
    assert!(picture.contains(">newest–19 back<"));
    assert!(picture.contains(">480–499 back<"));
}

#[test]
fn a_disc_without_a_save() {
    let drawn = letters(&plan(&[6; 9], &none(9), &[]), 80);
    assert!(drawn.contains("\nNo save.\n"));
}

/// A name cannot command the terminal.
#[test]
fn a_name_is_only_text() {
    let in_use = none(BENCH.len());
    let mut plan = plan(&BENCH, &in_use, &[]);
    plan.name = Path::new("a\x1b[2Jb\r\n.disc");
    let told = "Where the space of a\\u{1b}[2Jb\\r\\n.disc went\n";
    assert!(letters(&plan, 80).starts_with(told));
    assert!(svg(&plan).contains("<title>Where the space of a\\u{1b}[2Jb\\r\\n.disc went<"));
    let long = "1".repeat(30) + &"2".repeat(30);
    plan.name = Path::new(&long);
    let shown = "1".repeat(20) + "…" + &"2".repeat(19);
    assert!(letters(&plan, 80).contains(&format!("Where the space of {shown} went\n")));
}

/// Parts have a letter, a colour and a count of their own, and are counted by their
/// roles as before.
#[test]
fn parts_of_runs_are_drawn_as_such() {
    let roles = [1, 1, 1, 1, 2, 2, 0, 3];
    let in_use = in_use(8, &[(0, 6)], &[(0, 2..5)]);
    let plan = plan(&roles, &in_use, &[]);
    let drawn = letters(&plan, 80);
    assert_eq!(cells(&drawn), "sspppwuT");
    for line in [
        "  s  superseded              4    50.0 %  written again",
        "  w  without a number        2    25.0 %  parts of runs, or of a closing\n",
        "  p  part of a run           3    37.5 %  its run is in use; counted above\n",
    ] {
        assert!(drawn.contains(line), "{line}");
    }
    assert!(colours(&plan, 80).contains("m\u{1b}[48;5;68;38;5;16mppp\u{1b}["));
    let picture = svg(&plan);
    // The squares, and their sign, on the disc and in the legend.
    assert_eq!(times(&picture, "\" fill=\"#4389c6\""), 2);
    assert_eq!(times(&picture, "M2.2 0.34h2.6M2.2 0.66h2.6\""), 1);
    assert!(picture.contains(">part of a run</text>"));
    let without = letters(&self::plan(&roles, &none(8), &[]), 80);
    assert!(!without.contains("part of a run"));
}
