//! What is said in words: the answer, and shares.

use super::super::words::{notes, share};
use super::super::{answer, svg, Count, Own};
use super::{in_use, none, plan, BENCH, LARGE};

#[test]
fn the_answer_in_words() {
    for (roles, said) in [
        (
            &[][..],
            "Nothing is recorded: the disc is blank, 0 sectors.",
        ),
        (&[6], "Nothing is recorded: the disc is blank, 1 sector."),
        (&[0, 6, 6], "1 of 3 sectors is recorded, all in use."),
        (
            &[0, 3, 6],
            "2 of 3 sectors are recorded, 1 of them in use; the rest went above all into \
             tables (1): one for each save, more above 458 numbers.",
        ),
        (
            &[1, 1, 3, 5],
            "4 of 4 sectors are recorded, none of them in use; the space went above all into \
             superseded data (2): written again, released, or not named by the mounted save.",
        ),
        (
            &BENCH,
            "15 of 31 sectors are recorded, 2 of them in use; the rest went above all into \
             links (7): seven at each opening of a packet.",
        ),
    ] {
        assert_eq!(answer(&Count::of(roles, &none(roles.len()).parts)), said);
    }
}

/// No sector is told twice, and the rest is what is neither in use nor a part.
#[test]
fn the_answer_where_runs_are_in_use() {
    let as_superseded = "(counted as superseded, since only a run's entry has a number)";
    let as_either = "(counted as superseded or without a number, since only a run's entry has one)";
    for (roles, parts, said) in [
        (
            &[1, 1, 0, 6][..],
            0..2,
            format!("3 of 4 sectors are recorded, 1 of them in use and 2 as parts of runs in use {as_superseded}."),
        ),
        (
            &[1, 0, 3, 6],
            0..1,
            format!("3 of 4 sectors are recorded, 1 of them in use and 1 as a part of a run in use {as_superseded}; the rest went above all into tables (1): one for each save, more above 458 numbers."),
        ),
        (
            &[1, 1, 2, 2, 2, 0, 3],
            1..3,
            format!("7 of 7 sectors are recorded, 1 of them in use and 2 as parts of runs in use {as_either}; the rest went above all into data without a number (2): parts of runs that are not in use, or of a closing."),
        ),
    ] {
        let in_use = in_use(roles.len(), &[], &[(0, parts)]);
        assert_eq!(answer(&Count::of(roles, &in_use.parts)), said);
    }
}

#[test]
fn what_is_told_of_the_whole() {
    let own = |block| Own {
        block,
        newest: 0,
        oldest: 0,
    };
    let in_use = none(3);
    let mut plan = plan(&[3, 3, 6], &in_use, &[]);
    assert!(notes(&plan).is_empty());
    plan.note = "Looking only.";
    let (one, two) = ([own(0)], [own(0), own(1)]);
    plan.own = &one;
    let said = "1 of the table sectors is a table's own sector; list --long tells whose.";
    assert_eq!(notes(&plan), [said, plan.note]);
    plan.own = &two;
    let said = "2 of the table sectors are tables' own sectors; list --long tells whose.";
    assert_eq!(notes(&plan)[0], said);
    // In the picture it stands in the foot, in lines of its own.
    assert!(svg(&plan).contains(" list --long tells whose."));
}

#[test]
fn shares() {
    for (part, whole, told) in [
        (0, 0, "0.0 %"),
        (0, 5, "0.0 %"),
        (1, 3, "33.3 %"),
        (2, 3, "66.7 %"),
        (1, LARGE, "< 0.1 %"),
        (LARGE - 1, LARGE, "> 99.9 %"),
        (7, 7, "100.0 %"),
    ] {
        assert_eq!(share(part, whole), told);
    }
}
