//! The demo: what it shows, and that an operator who types it sees the same.

mod common;

use common::{Folder, EXAMPLE_LISTING};

/// The commands after `$ `, each with the lines up to the next one.
fn steps(text: &str) -> Vec<(String, String)> {
    let mut steps: Vec<(String, String)> = Vec::new();
    for line in text.lines().filter(|line| !line.starts_with("# ")) {
        match (line.strip_prefix("$ "), steps.last_mut()) {
            (Some(typed), _) => steps.push((typed.into(), String::new())),
            (None, Some((_, shown))) => *shown += &format!("{line}\n"),
            (None, None) => panic!("output before a command: {line}"),
        }
    }
    steps
}

#[test]
fn an_operator_sees_the_same() {
    let folder = Folder::new();
    let steps = steps(&folder.done("demo"));
    assert!(steps.len() > 20);
    for (typed, shown) in steps {
        assert_eq!(folder.shell(&typed), shown, "{typed}");
    }
}

#[test]
fn it_shows_the_last_finished_save() {
    let text = Folder::new().done("demo");
    let listed = format!("$ station list run.disc\n{EXAMPLE_LISTING}");
    assert!(text.contains(&listed));
    let (before, after) = text
        .split_once("$ station cut 3 commit run.disc\ncut after 3 of 8 sectors, ledger lost\n")
        .expect("a cut");
    assert!(before.contains(&listed));
    let mounted = "$ station mount run.disc\ndirty, table at block 11\nsize 2, 1 in use: 1\n\
                   $ station read run.disc 1 | tr -d '\\0'\nrun B\n";
    assert!(after.contains(mounted), "{after}");
}

#[test]
fn it_leaves_nothing_or_what_is_to_be_kept() {
    let folder = Folder::new();
    let told = folder.shell("TMPDIR=. station demo > shown; ls");
    assert_eq!(told, "shown\n");
    let kept = folder.done("demo --keep one/two");
    assert!(kept.ends_with("# The files are in one/two.\n"));
    folder.done("list one/two/run.disc");
    let told = folder.run("demo --keep one/two");
    assert_eq!(told.status, 73, "nothing is overwritten");
}
