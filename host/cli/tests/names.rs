//! What a command tells of a name or another word commands no terminal and ends no line.

mod common;

use std::fs;
use std::process::{Command, Output};

use common::{Folder, STATION};

/// A name that clears the screen and ends the line, and how it is told.
const NAME: &str = "a\u{1b}[2J\n.disc";
const TOLD: &str = "a\\u{1b}[2J\\n.disc";

fn run(folder: &Folder, words: &[&str]) -> Output {
    let mut command = Command::new(STATION);
    let output = command.current_dir(&folder.0).args(words).output();
    output.expect("the program runs")
}

/// The exit status, the lines on standard error, and that nothing else is there.
fn fails(folder: &Folder, words: &[&str], status: i32) -> String {
    let output = run(folder, words);
    let lines = String::from_utf8(output.stderr).expect("text");
    assert_eq!(output.status.code(), Some(status), "{lines}");
    assert!(output.stdout.is_empty());
    let controls = |letter: char| letter != '\n' && letter.is_control();
    assert!(!lines.contains(controls), "{lines}");
    lines
}

#[test]
fn words_of_a_command_line() {
    let folder = Folder::example();
    for (words, fault) in [
        (&[NAME][..], format!("there is no command {TOLD}")),
        (
            &["mount", "run.disc", NAME],
            format!("mount has no use for {TOLD}"),
        ),
        (&["mount", "--\t"], "mount has no option --\\t".into()),
        (&["--\t"], "there is no option --\\t".into()),
        (
            &["read", "run.disc", NAME],
            format!("V is a number from 0 to 4086, not '{TOLD}'"),
        ),
        (
            &["cut", "0", NAME],
            format!("only write, store, commit and close-session can be cut, not {TOLD}"),
        ),
        (
            &["commit", "run.disc", "--at", NAME],
            format!("--at is a time such as 2026-11-15T14:05+01:00, not '{TOLD}'"),
        ),
    ] {
        let lines = fails(&folder, words, 64);
        assert!(lines.starts_with(&format!("station: {fault}\n")), "{lines}");
        assert_eq!(lines.lines().count(), 2, "{lines}");
    }
}

#[test]
fn names_of_files() {
    let folder = Folder::example();
    let lines = fails(&folder, &["mount", NAME], 66);
    assert_eq!(
        lines,
        format!("station: there is no file or folder {TOLD}\n")
    );
    assert!(run(&folder, &["new", NAME, "31"]).status.success());
    let lines = fails(&folder, &["new", NAME, "31"], 73);
    let fault = format!("station: {TOLD} cannot be written: it is there already\n");
    assert_eq!(lines, fault);
    let lines = fails(&folder, &["space", NAME], 69);
    let start = format!("station: where the space of {TOLD} went ");
    assert!(lines.starts_with(&start), "{lines}");
    assert!(run(&folder, &["begin", NAME]).status.success());
    for words in [&["map", NAME][..], &["map", NAME, "--svg", "-"]] {
        let output = run(&folder, words);
        let drawn = String::from_utf8(output.stdout).expect("text");
        assert!(drawn.contains(&format!("Where the space of {TOLD} went")));
    }
    folder.put(NAME, b"no disc");
    let lines = fails(&folder, &["mount", NAME], 65);
    assert!(lines.starts_with(&format!("station: {TOLD} is no disc: ")));
}

/// What is told of a disc that an import made, and of names beside it.
#[test]
fn names_of_imported_discs() {
    let folder = Folder::example();
    folder.put("deck.img", &[7; 2048]);
    let output = run(&folder, &["import", "deck.img", NAME, "--start", "0"]);
    let told = String::from_utf8(output.stdout).expect("text");
    assert!(told.contains(&format!("do not begin {TOLD}")), "{told}");
    assert_eq!(told.lines().count(), 3, "{told}");
    let lines = fails(&folder, &["begin", NAME], 64);
    let anyway = format!("type 'station begin {TOLD} --anyway'");
    assert!(lines.contains(&anyway), "{lines}");
    let beside = format!("{NAME}.ledger");
    let lines = fails(&folder, &["export", "run.disc", &beside], 73);
    let place = format!("the name is for what lies beside {TOLD}\n");
    assert!(lines.ends_with(&place), "{lines}");
}

/// The word before a closing.
#[test]
fn the_name_of_a_disc_that_is_closed() {
    let folder = Folder::to_be_closed(300);
    for end in ["", ".ledger", ".roles"] {
        let named = |name: &str| folder.path(&format!("{name}{end}"));
        fs::rename(named("run.disc"), named(NAME)).expect("renamed");
    }
    let words = "close-session X --main 32768,96 --reserve 32768,240 --start 257";
    let words = words
        .split(' ')
        .map(|word| if word == "X" { NAME } else { word });
    let output = run(&folder, &words.collect::<Vec<&str>>());
    let lines = String::from_utf8(output.stderr).expect("text");
    assert!(
        lines.starts_with(&format!("station: closing {TOLD}: ")),
        "{lines}"
    );
    assert_eq!(lines.lines().count(), 1, "{lines}");
}
