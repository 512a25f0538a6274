//! docs/OPERATORS.md: every example in it runs and shows what it says, and its
//! table has every refusal with what the program explains of it.

#[path = "../src/advice.rs"]
mod advice;
mod common;

use std::collections::BTreeSet;

use common::Folder;
use station::Refusal;

const PAGE: &str = include_str!("../../../docs/OPERATORS.md");

/// The lines of all fenced blocks marked `console`, in order.
fn console_lines() -> Vec<&'static str> {
    let mut inside = false;
    let mut lines = Vec::new();
    for line in PAGE.lines() {
        if line.starts_with("```") {
            inside = line == "```console";
        } else if inside {
            lines.push(line);
        }
    }
    lines
}

/// All examples are one session in one folder.
#[test]
fn every_example_shows_what_the_page_says() {
    let folder = Folder::new();
    let lines = console_lines();
    let commands = lines.iter().filter(|line| line.starts_with("$ ")).count();
    assert!(commands > 20, "{commands}");
    let mut shown = String::new();
    for line in &lines {
        if let Some(typed) = line.strip_prefix("$ ") {
            shown += &format!("{line}\n{}", folder.shell(typed));
        }
    }
    let shown: Vec<&str> = shown.lines().collect();
    assert_eq!(shown, lines);
}

#[test]
fn the_table_has_every_refusal() {
    for refusal in Refusal::ALL {
        let start = format!("| {} | ", refusal.number());
        let row = PAGE.lines().find(|line| line.starts_with(&start));
        let row = row.unwrap_or_else(|| panic!("no row for {refusal}"));
        let end = format!(" | {} | {} |", advice::whose(refusal), advice::of(refusal));
        assert!(row.ends_with(&end), "{row}");
    }
}

/// Each command has its row, and no row is of a command that is not there.
#[test]
fn the_table_has_every_command() {
    let rows = PAGE.lines().filter_map(|line| line.strip_prefix("| `"));
    let told: BTreeSet<&str> = rows
        .filter_map(|row| row.split([' ', '`']).next())
        .collect();
    let help = Folder::new().done("--help");
    let listed = help.lines().filter_map(|line| line.strip_prefix("  "));
    let there: BTreeSet<&str> = listed.filter_map(|line| line.split(' ').next()).collect();
    assert_eq!(told, there);
}
