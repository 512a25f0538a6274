//! The rooms of the program: each uses only those that stand below it in the list
//! at the top of `main.rs`.

use std::fs;
use std::path::Path;

/// The rooms in the order of the list, which names each one.
fn rooms() -> Vec<String> {
    let main = source("main");
    let list = main.lines().filter(|line| line.starts_with("//! - "));
    let names = list.flat_map(|line| line.split('`').skip(1).step_by(2));
    names.map(String::from).collect()
}

fn source(room: &str) -> String {
    let sources = Path::new(env!("CARGO_MANIFEST_DIR")).join("src");
    fs::read_to_string(sources.join(format!("{room}.rs"))).expect(room)
}

/// What follows `crate::`, each once for each use.
fn used(source: &str) -> Vec<&str> {
    let behind = source.split("crate::").skip(1);
    let ends = |letter: char| !letter.is_ascii_lowercase() && letter != '_';
    behind.filter_map(|text| text.split(ends).next()).collect()
}

#[test]
fn the_list_has_every_room() {
    let mut listed = rooms();
    listed.sort();
    let main = source("main");
    let declared = main.lines().filter_map(|line| line.strip_prefix("mod "));
    let declared = declared.map(|name| name.trim_end_matches(';').to_string());
    let declared: Vec<String> = declared.filter(|name| name != "crashes").collect();
    assert_eq!(listed, declared);
}

#[test]
fn each_room_uses_only_those_below_it() {
    let rooms = rooms();
    let floor = |name: &str| rooms.iter().position(|room| room == name);
    for room in &rooms {
        for other in used(&source(room)) {
            assert!(floor(other) > floor(room), "{room} uses {other}");
        }
    }
}
