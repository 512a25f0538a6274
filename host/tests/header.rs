//! The C header: a C program that includes it is compiled against the archive
//! and run; C++ takes it too; its numbers are the crate's.

use std::fmt::Debug;
use std::path::{Path, PathBuf};
use std::process::Command;

use station::{Refusal, Role};

/// The folder of the archive that this package links.
const ARCHIVE: &str = env!("STATION_ARCHIVE_FOLDER");

fn package() -> &'static Path {
    Path::new(env!("CARGO_MANIFEST_DIR"))
}

/// A file that only the test needs.
fn scratch(name: &str) -> PathBuf {
    Path::new(env!("CARGO_TARGET_TMPDIR")).join(name)
}

/// Runs the command and gives what it said; it must succeed.
fn run(command: &mut Command) -> String {
    let output = command.output();
    let output = output.unwrap_or_else(|error| panic!("{command:?} does not run: {error}"));
    let said = String::from_utf8_lossy(&output.stdout).into_owned();
    let complaint = String::from_utf8_lossy(&output.stderr);
    assert!(output.status.success(), "{command:?}: {said}{complaint}");
    said
}

/// A strict compiler that finds the header.
fn compiler(name: &str, standard: &str) -> Command {
    let mut compiler = Command::new(name);
    compiler.arg(standard);
    compiler.args(["-pedantic", "-Wall", "-Wextra", "-Werror"]);
    compiler.arg("-I").arg(package().join("include"));
    compiler
}

#[test]
fn a_c_program_records_and_mounts() {
    let program = scratch("record");
    let mut compile = compiler("cc", "-std=c99");
    compile.arg(package().join("tests/c/record.c"));
    compile.arg(Path::new(ARCHIVE).join("libstation.a"));
    run(compile.arg("-o").arg(&program));
    let said = run(&mut Command::new(program));
    assert_eq!(
        said,
        "recorded, mounted, read, looked back, told the times and the space, viewed a run, closed and saved many numbers\n"
    );
}

/// The header twice in one file, in C and in C++.
#[test]
fn the_header_alone() {
    let text = "#include \"station.h\"\n#include \"station.h\"\n";
    for (name, standard, file) in [
        ("cc", "-std=c99", "twice.c"),
        ("c++", "-std=c++11", "twice.cpp"),
    ] {
        std::fs::write(scratch(file), text).expect("a file beside the tests");
        let mut check = compiler(name, standard);
        run(check.arg("-fsyntax-only").arg(scratch(file)));
    }
}

#[test]
fn the_header_has_the_crates_numbers() {
    let header = std::fs::read_to_string(package().join("include/station.h")).expect("the header");
    let constants = [
        ("SECTOR", station::SECTOR.to_string()),
        ("LEDGER", station::LEDGER.to_string()),
        ("STAMP", station::STAMP.to_string()),
        ("TIME", station::TIME.to_string()),
        ("MOST_VIEWED", station::MOST_VIEWED.to_string()),
        ("MOST_EXTENTS", station::MOST_EXTENTS.to_string()),
        ("MOST_SECTORS", station::MOST_SECTORS.to_string()),
        ("LIMIT", station::LIMIT.to_string()),
        ("UNUSED", format!("0x{:X}u", station::UNUSED)),
    ];
    for (name, value) in constants {
        let line = format!("#define STATION_{name} {value} ");
        assert!(header.contains(&line), "{line}");
    }
    let refusals = Refusal::ALL.map(|refusal| (c_name(refusal), refusal.number()));
    let roles = Role::ALL.map(|role| (format!("ROLE_{}", c_name(role)), role.number().into()));
    for (name, number) in refusals.into_iter().chain(roles) {
        let line = format!("    STATION_{name} = {number}");
        let found = header
            .lines()
            .any(|held| held.trim_end_matches(',') == line);
        assert!(found, "{line}");
    }
}

/// `DiscSize` is DISC_SIZE in C.
fn c_name(case: impl Debug) -> String {
    let mut name = String::new();
    for letter in format!("{case:?}").chars() {
        if letter.is_uppercase() && !name.is_empty() {
            name.push('_');
        }
        name.push(letter.to_ascii_uppercase());
    }
    name
}
