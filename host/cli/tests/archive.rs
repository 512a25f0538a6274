//! What the scripts at the top tell while the archive is made: a line for each crate, and
//! the rest in a log, which is named if something fails. Another program stands for `rt`.

mod common;

use std::fs;
use std::os::unix::fs::PermissionsExt;

use common::Folder;

const SETUP: &str = concat!(env!("CARGO_MANIFEST_DIR"), "/../setup.sh");

/// As `rt lib --cpu x86-64`, in crates/station, tells it.
const TOLD: &str = "\
rt: chose --jobs 2 for le
fn le::read16: proved
logic=proved functions=21 sum=dac8208d650f15bf
rt: chose --jobs 2 for vat
fn vat::sector::record: proved
logic=proved functions=40 sum=dac8208d650f15bf
rt: chose --jobs 2 for station
fn station::station_read: proved";

const CRATES: &str = "# One line a crate\nle:\nvat: le\nlist: le vat\nstation staticlib: le vat\n";

/// A folder with crates, in which `rt` tells this and ends so.
fn told_by(end: &str) -> String {
    let folder = Folder::new();
    folder.put("crates.txt", CRATES.as_bytes());
    fs::create_dir_all(folder.path("crates/station/out")).expect("a folder");
    let rt = format!("#!/bin/sh\ncat << 'TOLD'\n{TOLD}\nTOLD\n{end}\n");
    folder.put("rt", rt.as_bytes());
    let runs = fs::Permissions::from_mode(0o755);
    fs::set_permissions(folder.path("rt"), runs).expect("permissions");
    let script = format!("set -eu; PATH=$PWD:$PATH; . {SETUP}; fresh_archive; echo made");
    let told = folder.shell(&format!("bash -c '{script}'; echo $?"));
    assert!(folder
        .bytes("host/target/archive.log")
        .starts_with(TOLD.as_bytes()));
    told
}

#[test]
fn a_line_for_each_crate() {
    let archive = "crates/station/out/libstation.a";
    let told = told_by("echo 'logic=proved functions=13 sum=dac8208d650f15bf'");
    let lines = "proved 1 of 3: le (0 s)\nproved 2 of 3: vat (0 s)\n";
    let last = format!("proved 3 of 3: station, and made {archive}\nmade\n0\n");
    assert_eq!(told, format!("{lines}{last}"));
}

#[test]
fn a_log_that_is_named() {
    let told = told_by("echo 'error: station_read is not proved' >&2; exit 1");
    let named = "The archive is not made. All that rt told is in host/target/archive.log; \
                 its last lines:\n";
    assert!(told.contains(named), "{told}");
    let last = "fn station::station_read: proved\nerror: station_read is not proved\n1\n";
    assert!(told.ends_with(last), "{told}");
}
