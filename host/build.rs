//! Links the recording core: the archive `libstation.a`, from the folder that
//! STATION_ARCHIVE names, or from the repository's `crates/station/out`. The
//! repository's own must not be older than the core's sources.

use std::env;
use std::fs;
use std::io;
use std::path::{Path, PathBuf};
use std::process::exit;
use std::time::SystemTime;

/// What the archive is made from, in each crate's folder.
const SOURCES: [&str; 3] = ["src", "specs", "proofs"];

fn main() {
    let package = PathBuf::from(env::var_os("CARGO_MANIFEST_DIR").expect("cargo names it"));
    let repository = package.parent().expect("the package is a folder of it");
    let named = env::var_os("STATION_ARCHIVE").map(PathBuf::from);
    let is_foreign = named.is_some();
    // A path from the root means the same wherever a test runs.
    let named = named.map(|folder| package.join(folder));
    let folder = named.unwrap_or_else(|| repository.join("crates/station/out"));
    let folder = folder.canonicalize().unwrap_or(folder);
    let archive = folder.join("libstation.a");
    println!("cargo:rerun-if-env-changed=STATION_ARCHIVE");
    println!("cargo:rerun-if-changed={}", archive.display());
    if !archive.is_file() {
        refuse(&format!("missing: there is no {}", archive.display()));
    }
    if !is_foreign {
        refuse_if_stale(repository, &archive);
    }
    println!("cargo:rustc-link-search=native={}", folder.display());
    println!("cargo:rustc-link-lib=static=station");
    // The test of the C header links the same archive.
    println!(
        "cargo:rustc-env=STATION_ARCHIVE_FOLDER={}",
        folder.display()
    );
}

/// Cargo looks through a folder for changes too, so this runs again after each.
fn refuse_if_stale(repository: &Path, archive: &Path) {
    let made = changed(archive).expect("the archive's time");
    for source in sources(repository).expect("the crates of the core") {
        println!("cargo:rerun-if-changed={}", source.display());
        let newer = newer_than(made, &source).expect("the sources of the core");
        if let Some(newer) = newer {
            let (archive, newer) = (archive.display(), newer.display());
            refuse(&format!("stale: {archive} is older than {newer}"));
        }
    }
}

/// The list of crates and the folders with their sources, without those that
/// the checker keeps its work in.
fn sources(repository: &Path) -> io::Result<Vec<PathBuf>> {
    let mut found = vec![repository.join("crates.txt")];
    for entry in fs::read_dir(repository.join("crates"))? {
        let folder = entry?.path();
        let folders = SOURCES.map(|name| folder.join(name));
        found.extend(folders.into_iter().filter(|path| path.is_dir()));
    }
    Ok(found)
}

/// A file or folder, of those under the path, that changed after the time. A
/// folder changes when a file in it comes or goes.
fn newer_than(time: SystemTime, path: &Path) -> io::Result<Option<PathBuf>> {
    if changed(path)? > time {
        return Ok(Some(path.to_path_buf()));
    }
    if path.is_dir() {
        for entry in fs::read_dir(path)? {
            let newer = newer_than(time, &entry?.path())?;
            if newer.is_some() {
                return Ok(newer);
            }
        }
    }
    Ok(None)
}

fn changed(path: &Path) -> io::Result<SystemTime> {
    fs::symlink_metadata(path)?.modified()
}

fn refuse(cause: &str) -> ! {
    eprintln!("The recording core is {cause}. `rt lib --cpu x86-64`, in crates/station, makes it.");
    exit(1);
}
