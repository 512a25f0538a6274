//! Files that are made where there is none, each in one step, and what an operator may
//! have replaced: never a disc, nor what lies beside one.

use std::fs::{self, File, OpenOptions};
use std::io::{self, ErrorKind, Write};
use std::os::unix::ffi::OsStrExt;
use std::path::{Path, PathBuf};

use crate::failure::{Done, Failure, THERE_ALREADY};
use crate::files::{flush_folder, lock_folder, remove, Place};
use crate::form;
use crate::names::{folder_of, shown};
use crate::parts::{is_part, replace, was_left, Part};

/// Makes a disc file whose first sectors are data, for `fill` to write, and the
/// others blank. `tell` is called if another command has to end first.
pub fn make_disc(
    path: &Path,
    data: usize,
    sectors: usize,
    tell: &mut dyn FnMut(),
    fill: impl FnOnce(&Part) -> Done,
) -> Done {
    let _lock = lock_folder(folder_of(path), tell)?;
    is_free(path)?;
    // It would be lent to the new disc, and belongs to another. Roles without their
    // ledger are believed by no command.
    if Place::named(path.to_path_buf()).ledger.exists() {
        return Err(Failure::unwritable(path, "its ledger is there already"));
    }
    make(path, form::whole_length(sectors), |part| {
        part.write_at(0, form::lines(data, sectors).as_bytes())?;
        fill(part)
    })
}

/// Makes a file of this length. What is not filled is a hole of zeros, which takes
/// no space and no time.
pub fn make(path: &Path, length: u64, fill: impl FnOnce(&Part) -> Done) -> Done {
    make_new(path, |part| {
        part.set_length(length)?;
        fill(part)
    })
}

/// Puts bytes where an operator asked for them, by `give`, which is told where each
/// piece goes: into a new file, or with `replaces` into one in place of another. A link
/// stays a link, and what is no file, such as a pipe or a device, is written to.
pub fn put(
    path: &Path,
    replaces: bool,
    give: impl FnOnce(&mut dyn FnMut(&[u8]) -> Done) -> Done,
) -> Done {
    let unwritable = |error: io::Error| Failure::unwritable(path, error);
    match fs::metadata(path) {
        Ok(about) if about.is_file() => {
            let real = fs::canonicalize(path).map_err(unwritable)?;
            may_replace(path, &real, replaces)?;
            replace(&real, |part| give(&mut |bytes| part.write(bytes)))
        }
        Ok(_) => {
            let opened = OpenOptions::new().write(true).open(path);
            let mut file = opened.map_err(unwritable)?;
            give(&mut |bytes| file.write_all(bytes).map_err(unwritable))
        }
        Err(_) => make_new(path, |part| give(&mut |bytes| part.write(bytes))),
    }
}

fn make_new(path: &Path, fill: impl FnOnce(&Part) -> Done) -> Done {
    is_free(path)?;
    let part = Part::make(path, fill)?;
    part.flush()?;
    part.take_free_name()?;
    let flushed = flush_folder(path);
    if flushed.is_err() {
        // The first error is the one to tell.
        let _ = fs::remove_file(path);
    }
    flushed
}

/// Whether no file has the name, before a long one is made for it. An empty file
/// beside one that was left in the making had the name only for that one.
fn is_free(path: &Path) -> Done {
    if let Some(disc) = disc_beside(path).filter(|disc| disc.exists()) {
        let reason = format!("the name is for what lies beside {}", shown(&disc));
        return Err(Failure::unwritable(path, reason));
    }
    let left = was_left(path);
    match fs::symlink_metadata(path) {
        Ok(about) if left && about.is_file() && about.len() == 0 => remove(path),
        Ok(_) => Err(Failure::unwritable(path, THERE_ALREADY)),
        Err(error) if error.kind() == ErrorKind::NotFound => Ok(()),
        Err(error) => Err(Failure::unwritable(path, error)),
    }
}

/// A file is replaced only if that is asked for, and if it is none that a slip of the
/// hand would lose a run with.
fn may_replace(path: &Path, real: &Path, replaces: bool) -> Done {
    let kept = kept(real).map_err(|error| Failure::unwritable(path, error))?;
    let reason = match (replaces, kept) {
        (true, None) => return Ok(()),
        (true, Some(what)) => format!("it is {what}, which --replace leaves alone"),
        (false, None) => format!("{THERE_ALREADY} (--replace replaces it)"),
        (false, Some(what)) => format!("{THERE_ALREADY}, and is {what}"),
    };
    Err(Failure::unwritable(path, reason))
}

/// What a file is that no command replaces with what it shows. A disc is one by its
/// first line, also where the rest of it is damaged; the others are by their names.
fn kept(file: &Path) -> io::Result<Option<&'static str>> {
    Ok(if form::has_the_first_line(&File::open(file)?)? {
        Some("a disc")
    } else if disc_beside(file).is_some() {
        Some("the ledger or the roles of a disc")
    } else {
        is_part(file).then_some("a file that another command makes")
    })
}

/// The disc that a file of this name would lie beside.
fn disc_beside(file: &Path) -> Option<PathBuf> {
    let place = Place::named(file.with_extension(""));
    let beside = [&place.ledger, &place.roles]
        .iter()
        .any(|name| name.as_os_str().as_bytes() == file.as_os_str().as_bytes());
    beside.then_some(place.disc)
}
