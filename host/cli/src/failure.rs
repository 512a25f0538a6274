//! What can go wrong, with the words for standard error and the exit status.

use std::fmt;
use std::io::{self, ErrorKind};
use std::path::{Path, PathBuf};

use station::Refusal;

use crate::names::{folder_of, shown};

/// Why no file is made.
pub const THERE_ALREADY: &str = "it is there already";

/// What a command comes to, or a part of one that answers nothing.
pub type Done = Result<(), Failure>;

/// Why a command was not done. Exit statuses from 64 on are those of
/// `sysexits.h`; below them a status is a refusal's number.
pub enum Failure {
    /// The command line is wrong; the command whose help tells more, or none.
    Usage(String, &'static str),
    /// The command may lose what somebody needs, and wants another word for it; which
    /// one, and when to type it.
    Unsure(String),
    /// The file has not the form of a disc file, and why.
    NoDisc(PathBuf, String),
    /// The file has not the form of a raw image, and why.
    NoImage(PathBuf, String),
    /// The file, or standard input, holds no run, and why.
    NoRun(PathBuf, String),
    /// A file cannot be read.
    Unreadable(PathBuf, io::Error),
    /// A file cannot be made or replaced, and why.
    Unwritable(PathBuf, String),
    /// The answer cannot be written to standard output, or what is told beside it
    /// to standard error.
    Output(io::Error),
    /// The command is done, and this, its answer, cannot be written to standard output.
    Untold(String, io::Error),
    /// The disc's roles are not known; what is to be done, where it has no save either.
    RolesUnknown(PathBuf, Option<String>),
    /// The core refused; why, and what to do, in a sentence or two.
    Refused(Refusal, String),
}

impl Failure {
    pub fn unreadable(file: &Path, error: io::Error) -> Failure {
        Failure::Unreadable(file.to_path_buf(), error)
    }

    pub fn unwritable(file: &Path, reason: impl Reason) -> Failure {
        Failure::Unwritable(file.to_path_buf(), reason.of(file))
    }

    pub fn status(&self) -> u8 {
        match self {
            Failure::Usage(..) | Failure::Unsure(_) => 64,
            Failure::NoDisc(..) | Failure::NoImage(..) | Failure::NoRun(..) => 65,
            Failure::Unreadable(..) => 66,
            Failure::RolesUnknown(..) => 69,
            Failure::Unwritable(..) => 73,
            Failure::Output(_) | Failure::Untold(..) => 74,
            Failure::Refused(refusal, _) => refusal.number() as u8,
        }
    }

    /// Whether a reader has closed the pipe that the answer went into: it has seen
    /// enough, as `head` does, and nothing is wrong.
    pub fn is_closed_pipe(&self) -> bool {
        match self {
            Failure::Output(error) | Failure::Untold(_, error) => {
                error.kind() == ErrorKind::BrokenPipe
            }
            _ => false,
        }
    }
}

/// Whole lines, each with its newline.
impl fmt::Display for Failure {
    fn fmt(&self, out: &mut fmt::Formatter) -> fmt::Result {
        match self {
            Failure::Usage(fault, command) => {
                let space = if command.is_empty() { "" } else { " " };
                writeln!(out, "station: {fault}")?;
                writeln!(out, "Try 'station{space}{command} --help'.")
            }
            Failure::Unsure(text) => writeln!(out, "station: {text}"),
            Failure::NoDisc(file, reason) => {
                writeln!(out, "station: {} is no disc: {reason}", shown(file))
            }
            Failure::NoImage(file, reason) => {
                let file = shown(file);
                writeln!(out, "station: {file} is no raw image of a disc: {reason}")
            }
            Failure::NoRun(file, reason) => {
                writeln!(out, "station: {} is no run: {reason}", shown(file))
            }
            Failure::Unreadable(file, error) => {
                writeln!(out, "station: {}", unreadable(&shown(file), error))
            }
            Failure::Unwritable(file, reason) => {
                writeln!(out, "station: {} cannot be written: {reason}", shown(file))
            }
            Failure::RolesUnknown(disc, None) => {
                let disc = shown(disc);
                writeln!(
                    out,
                    "station: where the space of {disc} went since it was begun or mounted is not \
                     known; --back 0 tells it of the newest save, and changes nothing"
                )
            }
            Failure::RolesUnknown(disc, Some(todo)) => {
                let disc = shown(disc);
                writeln!(
                    out,
                    "station: where the space of {disc} went is not known. {todo}"
                )
            }
            Failure::Output(error) => {
                let error = system_words(error);
                writeln!(out, "station: no answer can be told: {error}")
            }
            Failure::Untold(done, error) => {
                let error = system_words(error);
                let done_all_the_same =
                    "this is done, but standard output does not take the answer";
                writeln!(out, "station: {done_all_the_same}: {error}")?;
                write!(out, "{done}")
            }
            Failure::Refused(refusal, sentence) => {
                writeln!(out, "station: refusal {}: {sentence}", refusal.number())
            }
        }
    }
}

fn unreadable(file: &dyn fmt::Display, error: &io::Error) -> String {
    match error.kind() {
        ErrorKind::NotFound | ErrorKind::NotADirectory => no_file(file),
        ErrorKind::PermissionDenied => format!("{file} may not be read"),
        _ => format!("{file} cannot be read: {}", system_words(error)),
    }
}

fn no_file(file: &dyn fmt::Display) -> String {
    format!("there is no file or folder {file}")
}

/// What the system says, without the number that it has for it; in the words of the other
/// messages where they have some.
pub fn system_words(error: &io::Error) -> String {
    match error.kind() {
        ErrorKind::IsADirectory => "it is a folder".into(),
        ErrorKind::StorageFull => "its disk is full".into(),
        _ => {
            let text = error.to_string();
            let words = text.split(" (os error ").next();
            words.unwrap_or_default().into()
        }
    }
}

/// Why a file cannot be written.
pub trait Reason {
    fn of(self, file: &Path) -> String;
}

impl Reason for &str {
    fn of(self, _: &Path) -> String {
        self.into()
    }
}

impl Reason for String {
    fn of(self, _: &Path) -> String {
        self
    }
}

/// Where a file is made, it is the folder that is missing, or none, or protected.
impl Reason for io::Error {
    fn of(self, file: &Path) -> String {
        let folder = folder_of(file);
        match self.kind() {
            ErrorKind::AlreadyExists => THERE_ALREADY.into(),
            ErrorKind::NotFound if !folder.exists() => no_file(&shown(folder)),
            ErrorKind::NotFound => "it is not there, and cannot be made".into(),
            ErrorKind::NotADirectory => format!("{} is no folder", shown(folder)),
            ErrorKind::PermissionDenied => "it or its folder is write-protected".into(),
            ErrorKind::ReadOnlyFilesystem => "its disk is write-protected".into(),
            _ => system_words(&self),
        }
    }
}
