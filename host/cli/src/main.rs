//! `station`: a disc kept in a file, and on it the calls of the recording core,
//! runs longer than a block, the listing, where the space went, a simulated power
//! cut, and raw images for other decks.
//!
//! The program keeps no rule of the disc itself: it lends files to the core and
//! tells what the core answers. Each room uses only those below it:
//!
//! - `commands`: the command line;
//! - `calls`, `cut`, `demo`, `explain`, `images`: what the commands do;
//! - `contents`, `listing`, `space`, `status`, `viewing`: of those that only tell;
//! - `looking`: the save that a command looks at; `beginning`: what a begin asks before it;
//! - `storing`, `writing`, `closing`: the calls that record, whole or to be cut;
//! - `streaming`: a run that comes as a stream, before it is stored;
//! - `reasons`: why the core refused, in an operator's words;
//! - `first_save`: what leads to one on a disc that has none; `room`: the room on a disc;
//! - `older`: a ledger that an older edition kept;
//! - `session`: disc, roles and ledger of one command;
//! - `keeping`: the order in which they are kept;
//! - `surroundings`: the streams and the disk that a command is given;
//! - `disk`: the steps of keeping, on files;
//! - `making`: a file where there is none, a disc's or another, and what may be replaced;
//! - `parts`: making and replacing a file in one step, and what a killed command left;
//! - `files`: names and locks;
//! - `times`: when a save was made, in words;
//! - `unsaved`: what a ledger has and no save has yet;
//! - `saves`: every save of a disc, newest first;
//! - `finding`: what another deck's image seems to be;
//! - `drawing`: a disc drawn, by the roles of its sectors;
//! - `runs`: the entries of runs, the numbers in use, and the parts of their runs;
//! - `roles`: the role file's form; `mark`: the ledger file's;
//! - `ledger`: what the ledger says; `icb`: where a run or a table lies;
//! - `form`: the disc file's form; `kinds`: what a sector is;
//! - `arguments`, `syntax`, `help`, `nearly`: the words of a command line;
//! - `stamps`: the time that a save is to carry; `calendar`: dates;
//! - `mapping`, `lock`, `clock`, `screen`, `zone`: what is asked of the system;
//! - `progress`: how far a long command is;
//! - `failure`: what can go wrong, in words and as an exit status; `advice`: each refusal
//!   explained;
//! - `names`: a file's name as it is shown, and its folder.

#![deny(unsafe_code)]

mod advice;
mod arguments;
mod beginning;
mod calendar;
mod calls;
#[allow(unsafe_code)]
mod clock;
mod closing;
mod commands;
mod contents;
#[cfg(test)]
mod crashes;
mod cut;
mod demo;
mod disk;
mod drawing;
mod explain;
mod failure;
mod files;
mod finding;
mod first_save;
mod form;
mod help;
mod icb;
mod images;
mod keeping;
mod kinds;
mod ledger;
mod listing;
#[allow(unsafe_code)]
mod lock;
mod looking;
mod making;
#[allow(unsafe_code)]
mod mapping;
mod mark;
mod names;
mod nearly;
mod older;
mod parts;
mod progress;
mod reasons;
mod roles;
mod room;
mod runs;
mod saves;
#[allow(unsafe_code)]
mod screen;
mod session;
mod space;
mod stamps;
mod status;
mod storing;
mod streaming;
mod surroundings;
mod syntax;
mod times;
mod unsaved;
mod viewing;
mod writing;
mod zone;

use std::env;
use std::ffi::OsString;
use std::io::{self, IsTerminal, Write};
use std::os::fd::AsFd;
use std::process::ExitCode;

use failure::Failure;
use screen::Screen;
use surroundings::Surroundings;

fn main() -> ExitCode {
    let words: Vec<OsString> = env::args_os().skip(1).collect();
    let mut around = Surroundings {
        input: &mut io::stdin(),
        input_length: files::left_in(io::stdin().as_fd()),
        typed: io::stdin().is_terminal(),
        output: &mut io::stdout(),
        screen: Screen::of_output(),
        aside: &mut io::stderr(),
        watched: io::stderr().is_terminal(),
        disk: &|files| Box::new(files),
    };
    let outcome = commands::run(&words, &mut around);
    let outcome = outcome.and(io::stdout().flush().map_err(Failure::Output));
    match outcome {
        Ok(()) => ExitCode::SUCCESS,
        Err(failure) if failure.is_closed_pipe() => ExitCode::SUCCESS,
        Err(failure) => {
            // In one piece, beside what others write there. With standard error closed,
            // the exit status still tells.
            let _ = io::stderr().write_all(failure.to_string().as_bytes());
            ExitCode::from(failure.status())
        }
    }
}
