//! The commands: which function runs each, and the command line as a whole.

use std::ffi::OsString;
use std::path::Path;

use crate::arguments::{parse, Arguments, Asked};
use crate::calls;
use crate::contents::contents;
use crate::cut::cut;
use crate::demo;
use crate::explain::explain;
use crate::failure::{Done, Failure};
use crate::help;
use crate::images::{export, import};
use crate::listing::list;
use crate::names::shown;
use crate::nearly::nearest;
use crate::space;
use crate::status::status;
use crate::surroundings::{say, Surroundings};
use crate::syntax::{self, Syntax};
use crate::viewing::{read, view};

struct Command {
    syntax: &'static Syntax,
    run: fn(&Arguments, &mut Surroundings) -> Done,
}

const fn command(
    syntax: &'static Syntax,
    run: fn(&Arguments, &mut Surroundings) -> Done,
) -> Command {
    Command { syntax, run }
}

static COMMANDS: [Command; 23] = [
    command(&syntax::NEW, calls::new),
    command(&syntax::BEGIN, calls::begin),
    command(&syntax::MOUNT, calls::mount),
    command(&syntax::WRITE, calls::write),
    command(&syntax::STORE, calls::store),
    command(&syntax::RELEASE, calls::release),
    command(&syntax::CLOSE, calls::close),
    command(&syntax::COMMIT, calls::commit),
    command(&syntax::CLOSE_SESSION, calls::close_session),
    command(&syntax::READ, read),
    command(&syntax::VIEW, view),
    command(&syntax::LOOK_BACK, calls::look_back),
    command(&syntax::TIME, calls::time),
    command(&syntax::LIST, list),
    command(&syntax::STATUS, status),
    command(&syntax::CONTENTS, contents),
    command(&syntax::SPACE, space::space),
    command(&syntax::MAP, space::map),
    command(&syntax::IMPORT, import),
    command(&syntax::EXPORT, export),
    command(&syntax::CUT, cut),
    command(&syntax::EXPLAIN, explain),
    command(&syntax::DEMO, show_demo),
];

/// The demo plays whole command lines.
fn show_demo(given: &Arguments, around: &mut Surroundings) -> Done {
    demo::demo(given, around, run)
}

fn find(name: &str) -> Result<&'static Command, Failure> {
    let found = COMMANDS.iter().find(|command| command.syntax.name == name);
    found.ok_or_else(|| Failure::Usage(unknown(name), ""))
}

fn unknown(name: &str) -> String {
    if name.starts_with('-') {
        return format!("there is no option {name}");
    }
    let names = COMMANDS.iter().map(|command| command.syntax.name);
    match nearest(name, names) {
        Some(meant) => format!("there is no command {name}: did you mean {meant}?"),
        None => format!("there is no command {name}"),
    }
}

/// Runs one command line, without the program's name.
pub fn run(words: &[OsString], around: &mut Surroundings) -> Done {
    let Some((first, rest)) = words.split_first() else {
        return Err(Failure::Usage("a command is missing".into(), ""));
    };
    match shown(Path::new(first)).as_str() {
        word @ ("-h" | "--help" | "-V" | "--version") if !rest.is_empty() => {
            Err(Failure::Usage(format!("{word} stands alone"), ""))
        }
        "-h" | "--help" => say(around, help::told(help::PROGRAM)),
        "-V" | "--version" => say(around, concat!("station ", env!("CARGO_PKG_VERSION"), "\n")),
        name => {
            let command = find(name)?;
            match parse(command.syntax, rest)? {
                Asked::Help => say(around, help::told(command.syntax.help)),
                Asked::Run(given) => (command.run)(&given, around),
            }
        }
    }
}
