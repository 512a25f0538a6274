//! What is around a command: where a block comes from, where answers go, and the
//! disk that keeps its files.

use std::io::{Read, Write};
use std::path::Path;

use crate::disk::{Disk, Files};
use crate::failure::{Done, Failure};
use crate::names::shown;
use crate::screen::Screen;

/// Of the terminal and the computer; the demo has its own input and output.
pub struct Surroundings<'a> {
    pub input: &'a mut dyn Read,
    /// How many bytes it has, where it is a file that tells so.
    pub input_length: Option<usize>,
    /// Whether the input is typed on a keyboard.
    pub typed: bool,
    pub output: &'a mut dyn Write,
    /// What the output is shown on.
    pub screen: Screen,
    /// For words that are no part of the answer.
    pub aside: &'a mut dyn Write,
    /// Whether somebody sees these words while the command works.
    pub watched: bool,
    pub disk: &'a dyn Fn(Files) -> Box<dyn Disk>,
}

/// Writes to standard output.
pub fn say(around: &mut Surroundings, text: impl AsRef<[u8]>) -> Done {
    let written = around.output.write_all(text.as_ref());
    written.map_err(Failure::Output)
}

/// Tells what a command has done. Where standard output does not take it, it is done all
/// the same, and that is told instead.
pub fn say_done(around: &mut Surroundings, text: String) -> Done {
    let written = around.output.write_all(text.as_bytes());
    written.map_err(|error| Failure::Untold(text, error))
}

/// Writes to standard error.
pub fn say_aside(around: &mut Surroundings, text: impl AsRef<[u8]>) -> Done {
    let written = around.aside.write_all(text.as_ref());
    written.map_err(Failure::Output)
}

/// What tells somebody who sees it that the command waits for another one, once. The
/// lock is the folder's, so the other may be on a disc beside this one.
pub fn waiting<'a, 'b>(
    disc: &'a Path,
    around: &'a mut Surroundings<'b>,
) -> impl FnMut() + use<'a, 'b> {
    let mut told = !around.watched;
    let aside = &mut *around.aside;
    move || {
        if !std::mem::replace(&mut told, true) {
            let disc = shown(disc);
            let text = format!("station: waiting for another command on {disc} or beside it\n");
            // Nobody waits less for not being told.
            let _ = aside.write_all(text.as_bytes());
        }
    }
}

/// What tells somebody at the keyboard that the command waits for him, and how to end.
pub fn ask_for(what: &str, around: &mut Surroundings) -> Done {
    match around.typed && around.watched {
        true => {
            let text = format!("station: reading {what} from the keyboard; end with Ctrl-D\n");
            say_aside(around, text)
        }
        false => Ok(()),
    }
}
