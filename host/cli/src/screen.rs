//! What answers are shown on: a terminal, of which the system is asked, or anything
//! else.

use std::env;
use std::io::{stdout, IsTerminal};
use std::os::fd::AsRawFd;

/// Of what does not tell its width.
const USUAL_WIDTH: usize = 80;

#[derive(Clone, Copy, Debug, PartialEq, Eq)]
pub struct Screen {
    pub colours: bool,
    /// How many letters a line has room for.
    pub width: usize,
}

impl Screen {
    /// A file or a pipe.
    pub const PLAIN: Screen = Screen {
        colours: false,
        width: USUAL_WIDTH,
    };

    /// Standard output. Somebody who sets NO_COLOR, to anything, wants no colours on
    /// a terminal either, and one that calls itself dumb has none.
    pub fn of_output() -> Screen {
        if !stdout().is_terminal() {
            return Screen::PLAIN;
        }
        let is_set = |name| env::var_os(name).is_some_and(|value| !value.is_empty());
        let dumb = env::var_os("TERM").is_none_or(|name| name == "dumb");
        Screen {
            colours: !is_set("NO_COLOR") && !dumb,
            width: terminal_width().unwrap_or(USUAL_WIDTH),
        }
    }
}

fn terminal_width() -> Option<usize> {
    // SAFETY: numbers of any value are a size.
    let mut size: libc::winsize = unsafe { std::mem::zeroed() };
    // SAFETY: the size is alive, and is what this question fills.
    let told = unsafe { libc::ioctl(stdout().as_raw_fd(), libc::TIOCGWINSZ, &mut size) };
    (told == 0 && size.ws_col > 0).then_some(usize::from(size.ws_col))
}
