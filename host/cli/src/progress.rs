//! The line that tells somebody who waits how far a long command is. It stands on
//! standard error, is written over by the next one, and goes at the end.

use std::io::{stderr, Write};
use std::time::{Duration, Instant};

/// A command that takes no longer tells nothing, and another line comes after as long.
const BETWEEN: Duration = Duration::from_millis(300);

const MEGABYTE: u64 = 1_000_000;

/// How far a command is with so many bytes.
pub struct Progress {
    /// Missing if nobody watches.
    out: Option<Box<dyn Write>>,
    /// How many there are, if that is known.
    bytes: Option<u64>,
    next: Instant,
    /// Letters of the line that is shown.
    shown: usize,
}

impl Progress {
    pub fn of(bytes: Option<u64>, watched: bool) -> Progress {
        let out = watched.then(|| Box::new(stderr()) as Box<dyn Write>);
        Progress::on(out, bytes, BETWEEN)
    }

    /// For a command that nobody waits for.
    pub fn unseen() -> Progress {
        Progress::of(None, false)
    }

    fn on(out: Option<Box<dyn Write>>, bytes: Option<u64>, between: Duration) -> Progress {
        Progress {
            out,
            bytes,
            next: Instant::now() + between,
            shown: 0,
        }
    }

    /// So many bytes are done; `what` says what is done with them. What comes behind
    /// the last of them is short.
    pub fn tell(&mut self, done: u64, what: &str) {
        let all = self.bytes.is_some_and(|bytes| done > bytes);
        if all || self.out.is_none() || Instant::now() < self.next {
            return;
        }
        self.next = Instant::now() + BETWEEN;
        let done = done / MEGABYTE;
        let of = match self.bytes {
            Some(bytes) => format!(" of {}", bytes / MEGABYTE),
            None => String::new(),
        };
        self.show(&format!("{done}{of} MB {what}"));
    }

    /// What takes a while, and does not say how long; not where nothing has been told.
    pub fn tell_waiting(&mut self, what: &str) {
        if self.shown > 0 {
            self.show(what);
        }
    }

    fn show(&mut self, line: &str) {
        let width = self.shown;
        self.shown = line.len();
        if let Some(out) = &mut self.out {
            // The command goes on, also where nobody can be told.
            let _ = write!(out, "\r{line:width$}");
            let _ = out.flush();
        }
    }

    /// Nothing of it is left on the screen.
    pub fn end(&mut self) {
        if self.shown > 0 {
            self.show("");
            self.show("");
        }
    }
}

impl Drop for Progress {
    fn drop(&mut self) {
        self.end();
    }
}

#[cfg(test)]
mod tests {
    use std::cell::RefCell;
    use std::io::{self, Write};
    use std::rc::Rc;
    use std::time::Duration;

    use super::{Progress, BETWEEN};

    #[derive(Clone, Default)]
    struct Screen(Rc<RefCell<Vec<u8>>>);

    impl Write for Screen {
        fn write(&mut self, bytes: &[u8]) -> io::Result<usize> {
            self.0.borrow_mut().write(bytes)
        }

        fn flush(&mut self) -> io::Result<()> {
            Ok(())
        }
    }

    /// What is written while 8 of 12 MB are recorded at once, by a line after each.
    fn written(bytes: Option<u64>, first: Duration) -> String {
        let screen = Screen::default();
        let mut progress = Progress::on(Some(Box::new(screen.clone())), bytes, first);
        for megabytes in 1..=8 {
            progress.tell(megabytes * 1_000_000 + 999, "recorded");
        }
        progress.tell_waiting("flushed");
        drop(progress);
        let written = screen.0.borrow().clone();
        String::from_utf8(written).expect("text")
    }

    /// The first at once, the others too early; each as wide as the one before, and at
    /// the end nothing.
    #[test]
    fn a_line_that_is_written_over() {
        let some = written(Some(12_345_678), Duration::ZERO);
        let line = "\r1 of 12 MB recorded";
        assert_eq!(some, format!("{line}\r{:19}\r{:7}\r", "flushed", ""));
        assert!(written(None, Duration::ZERO).starts_with("\r1 MB recorded\r"));
        assert_eq!(written(None, BETWEEN), "");
    }

    #[test]
    fn nobody_watches() {
        let mut progress = Progress::unseen();
        progress.tell(7, "recorded");
        assert_eq!(progress.shown, 0);
    }
}
