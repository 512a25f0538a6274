//! A lock on an open file or folder. The standard library has one only from Rust
//! 1.89 on, so the system is asked here.

use std::fs::File;
use std::io::{self, ErrorKind};
use std::os::fd::AsRawFd;
use std::thread;
use std::time::{Duration, Instant};

/// Waiting that ends within it is not told: nobody would have time to read it.
const MOMENT: Duration = Duration::from_millis(300);
const BETWEEN_QUESTIONS: Duration = Duration::from_millis(5);

/// Gives the lock back before the file is closed.
pub fn release(file: &File) -> io::Result<()> {
    ask(file, libc::LOCK_UN)
}

/// Takes the lock if nobody has it, and says whether. It is held until the file is
/// closed, also by the end of a program that is killed.
pub fn take_if_free(file: &File) -> io::Result<bool> {
    match ask(file, libc::LOCK_EX | libc::LOCK_NB) {
        Err(error) if error.kind() == ErrorKind::WouldBlock => Ok(false),
        asked => asked.map(|()| true),
    }
}

/// Waits until nobody has the lock, and takes it. Waiting that lasts is told, before
/// the system is left to wake the program.
pub fn exclusive(file: &File, tell: &mut dyn FnMut()) -> io::Result<()> {
    let start = Instant::now();
    while start.elapsed() < MOMENT {
        if take_if_free(file)? {
            return Ok(());
        }
        thread::sleep(BETWEEN_QUESTIONS);
    }
    tell();
    ask(file, libc::LOCK_EX)
}

fn ask(file: &File, what: libc::c_int) -> io::Result<()> {
    loop {
        // SAFETY: two numbers are given, and the file is open.
        if unsafe { libc::flock(file.as_raw_fd(), what) } == 0 {
            return Ok(());
        }
        let error = io::Error::last_os_error();
        // A signal that the program outlives ends the waiting.
        if error.kind() != ErrorKind::Interrupted {
            return Err(error);
        }
    }
}
