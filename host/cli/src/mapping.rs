//! A file's bytes in memory without reading the file: only the pages that are
//! looked at are fetched. A page that is changed becomes a copy of the
//! program's own, so the file stays as it is.

use std::fs::File;
use std::io;
use std::path::Path;
use std::sync::OnceLock;

use memmap2::{Mmap, MmapMut, MmapOptions};

use crate::failure::Failure;

/// What is told if a page is not there any more, and the exit status.
static TOLD: OnceLock<(String, i32)> = OnceLock::new();

/// The first bytes of a file, so many that it has.
pub fn copy_on_write(file: &File, length: usize, name: &Path) -> io::Result<MmapMut> {
    tell_if_shorter(name);
    // SAFETY: no other command writes to the file, which is locked. Bytes that
    // another program changes are read before or after the change: the core,
    // which is lent them, is defined for all contents. A page that is cut off
    // ends this program, below.
    unsafe { MmapOptions::new().len(length).map_copy(file) }
}

/// All bytes of a file, only to be looked at.
pub fn looked_at(file: &File, name: &Path) -> io::Result<Mmap> {
    tell_if_shorter(name);
    // SAFETY: as above, but that nobody may have locked the file.
    unsafe { MmapOptions::new().map(file) }
}

/// The system sends a signal to a program that looks at a page that the file no
/// longer has. Without this, it would end the program without a word.
fn tell_if_shorter(name: &Path) {
    TOLD.get_or_init(|| {
        let cause = io::Error::other("it became shorter meanwhile, or its disk fails");
        let failure = Failure::unreadable(name, cause);
        (failure.to_string(), failure.status().into())
    });
    let handler = page_is_gone as extern "C" fn(libc::c_int);
    // SAFETY: the handler calls only what a handler may call.
    unsafe { libc::signal(libc::SIGBUS, handler as libc::sighandler_t) };
}

extern "C" fn page_is_gone(_: libc::c_int) {
    let (text, status) = TOLD
        .get()
        .map_or(("", 66), |(text, status)| (text, *status));
    // SAFETY: the text is alive; both calls are allowed in a handler, and the
    // second does not come back.
    unsafe {
        libc::write(libc::STDERR_FILENO, text.as_ptr().cast(), text.len());
        libc::_exit(status);
    }
}

#[cfg(test)]
mod tests {
    use std::env;
    use std::fs::{self, File, OpenOptions};
    use std::process::{self, Command};

    use super::copy_on_write;

    const NAME: &str = "STATION_SHORTER_FILE";
    const PAGES: usize = 5 * 4096;

    /// The signal ends the program, so this test runs itself once more.
    #[test]
    fn a_file_that_becomes_shorter() {
        if let Some(path) = env::var_os(NAME) {
            let file = File::open(&path).expect("the file");
            let map = copy_on_write(&file, PAGES, path.as_ref()).expect("mapped");
            let shorter = OpenOptions::new().write(true).open(&path);
            shorter.and_then(|file| file.set_len(9)).expect("shorter");
            println!("read {}", map[PAGES - 1]);
            return;
        }
        let path = env::temp_dir().join(format!("station-shorter-{}", process::id()));
        fs::write(&path, [7; PAGES]).expect("a file");
        let mut itself = Command::new(env::current_exe().expect("this program"));
        itself.args(["--exact", "mapping::tests::a_file_that_becomes_shorter"]);
        let output = itself.env(NAME, &path).output().expect("an end");
        fs::remove_file(&path).expect("the file");
        let told = String::from_utf8_lossy(&output.stderr);
        assert_eq!(output.status.code(), Some(66), "{output:?}");
        assert!(told.contains("it became shorter meanwhile"), "{told}");
    }

    /// What is changed in memory is not changed in the file.
    #[test]
    fn a_page_that_is_changed() {
        let path = env::temp_dir().join(format!("station-mapped-{}", process::id()));
        fs::write(&path, [7; PAGES]).expect("a file");
        let file = File::open(&path).expect("the file");
        let mut map = copy_on_write(&file, PAGES, &path).expect("mapped");
        map[4096..].fill(8);
        map.flush().expect("nothing to write");
        let kept = fs::read(&path).expect("the file");
        fs::remove_file(&path).expect("the file");
        assert!(kept == [7; PAGES] && map[4095..4097] == [7, 8]);
    }
}
