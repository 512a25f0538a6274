//! A run that comes as a stream. It is read before the disc is locked, since it may come
//! slowly, and waits in a file without a name: memory holds it only once it is recorded.

use std::fs::File;
use std::io::{self, BufReader, Cursor, Read, Seek, Write};
use std::path::Path;

use crate::failure::Failure;
use crate::files::{read_at_most, Place};
use crate::names::folder_of;
use crate::parts::Part;
use crate::progress::Progress;

/// What is read at a time. A run that is shorter waits in memory.
const PIECE: usize = 1 << 20;

/// The bytes of a run, and how many there are.
pub type Run = (Box<dyn Read>, usize);

/// At most so many bytes of a stream, to its end. The file is beside the disc, on the
/// disk that has to take the run, and not where temporary files are: that is memory on
/// many machines.
pub fn put_aside(
    stream: &mut dyn Read,
    name: &Path,
    most: usize,
    place: &Place,
    progress: &mut Progress,
) -> Result<Run, Failure> {
    let unreadable = |error| Failure::unreadable(name, error);
    let piece = read_at_most(stream, PIECE.min(most)).map_err(unreadable)?;
    if piece.len() < PIECE {
        let length = piece.len();
        return Ok((Box::new(Cursor::new(piece)), length));
    }
    let unwritable = |error: io::Error| Failure::unwritable(folder_of(&place.disc), error);
    // Nobody can open it by a name once there is something in it.
    let made = Part::make(&place.run, |_| Ok(())).and_then(Part::without_a_name);
    let mut file = made.map_err(|failure| of_the_folder(failure, place))?;
    file.write_all(&piece).map_err(unwritable)?;
    let mut length = piece.len();
    loop {
        let piece = read_at_most(stream, PIECE.min(most - length)).map_err(unreadable)?;
        if piece.is_empty() {
            break;
        }
        file.write_all(&piece).map_err(unwritable)?;
        length += piece.len();
        progress.tell(length as u64, "read");
    }
    file.rewind().map_err(unwritable)?;
    Ok((buffered(file), length))
}

/// Nobody has typed the file's name, and nobody sees it.
fn of_the_folder(failure: Failure, place: &Place) -> Failure {
    match failure {
        Failure::Unwritable(_, reason) => Failure::unwritable(folder_of(&place.disc), reason),
        other => other,
    }
}

pub fn buffered(file: File) -> Box<dyn Read> {
    Box::new(BufReader::new(file))
}
