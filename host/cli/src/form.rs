//! The disc file: the form of document 01's listing program, with up to 360,000
//! sectors. "The sector count, right-justified in 8 columns; newline; one digit
//! 0 to 3 a sector; newline; the image", and nothing else.

use std::fs::File;
use std::io::{self, ErrorKind};
use std::os::unix::fs::FileExt;
use std::path::Path;

use memmap2::MmapMut;
use station::{Sector, MOST_SECTORS, SECTOR};

use crate::failure::Failure;
use crate::kinds::BLANK;
use crate::mapping;

/// The sector count's columns and its newline.
const HEAD: usize = 9;

/// Image and kinds, as the core is lent them. What the core records in them is
/// not in the file yet.
pub struct Disc {
    file: MmapMut,
    kinds: Vec<u8>,
    /// How many sectors are recorded in the file.
    recorded: usize,
}

impl Disc {
    /// The disc in an open file; the name is for the message.
    pub fn load(file: &File, name: &Path) -> Result<Disc, Failure> {
        match read_form(file, name) {
            Ok(Ok(disc)) => Ok(disc),
            Ok(Err(reason)) => Err(Failure::NoDisc(name.to_path_buf(), reason)),
            Err(error) => Err(Failure::unreadable(name, error)),
        }
    }

    /// Bytes of the whole file.
    pub fn length(&self) -> u64 {
        self.file.len() as u64
    }

    pub fn lent(&self) -> (&[u8], &[u8]) {
        (&self.file[image_place(self.kinds.len())..], &self.kinds)
    }

    pub fn lent_to_record(&mut self) -> (&mut [u8], &mut [u8]) {
        let image = image_place(self.kinds.len());
        (&mut self.file[image..], &mut self.kinds)
    }

    /// How many sectors there are up to the last one that is not blank: of a sound
    /// disc, the recorded ones.
    pub fn used(&self) -> usize {
        let last = self.kinds.iter().rposition(|kind| *kind != BLANK);
        last.map_or(0, |last| last + 1)
    }

    /// As it is in the file: "Bytes of a sector whose kind is not 1 mean nothing."
    pub fn take_back(&mut self) {
        self.kinds[self.recorded..].fill(BLANK);
    }

    /// The sectors that are recorded here and not yet in the file, ascending.
    pub fn newly_recorded(&self) -> impl Iterator<Item = Sector<'_>> {
        let (image, kinds) = self.lent();
        station::recorded_since(image, kinds, self.recorded)
    }

    /// Where in the file the digit of the first of these sectors stands.
    pub fn new_digits_place(&self) -> u64 {
        (HEAD + self.recorded) as u64
    }

    /// Where in the file a sector's bytes stand.
    pub fn sector_place(&self, block: u32) -> u64 {
        sector_place(self.kinds.len(), block as usize)
    }
}

/// The two lines before the image, of a disc whose first sectors are data and
/// the others blank.
pub fn lines(data: usize, sectors: usize) -> String {
    let (data, blank) = ("1".repeat(data), "0".repeat(sectors - data));
    format!("{sectors:8}\n{data}{blank}\n")
}

/// Bytes of a whole disc file.
pub fn whole_length(sectors: usize) -> u64 {
    sector_place(sectors, sectors)
}

/// Where in a disc file of so many sectors the bytes of one stand.
pub fn sector_place(sectors: usize, block: usize) -> u64 {
    (image_place(sectors) + block * SECTOR) as u64
}

fn image_place(sectors: usize) -> usize {
    HEAD + sectors + 1
}

/// The digit of a kind.
pub fn digit(kind: u8) -> u8 {
    kind + b'0'
}

/// How many of a thing, in words, for example `1 sector`, `360,000 sectors`.
pub fn counted(count: usize, thing: &str) -> String {
    match count {
        1 => format!("1 {thing}"),
        _ => format!("{} {thing}s", number(count)),
    }
}

/// A count, for example `360,000`. What is typed, and what names a place, has no commas.
pub fn number(count: usize) -> String {
    let digits = count.to_string();
    let mut text = String::new();
    for (place, digit) in digits.chars().enumerate() {
        if place > 0 && (digits.len() - place) % 3 == 0 {
            text.push(',');
        }
        text.push(digit);
    }
    text
}

/// So many bytes, as `--offset` and other programs have them: without commas.
pub fn bytes(count: usize) -> String {
    let plural = if count == 1 { "" } else { "s" };
    format!("{count} byte{plural}")
}

/// Whether a file starts as a disc file does.
pub fn has_the_first_line(file: &File) -> io::Result<bool> {
    read_count(file).map(|count| count.is_some())
}

/// The sector count, if the first line is one.
fn read_count(file: &File) -> io::Result<Option<usize>> {
    let mut head = [0; HEAD];
    match file.read_exact_at(&mut head, 0) {
        Err(error) if error.kind() == ErrorKind::UnexpectedEof => Ok(None),
        read => read.map(|()| sector_count(&head)),
    }
}

/// The disc, or why the file has another form.
fn read_form(file: &File, name: &Path) -> io::Result<Result<Disc, String>> {
    let length = file.metadata()?.len();
    let Some(sectors) = read_count(file)? else {
        let reason = "its first line is not a sector count from 1 to 360000 in 8 columns";
        return Ok(Err(reason.into()));
    };
    let whole = whole_length(sectors);
    if length != whole {
        let sectors = counted(sectors, "sector");
        let reason = format!("it has {length} bytes, and with {sectors} it has {whole}");
        return Ok(Err(reason));
    }
    let file = mapping::copy_on_write(file, whole as usize, name)?;
    Ok(match kinds_of(&file[HEAD..image_place(sectors)]) {
        Some(kinds) => Ok(Disc {
            recorded: station::recorded(&kinds),
            file,
            kinds,
        }),
        None => Err("its second line is not one digit 0 to 3 a sector".into()),
    })
}

/// The kinds in the second line, if it is one. Every digit is looked at, without
/// leaving at the first wrong one: that is many times as fast.
fn kinds_of(line: &[u8]) -> Option<Vec<u8>> {
    let (newline, digits) = line.split_last()?;
    let kind = |digit: &u8| digit.wrapping_sub(b'0');
    let kinds: Vec<u8> = digits.iter().map(kind).collect();
    let highest = kinds.iter().copied().fold(0, u8::max);
    (*newline == b'\n' && highest <= 3).then_some(kinds)
}

/// Spaces, then digits without a leading zero, then a newline.
fn sector_count(head: &[u8]) -> Option<usize> {
    let columns = std::str::from_utf8(head.strip_suffix(b"\n")?).ok()?;
    let digits = columns.trim_start_matches(' ');
    let plain = digits.bytes().all(|byte| byte.is_ascii_digit()) && !digits.starts_with('0');
    if columns.len() + 1 != HEAD || !plain {
        return None;
    }
    let count = digits.parse().ok()?;
    (1..=MOST_SECTORS).contains(&count).then_some(count)
}

#[cfg(test)]
mod tests {
    use super::{bytes, counted, number};

    #[test]
    fn counts_in_words() {
        let told = [0, 999, 1000, 360_000, 1_234_567].map(number);
        assert_eq!(told, ["0", "999", "1,000", "360,000", "1,234,567"]);
        let told = [0, 1, 1500].map(|count| counted(count, "sector"));
        assert_eq!(told, ["0 sectors", "1 sector", "1,500 sectors"]);
        assert_eq!([1, 1500].map(bytes), ["1 byte", "1500 bytes"]);
    }
}
