//! What a raw image holds: the newest save, by the core, or what else it seems to be, by
//! its volume recognition sequence (ECMA-167 2/8.3) and the tags of its sectors.

use std::path::Path;

use station::{tag_checksum, LEDGER, SECTOR};

use crate::form::counted;
use crate::icb::FILE_TYPE;
use crate::kinds::DATA;
use crate::ledger::Map;
use crate::names::shown;

/// The volume recognition sequence starts in this sector, and has few.
const RECOGNITION: usize = 16;
const MOST_RECOGNISED: usize = 16;

/// How many tables are asked where their partition starts: one tells it, unless its
/// location is wrong.
const MOST_ASKED: usize = 8;

/// "file type 0" of a table.
const TABLE: u8 = 0;

/// Tag identifiers (ECMA-167 3/7.2.1 and 4/7.2.1).
const FILE_ENTRY: u16 = 261;
const EXTENDED_FILE_ENTRY: u16 = 266;

/// Those of an anchor, of a file set and of directories, tables aside: the core records
/// none of them before the first save.
const OF_OTHER_DECKS: [u16; 6] = [2, 256, 257, 259, 264, EXTENDED_FILE_ENTRY];

/// The descriptor version of UDF 2.00 and later.
const LATER_VERSION: u16 = 3;

/// What a mount of the image's partition will find, for the one who imports it as
/// this disc; with what to do if that is nothing.
pub fn told(image: &[u8], start: usize, disc: &Path) -> String {
    if let Some(map) = newest_save(image, start) {
        return format!("the newest save: {}\n", of_table(&map));
    }
    let disc = shown(disc);
    if let Some((other, map)) = other_start(image) {
        let table = of_table(&map);
        return format!(
            "no save is found from sector {start} on, but from sector {other} on: {table}\n\
             Import the image again with --start {other}, under another name than {disc}.\n"
        );
    }
    let hides = "our first save would hide them from every reader";
    match seeming(image) {
        Some(what) => format!(
            "no save is found: the image seems to be {what}\n\
             Its files cannot be read here. Do not begin {disc}: {hides}.\n"
        ),
        None => format!(
            "no save is found, and the image does not tell what it is\n\
             Look at the number behind --start again. If it is right, and another deck has files \
             there, do not begin {disc}: {hides}.\n"
        ),
    }
}

/// Whether sectors of a disc without a save have tags as other decks record them.
pub fn seems_another_decks(image: &[u8], kinds: &[u8]) -> bool {
    let sectors = image.chunks_exact(SECTOR).zip(kinds);
    let data = sectors.filter(|(_, kind)| **kind == DATA);
    let mut tags = data.filter_map(|(sector, _)| Tag::of(sector));
    tags.any(|tag| OF_OTHER_DECKS.contains(&tag.identifier) || tag.is_later())
}

fn of_table(map: &Map) -> String {
    let numbers = counted(map.size as usize, "number");
    format!("table at block {}, {numbers}", map.table)
}

/// What a mount finds on a disc that starts in this sector of the image.
fn newest_save(image: &[u8], start: usize) -> Option<Map> {
    let image = image.get(start * SECTOR..)?;
    let kinds = vec![DATA; image.len() / SECTOR];
    let (mut roles, mut ledger) = (vec![0; kinds.len()], [0; LEDGER]);
    station::mount(image, &kinds, &mut roles, &mut ledger).ok()?;
    Some(Map::of(&ledger))
}

/// "tag location = b": so a table in a sector tells where its partition starts. The
/// core has the last word.
fn other_start(image: &[u8]) -> Option<(usize, Map)> {
    let sectors = image.chunks_exact(SECTOR).enumerate().rev();
    let tables = sectors.filter_map(|(place, sector)| {
        let tag = Tag::of(sector).filter(|tag| tag.identifier == FILE_ENTRY)?;
        let start = place.checked_sub(tag.location as usize)?;
        (sector[FILE_TYPE] == TABLE).then_some(start)
    });
    let mut asked = tables.take(MOST_ASKED);
    asked.find_map(|start| Some((start, newest_save(image, start)?)))
}

/// In words, if the image tells it: by the names in its volume recognition sequence, and
/// where there is none, by its last tag.
fn seeming(image: &[u8]) -> Option<&'static str> {
    let names: Vec<&[u8]> = image
        .chunks_exact(SECTOR)
        .skip(RECOGNITION)
        .take(MOST_RECOGNISED)
        .map(|sector| &sector[1..6])
        .collect();
    let has = |name: &[u8; 5]| names.contains(&&name[..]);
    let last = image.chunks_exact(SECTOR).rev().find_map(Tag::of);
    if has(b"NSR03") || last.as_ref().is_some_and(Tag::is_later) {
        Some("UDF 2.00 or later, whose tables have another form")
    } else if has(b"NSR02") || has(b"BEA01") {
        Some("UDF 1.50 or earlier, without a table, as on hard disks and pressed discs")
    } else if has(b"CD001") {
        Some("ISO 9660, which has no tables")
    } else {
        let other = last.filter(|tag| OF_OTHER_DECKS.contains(&tag.identifier));
        other.map(|_| "a part of a UDF disc, without a table")
    }
}

/// What starts a descriptor: "tag identifier", "descriptor version", "tag location".
struct Tag {
    identifier: u16,
    version: u16,
    location: u32,
}

impl Tag {
    /// If the sector starts with one, by its checksum.
    fn of(sector: &[u8]) -> Option<Tag> {
        let sector: &[u8; SECTOR] = sector.try_into().ok()?;
        let word = |place: usize| u16::from_le_bytes([sector[place], sector[place + 1]]);
        let tag = Tag {
            identifier: word(0),
            version: word(2),
            location: u32::from(word(12)) | u32::from(word(14)) << 16,
        };
        let known = (1..=9).contains(&tag.identifier) || (256..=266).contains(&tag.identifier);
        (known && sector[4] == tag_checksum(sector) && sector[5] == 0).then_some(tag)
    }

    fn is_later(&self) -> bool {
        self.version == LATER_VERSION || self.identifier == EXTENDED_FILE_ENTRY
    }
}

#[cfg(test)]
mod tests {
    use super::{seeming, seems_another_decks, Tag, EXTENDED_FILE_ENTRY, FILE_ENTRY};
    use station::SECTOR;

    fn tagged(identifier: u16, version: u16) -> [u8; SECTOR] {
        let mut sector = [0; SECTOR];
        sector[..2].copy_from_slice(&identifier.to_le_bytes());
        sector[2..4].copy_from_slice(&version.to_le_bytes());
        sector[12] = 42;
        sector[4] = sector.iter().fold(0, |sum, byte| sum.wrapping_add(*byte));
        sector
    }

    /// Twenty sectors; these names from the sixteenth on, and this one last.
    fn image(names: &[&[u8; 5]], last: [u8; SECTOR]) -> Vec<u8> {
        let mut image = vec![0; 20 * SECTOR];
        for (place, name) in names.iter().enumerate() {
            image[(16 + place) * SECTOR + 1..][..5].copy_from_slice(*name);
        }
        [image, last.to_vec()].concat()
    }

    #[test]
    fn what_an_image_seems_to_be() {
        let nothing = [0; SECTOR];
        assert_eq!(seeming(&image(&[], nothing)), None);
        for (image, told) in [
            (image(&[b"CD001", b"CD001"], nothing), "ISO 9660"),
            (image(&[b"BEA01", b"NSR02", b"TEA01"], nothing), "UDF 1.50"),
            (image(&[b"BEA01", b"NSR03", b"TEA01"], nothing), "UDF 2.00"),
            (image(&[b"CD001", b"BEA01", b"NSR02"], nothing), "UDF 1.50"),
            (image(&[], tagged(FILE_ENTRY, 3)), "UDF 2.00"),
            (image(&[], tagged(EXTENDED_FILE_ENTRY, 2)), "UDF 2.00"),
            (image(&[], tagged(2, 2)), "a part of a UDF disc"),
        ] {
            let seems = seeming(&image).unwrap_or_default();
            assert!(seems.starts_with(told), "{seems}");
        }
    }

    #[test]
    fn tags_of_other_decks() {
        assert!(Tag::of(&tagged(256, 2)).is_some_and(|tag| tag.location == 42));
        let mut damaged = tagged(256, 2);
        damaged[4] += 1;
        for (sector, kind, theirs) in [
            (tagged(256, 2), 1, true),
            (tagged(256, 2), 0, false),
            (tagged(FILE_ENTRY, 2), 1, false),
            (tagged(FILE_ENTRY, 3), 1, true),
            (damaged, 1, false),
            ([0; SECTOR], 1, false),
        ] {
            assert_eq!(seems_another_decks(&sector, &[kind]), theirs);
        }
    }
}
