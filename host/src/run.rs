//! Runs longer than a block: their blocks, the entry that names these, and what
//! is viewed of them.

use crate::tag::put_tag;
use crate::{raw, second, Extent, Refusal, MOST_EXTENTS, SECTOR};

/// ECMA-167 4/14.9: a file entry's tag identifier, and where its allocation
/// descriptors start.
const FILE_ENTRY: u16 = 261;
const DESCRIPTORS: usize = 176;

/// Bytes of a short allocation descriptor: length and position.
const DESCRIPTOR: usize = 8;

/// User and group that are not given.
const NOBODY: u32 = u32::MAX;

/// All may read.
const PERMISSIONS: u32 = 0x1084;

/// Write unnumbered: records one data sector with the lent block, as
/// [`write`](crate::write) does, and sets no entry. Map and size stay, and mode
/// becomes 1. The answer is the block recorded. It is shown once a run's entry
/// names it.
///
/// # Errors
///
/// 1, 2, 3, 4, 5, 17, 14 and 15. It leaves as many blank sectors as a
/// [`write`](crate::write), and is done also where every number is in use.
pub fn write_unnumbered(
    image: &mut [u8],
    kinds: &mut [u8],
    roles: &mut [u8],
    ledger: &mut [u8],
    block: &[u8],
) -> Result<u32, Refusal> {
    second(raw::write_unnumbered(image, kinds, roles, ledger, block))
}

/// The entry of a run, for a [`write`](crate::write) that is about to take the
/// block: an ordinary file entry of ECMA-167 4/14.9 whose bytes are those of the
/// extents, in their order. Nobody owns the file and all may read it; it has no
/// times.
///
/// [`view`] takes a block b for a run's entry exactly if it has
///
/// - tag identifier 261, descriptor version 2, right tag checksum and CRC, a CRC
///   length of 160 + descriptor length, and tag location b;
/// - strategy 4, file type 5, no extended attributes and allocation type 0;
/// - 1 to 100 short allocation descriptors of extent type 0, and as information
///   length the total of their lengths;
/// - extents that lie on sectors of kind 1 below b, none of them empty, and all
///   but the last of whole sectors.
///
/// What is asked of the extents is not tested here: the core does that, and
/// refuses with 19. An entry of extents that keep to it is one at its block, and
/// at no other.
///
/// ```
/// use station::{Extent, Refusal, LEDGER, SECTOR};
///
/// let (mut image, mut kinds) = (vec![0; 40 * SECTOR], vec![0; 40]);
/// let (mut roles, mut ledger) = (vec![0; 40], [0; LEDGER]);
/// station::begin(&image, &kinds, &mut roles, &mut ledger)?;
/// for byte in [1, 2, 3] {
///     station::write_unnumbered(&mut image, &mut kinds, &mut roles, &mut ledger, &[byte; SECTOR])?;
/// }
///
/// // Block 2, and then block 0 and a beginning of block 1.
/// let extents = [
///     Extent { length: 2048, location: 2 },
///     Extent { length: 2050, location: 0 },
/// ];
/// let entry = station::file_entry(&extents, 3);
/// station::write(&mut image, &mut kinds, &mut roles, &mut ledger, 0, &entry)?;
///
/// let mut shown = [0; 6];
/// let filled = station::view(&image, &kinds, &ledger, 0, 2046, &mut shown)?;
/// assert_eq!((filled, shown), (6, [3, 3, 1, 1, 1, 1]));
/// let filled = station::view(&image, &kinds, &ledger, 0, 4094, &mut shown)?;
/// assert_eq!((filled, &shown[..4]), (4, &[1, 1, 2, 2][..]));
///
/// // At another block it is no entry of a run.
/// station::write(&mut image, &mut kinds, &mut roles, &mut ledger, 1, &entry)?;
/// let elsewhere = station::view(&image, &kinds, &ledger, 1, 0, &mut shown);
/// assert_eq!(elsewhere, Err(Refusal::NotARun));
/// # Ok::<(), Refusal>(())
/// ```
///
/// # Panics
///
/// If there are no extents, or more than [`MOST_EXTENTS`]: no entry holds them.
pub fn file_entry(extents: &[Extent], block: u32) -> [u8; SECTOR] {
    let count = extents.len();
    assert!(
        (1..=MOST_EXTENTS).contains(&count),
        "a run's entry names 1 to {MOST_EXTENTS} extents, not {count}"
    );
    let lengths = extents.iter().map(|extent| u64::from(extent.length));
    let sectors = lengths.clone().map(|length| length.div_ceil(SECTOR as u64));
    let descriptors = count * DESCRIPTOR;
    let mut entry = [0; SECTOR];
    let mut put = |place: usize, field: &[u8]| entry[place..][..field.len()].copy_from_slice(field);
    put(20, &4u16.to_le_bytes()); // strategy
    put(24, &1u16.to_le_bytes()); // maximum number of entries
    put(27, &[5]); // file type: bytes as they are
    put(36, &NOBODY.to_le_bytes()); // user
    put(40, &NOBODY.to_le_bytes()); // group
    put(44, &PERMISSIONS.to_le_bytes());
    put(48, &1u16.to_le_bytes()); // link count
    put(56, &lengths.sum::<u64>().to_le_bytes()); // information length
    put(64, &sectors.sum::<u64>().to_le_bytes()); // logical blocks recorded
    put(108, &1u32.to_le_bytes()); // checkpoint
    put(129, b"*Bench Station"); // implementation identifier
    put(172, &(descriptors as u32).to_le_bytes());
    for (index, extent) in extents.iter().enumerate() {
        let place = DESCRIPTORS + index * DESCRIPTOR;
        put(place, &extent.length.to_le_bytes());
        put(place + 4, &extent.location.to_le_bytes());
    }
    put_tag(&mut entry, FILE_ENTRY, 160 + descriptors as u16, block);
    entry
}

/// View v from an offset: fills the lent buffer, of at most
/// [`MOST_VIEWED`](crate::MOST_VIEWED) bytes, with the bytes of the run that
/// number v is the entry of, as far as the run goes; those behind stay as they
/// are. It is allowed with mode 2. The answer counts the bytes filled in; at the
/// run's end it is 0. [`file_entry`] says what a run's entry is.
///
/// # Errors
///
/// 1, 2, 3, 4, 10, 11, 19 and 20.
pub fn view(
    image: &[u8],
    kinds: &[u8],
    ledger: &[u8],
    v: u32,
    offset: u64,
    buffer: &mut [u8],
) -> Result<u32, Refusal> {
    second(raw::view(image, kinds, ledger, v, offset, buffer))
}

#[cfg(test)]
mod tests {
    use super::{file_entry, Extent};

    const EXTENT: Extent = Extent {
        length: 2049,
        location: 7,
    };

    /// Every byte that is not zero, by its place.
    #[test]
    fn each_field_at_its_place() {
        let entry = file_entry(&[EXTENT], 0x0102_0304);
        let fields: [(usize, &[u8]); 15] = [
            (0, &[0x05, 0x01, 2, 0]),
            (10, &[168, 0, 4, 3, 2, 1]),
            (20, &[4]),
            (24, &[1]),
            (27, &[5]),
            (36, &[0xFF; 8]),
            (44, &[0x84, 0x10]),
            (48, &[1]),
            (56, &[0x01, 0x08]),
            (64, &[2]),
            (108, &[1]),
            (129, b"*Bench Station"),
            (172, &[8]),
            (176, &[0x01, 0x08, 0, 0]),
            (180, &[7]),
        ];
        let mut rest = entry;
        for (place, field) in fields {
            let held = &mut rest[place..][..field.len()];
            assert_eq!(held, field, "byte {place}");
            held.fill(0);
        }
        rest[4] = 0;
        rest[8..10].fill(0);
        assert_eq!(rest, [0; 2048]);
    }

    #[test]
    #[should_panic(expected = "not 0")]
    fn no_extents() {
        file_entry(&[], 1);
    }

    #[test]
    #[should_panic(expected = "not 101")]
    fn more_extents_than_an_entry_names() {
        file_entry(&[EXTENT; 101], 1);
    }
}
