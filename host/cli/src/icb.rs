//! What an ICB lays out, a file entry of ECMA-167 4/14.9: the entry of a run, or a table.
//! Whether a sector is one of these, the core says; of another nothing here means
//! anything.

use station::{Extent, SECTOR};

/// Where its file type stands.
pub const FILE_TYPE: usize = 27;

/// Where its flags stand, and what their low three bits are where descriptors name what
/// it is the ICB of; where the lengths of its attributes and of what stands behind them;
/// and where the attributes begin.
const FLAGS: usize = 34;
const ALLOCATION: u8 = 7;
const DESCRIBED: u8 = 0;
const ATTRIBUTES_LENGTH: usize = 168;
const DESCRIPTORS_LENGTH: usize = 172;
const ATTRIBUTES: usize = 176;

/// Bytes of a descriptor, a length and a block (4/14.14.1).
const DESCRIPTOR: usize = 8;

/// Bytes of a number of 32 bits.
const WORD: usize = 4;

/// What its descriptors name, in their order; none where the file itself stands in their
/// place.
pub fn extents(icb: &[u8]) -> Vec<Extent> {
    let (place, length) = behind_attributes(icb);
    let described = icb[FLAGS] & ALLOCATION == DESCRIBED;
    let descriptors = icb.get(place..).filter(|_| described).unwrap_or_default();
    let descriptors = descriptors.chunks_exact(DESCRIPTOR);
    let extent = |descriptor: &[u8]| Extent {
        length: word(descriptor, 0),
        location: word(descriptor, WORD),
    };
    descriptors.take(length / DESCRIPTOR).map(extent).collect()
}

/// The blocks of the own sectors of the table at this block, by their places; none if the
/// table stands in its ICB.
pub fn own_sectors(image: &[u8], table: u32) -> Vec<u32> {
    let extents = sector(image, table).map(extents).unwrap_or_default();
    extents.into_iter().map(|extent| extent.location).collect()
}

/// The block of the table that the one at this block names as previous, its last word;
/// FFFFFFFF if it names none.
pub fn previous(image: &[u8], table: u32) -> Option<u32> {
    let icb = sector(image, table)?;
    let (bytes, length) = match extents(icb).last() {
        Some(last) => (sector(image, last.location)?, last.length as usize),
        None => {
            let (place, length) = behind_attributes(icb);
            (icb, place + length)
        }
    };
    let place = length.checked_sub(WORD)?;
    bytes.get(place..length).map(|bytes| word(bytes, 0))
}

pub fn sector(image: &[u8], block: u32) -> Option<&[u8]> {
    image.get(block as usize * SECTOR..)?.get(..SECTOR)
}

/// Where the descriptors, or the file, stand, and how many bytes they have.
fn behind_attributes(icb: &[u8]) -> (usize, usize) {
    let attributes = word(icb, ATTRIBUTES_LENGTH) as usize;
    (
        ATTRIBUTES + attributes,
        word(icb, DESCRIPTORS_LENGTH) as usize,
    )
}

fn word(bytes: &[u8], place: usize) -> u32 {
    let bytes = &bytes[place..][..WORD];
    u32::from_le_bytes([bytes[0], bytes[1], bytes[2], bytes[3]])
}

#[cfg(test)]
mod tests {
    use super::{extents, own_sectors, previous};
    use station::{Extent, MOST_EXTENTS, SECTOR};

    #[test]
    fn the_extents_of_an_entry() {
        let extent = |place: usize| Extent {
            length: 2048 * (place as u32 + 1) - u32::from(place + 1 == MOST_EXTENTS),
            location: 7 * place as u32,
        };
        for count in [1, 2, MOST_EXTENTS] {
            let named: Vec<Extent> = (0..count).map(extent).collect();
            let entry = station::file_entry(&named, 9000);
            assert_eq!(extents(&entry), named);
        }
    }

    /// A sector with these flags, these bytes of attributes, and this behind them.
    fn icb(flags: u8, attributes: u32, behind: &[u32]) -> [u8; SECTOR] {
        let mut icb = [0; SECTOR];
        icb[34] = flags;
        icb[168..172].copy_from_slice(&attributes.to_le_bytes());
        icb[172..176].copy_from_slice(&(behind.len() as u32 * 4).to_le_bytes());
        let place = 176 + attributes as usize;
        let bytes: Vec<u8> = behind.iter().flat_map(|word| word.to_le_bytes()).collect();
        icb[place..place + bytes.len()].copy_from_slice(&bytes);
        icb
    }

    #[test]
    fn a_table_in_its_icb_or_in_own_sectors() {
        for attributes in [0, 220] {
            let embedded = icb(3, attributes, &[5, 6, 7]);
            assert_eq!(own_sectors(&embedded, 0), []);
            assert_eq!(previous(&embedded, 0), Some(7));
            let apart = icb(8, attributes, &[2048, 1, 2048, 2, 8, 1]);
            assert_eq!(own_sectors(&apart, 0), [1, 2, 1]);
            let mut own = [0; SECTOR];
            own[4] = 9;
            assert_eq!(previous(&[apart, own].concat(), 0), Some(9));
        }
    }

    /// Nothing is told beyond the sector, and nothing outside of the image.
    #[test]
    fn what_is_no_icb() {
        let mut sector = [0xFF; SECTOR];
        for flags in [0xFF, 0] {
            sector[34] = flags;
            let told = (own_sectors(&sector, 0), previous(&sector, 0));
            assert_eq!(told, (vec![], None));
        }
        let far = icb(0, 0, &[8, 1]);
        assert_eq!((previous(&far, 0), previous(&far, 1)), (None, None));
        assert_eq!(
            (own_sectors(&far, 0), own_sectors(&far, 1)),
            (vec![1], vec![])
        );
    }
}
