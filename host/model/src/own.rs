//! "A table may lie in 1 to 8 sectors of its own, each named by a short allocation
//! descriptor in the ICB" (document 02; ECMA-167 4/14.14.1).
//!
//! [`read`] gives the table that such descriptors name; [`filled`] the sectors that a
//! table's bytes fill, and [`extents`] their descriptors.

use crate::extent::Extent;
use crate::table::SECTOR;

/// "1 to 8 sectors of its own"
pub const MOST_OWN: usize = 8;

/// The table that the descriptors name, and the blocks that it lies in: each is one of
/// the "blocks below the ICB", which stands at block b, and of "kind 1". `data` has the
/// bytes of the blocks of kind 1.
pub fn read<'a>(
    descriptors: &[u8],
    b: u32,
    data: impl Fn(u32) -> Option<&'a [u8; SECTOR]>,
) -> Option<(Vec<u8>, Vec<u32>)> {
    let named = named(descriptors)?;
    let mut table = Vec::new();
    for Extent { length, location } in &named {
        let sector = data(*location).filter(|_| *location < b)?;
        table.extend(&sector[..*length as usize]);
    }
    let blocks = named.iter().map(|extent| extent.location);
    Some((table, blocks.collect()))
}

/// The sectors that the descriptors name: 1 to 8, of "extent type 0", "full but the
/// last, none empty". The type is a length's high two bits, which are 0 in every length
/// up to 2,048.
fn named(descriptors: &[u8]) -> Option<Vec<Extent>> {
    let count = descriptors.len() / Extent::BYTES;
    let place = |m| Extent::at(descriptors, Extent::BYTES * m);
    let named: Vec<Extent> = (0..count).map(place).collect();
    let (last, others) = named.split_last()?;
    let suit = count <= MOST_OWN
        && descriptors.len() == Extent::BYTES * count
        && others.iter().all(|extent| extent.length as usize == SECTOR)
        && (1..=SECTOR).contains(&(last.length as usize));
    suit.then_some(named)
}

/// A table's bytes in sectors of 2,048, with "zeros to the end of the last".
pub fn filled(table: &[u8]) -> Vec<[u8; SECTOR]> {
    let filled_up = |bytes: &[u8]| {
        let mut sector = [0; SECTOR];
        sector[..bytes.len()].copy_from_slice(bytes);
        sector
    };
    table.chunks(SECTOR).map(filled_up).collect()
}

/// The descriptors of a table of so many bytes that lies in these blocks.
pub fn extents(table_length: usize, blocks: &[u32]) -> Vec<Extent> {
    let starts = (0..table_length).step_by(SECTOR);
    let lengths = starts.map(|start| SECTOR.min(table_length - start) as u32);
    let extent = |(length, location): (u32, &u32)| Extent {
        length,
        location: *location,
    };
    lengths.zip(blocks).map(extent).collect()
}
