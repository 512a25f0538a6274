//! What a call recorded, for a host that burns it.

use crate::SECTOR;

const BLANK: u8 = 0;
const DATA: u8 = 1;

/// A sector that is recorded, as it goes onto the medium.
#[derive(Clone, Copy, Debug, PartialEq, Eq)]
pub struct Sector<'a> {
    /// Its block number.
    pub block: u32,
    /// What the disc's kinds have for it: of a sector that a call recorded, 1
    /// (data) or 2 (link).
    pub kind: u8,
    /// A data sector's bytes. Those of other kinds mean nothing: of a link sector
    /// only its kind changes.
    pub bytes: Option<&'a [u8; SECTOR]>,
}

/// How many sectors are recorded: those before the first blank one.
pub fn recorded(kinds: &[u8]) -> usize {
    let blank = kinds.iter().position(|kind| *kind == BLANK);
    blank.unwrap_or(kinds.len())
}

/// The sectors that were recorded since so many were, in ascending order: with
/// [`recorded`] of the kinds before a call, exactly those that the call recorded.
/// There are none after a refusal, and after a call that records nothing. Of
/// buffers that are no disc, it is the sectors that both have.
///
/// A host that keeps the disc on a medium lends the core working buffers and
/// burns these sectors, one after another. Stopped anywhere, it leaves what a
/// power cut may leave, and the next mount shows the last finished save. The core
/// itself is not to be lent the only copy of a disc that must outlive the
/// program: within a call it stores bytes and kinds in any order.
///
/// ```
/// use station::{Sector, LEDGER, SECTOR};
///
/// let mut burned = Vec::new();
/// let mut burn = |sector: Sector| burned.push((sector.block, sector.kind));
///
/// let (mut image, mut kinds) = (vec![0; 40 * SECTOR], vec![0; 40]);
/// let (mut roles, mut ledger) = (vec![0; 40], [0; LEDGER]);
/// station::begin(&image, &kinds, &mut roles, &mut ledger)?;
///
/// let before = station::recorded(&kinds);
/// station::write(&mut image, &mut kinds, &mut roles, &mut ledger, 0, &[0x5A; SECTOR])?;
/// station::recorded_since(&image, &kinds, before).for_each(&mut burn);
///
/// station::close_packet(&image, &kinds, &roles, &mut ledger)?;
/// let before = station::recorded(&kinds);
/// station::commit(&mut image, &mut kinds, &mut roles, &mut ledger)?;
/// station::recorded_since(&image, &kinds, before).for_each(&mut burn);
///
/// let links = (1..8).map(|block| (block, 2));
/// let all: Vec<_> = [(0, 1)].into_iter().chain(links).chain([(8, 1)]).collect();
/// assert_eq!(burned, all);
/// # Ok::<(), station::Refusal>(())
/// ```
pub fn recorded_since<'a>(
    image: &'a [u8],
    kinds: &'a [u8],
    before: usize,
) -> impl Iterator<Item = Sector<'a>> {
    let end = recorded(kinds);
    let first = before.min(end);
    let image = image.get(first * SECTOR..).unwrap_or_default();
    let sectors = image.chunks_exact(SECTOR).zip(&kinds[first..end]);
    let numbered = (first as u32..).zip(sectors);
    numbered.map(|(block, (bytes, kind))| Sector {
        block,
        kind: *kind,
        bytes: bytes.first_chunk().filter(|_| *kind == DATA),
    })
}
