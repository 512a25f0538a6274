//! Closing a session, and whether a disc is closed.

use crate::{close_packet, raw, recorded, second, Extent, Refusal, LEDGER, LIMIT};

/// Close session: records an Anchor Volume Descriptor Pointer, 255 zero sectors
/// and the table sector, which becomes the last table, all as data. Own sectors of the
/// table that are recorded take the place of the last zeros. Plain CD-ROM
/// drives read only closed sessions. The pointer names the main and the reserve
/// extent, and its tag location is the partition's start plus its block. Mode is 1
/// afterwards. The answer is the block of the table; the pointer stands 256 before
/// it.
///
/// The disc is then closed, and nothing more is recorded on it.
///
/// ```
/// use station::{Extent, Refusal, LEDGER, SECTOR};
///
/// let sectors = 1000;
/// let (mut image, mut kinds) = (vec![0; sectors * SECTOR], vec![0; sectors]);
/// let (mut roles, mut ledger) = (vec![0; sectors], [0; LEDGER]);
/// station::begin(&image, &kinds, &mut roles, &mut ledger)?;
/// station::write(&mut image, &mut kinds, &mut roles, &mut ledger, 0, &[0x5A; SECTOR])?;
///
/// let main = Extent { length: 16 * 2048, location: 32 };
/// let reserve = Extent { length: 16 * 2048, location: 64 };
/// let table =
///     station::close_session(&mut image, &mut kinds, &mut roles, &mut ledger, main, reserve, 300)?;
/// assert_eq!(table, 1 + 256);
/// assert!(station::is_closed(&image, &kinds)?);
/// assert!(station::mount(&image, &kinds, &mut roles, &mut ledger)?);
///
/// let more = station::commit(&mut image, &mut kinds, &mut roles, &mut ledger);
/// assert_eq!(more, Err(Refusal::SessionClosed));
/// # Ok::<(), Refusal>(())
/// ```
///
/// # Errors
///
/// 1, 2, 3, 4, 5, 17, 18 and 14: it needs links + 257 blank sectors.
pub fn close_session(
    image: &mut [u8],
    kinds: &mut [u8],
    roles: &mut [u8],
    ledger: &mut [u8],
    main: Extent,
    reserve: Extent,
    partition_start: u32,
) -> Result<u32, Refusal> {
    second(raw::close_session(
        image,
        kinds,
        roles,
        ledger,
        main.length,
        main.location,
        reserve.length,
        reserve.location,
        partition_start,
    ))
}

/// Whether the disc is closed: its last recorded sector is a table, the 256 before
/// it have kind 1, and the first of these has tag identifier 2, a right tag
/// checksum and a tag location from its block to its block + 400,000.
///
/// It is drawn from a call: [`close_packet`], which records nothing, is refused with
/// 17 exactly if the disc is closed. It is lent a ledger that fits every disc and,
/// since it changes no role, the kinds in the place of the roles.
///
/// # Errors
///
/// 1 and 3.
pub fn is_closed(image: &[u8], kinds: &[u8]) -> Result<bool, Refusal> {
    match close_packet(image, kinds, kinds, &mut ledger_without_numbers(kinds)) {
        Err(Refusal::SessionClosed) => Ok(true),
        open => open.map(|()| false),
    }
}

/// Size 0, no last table, no packet open.
fn ledger_without_numbers(kinds: &[u8]) -> [u8; LEDGER] {
    let mut ledger = [0xFF; LEDGER];
    let (_, fields) = ledger.split_at_mut(4 * LIMIT as usize);
    fields[..4].fill(0);
    fields[4..8].copy_from_slice(&(recorded(kinds) as u32).to_le_bytes());
    fields[12..].fill(0);
    ledger
}
