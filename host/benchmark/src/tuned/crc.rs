//! "CRC: 16 bits, polynomial hex 1021, start 0, high bit first", sixteen bytes at
//! a time.
//!
//! The sum is linear: sixteen bytes and the two of the sum before them give one
//! looked-up number each, and these are joined by exclusive or. Only the last
//! two wait for what was summed before; with one table of 256 each byte waits.

/// Bytes that are summed at a time.
const SLICE: usize = 16;

/// Row k, column x: the sum of the byte x and then k zero bytes. Row 0 is the
/// usual table of 256.
static TABLES: [[u16; 256]; SLICE] = tables();

const fn tables() -> [[u16; 256]; SLICE] {
    let mut tables = [[0; 256]; SLICE];
    let mut x = 0;
    while x < 256 {
        tables[0][x] = byte_sum(x as u8);
        x += 1;
    }
    let mut k = 1;
    while k < SLICE {
        let mut x = 0;
        while x < 256 {
            let before = tables[k - 1][x];
            tables[k][x] = before << 8 ^ tables[0][(before >> 8) as usize];
            x += 1;
        }
        k += 1;
    }
    tables
}

/// The sum of one byte, bit by bit.
const fn byte_sum(byte: u8) -> u16 {
    let mut crc = (byte as u16) << 8;
    let mut bit = 0;
    while bit < 8 {
        crc = crc << 1 ^ if crc & 0x8000 == 0 { 0 } else { 0x1021 };
        bit += 1;
    }
    crc
}

/// The sum of the bytes. Each slice's own sum is joined one turn later: so the
/// lookups of one slice overlap with the wait for the sum before it.
#[inline(never)]
pub fn crc(bytes: &[u8]) -> u16 {
    let (slices, rest) = bytes.as_chunks::<SLICE>();
    let turn = |(crc, own): (u16, u16), slice| (past_slice(crc) ^ own, own_sum(slice));
    let (crc, own) = slices.iter().fold((0, 0), turn);
    rest.iter().fold(past_slice(crc) ^ own, past_byte)
}

/// The sum of a slice alone.
#[inline(always)]
fn own_sum(slice: &[u8; SLICE]) -> u16 {
    let rows = slice.iter().zip(TABLES.iter().rev());
    rows.fold(0, |sum, (byte, row)| sum ^ row[usize::from(*byte)])
}

/// What a sum becomes behind sixteen zero bytes.
#[inline(always)]
fn past_slice(crc: u16) -> u16 {
    let [high, low] = crc.to_be_bytes();
    TABLES[SLICE - 1][usize::from(high)] ^ TABLES[SLICE - 2][usize::from(low)]
}

#[inline(always)]
fn past_byte(crc: u16, byte: &u8) -> u16 {
    crc << 8 ^ TABLES[0][usize::from(crc.to_be_bytes()[0] ^ byte)]
}
