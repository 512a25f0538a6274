//! Yardsticks: the sum of the kinds, and the CRC in three forms.

use std::hint::black_box;

use crate::buffers::Buffers;
use crate::measure::{take_turns, Contender, Times};
use crate::report::thousands;
use crate::rows::{Row, CLOSE_PACKET, ROWS};
use crate::tuned;
use crate::version::{CORE, TUNED};

/// Close packet in both versions beside the sum of the same kinds.
pub fn kinds_pass(buffers: &mut Buffers) -> [Times; 3] {
    let is_close = |row: &&Row| row.name == CLOSE_PACKET;
    let row = ROWS
        .iter()
        .find(is_close)
        .expect("close packet is measured");
    (row.prepare)(buffers);
    let batch = row.batch(buffers.sectors());
    let core = |b: &mut Buffers, i| (row.call)(black_box(&CORE), b, i);
    let tuned = |b: &mut Buffers, i| (row.call)(black_box(&TUNED), b, i);
    let sum = |b: &mut Buffers, _| byte_sum(&b.kinds);
    take_turns([&core, &tuned, &sum], buffers, batch)
}

#[inline(never)]
fn byte_sum(bytes: &[u8]) -> u64 {
    bytes.iter().map(|byte| u64::from(*byte)).sum()
}

/// The CRC alone, of the smallest and the largest table sector.
pub fn crc_table(buffers: &mut Buffers) -> String {
    let mut text = String::from(
        "| bytes | bit by bit ns | one table of 256 ns | tuned, sixteen tables ns |\n\
         |--:|--:|--:|--:|\n",
    );
    for bytes in [196, 2028] {
        let forms: [Contender; 3] = [
            &|b, _| u64::from(bit_by_bit(&b.image[16..16 + bytes])),
            &|b, _| u64::from(one_table(&b.image[16..16 + bytes])),
            &|b, _| u64::from(tuned::crc(&b.image[16..16 + bytes])),
        ];
        let answers = forms.map(|form| form(buffers, 0));
        assert!(
            answers.iter().all(|crc| *crc == answers[0]),
            "one sum, three forms"
        );
        let [bits, one, tuned] = take_turns(forms, buffers, 64).map(|times| times.min());
        let bytes = thousands(bytes);
        text += &format!("| {bytes} | {bits:.0} | {one:.0} | {tuned:.0} |\n");
    }
    text
}

/// "polynomial hex 1021, start 0, high bit first"
#[inline(never)]
fn bit_by_bit(bytes: &[u8]) -> u16 {
    bytes
        .iter()
        .fold(0, |crc, byte| byte_step(crc ^ u16::from(*byte) << 8))
}

const fn byte_step(mut crc: u16) -> u16 {
    let mut bit = 0;
    while bit < 8 {
        crc = crc << 1 ^ if crc & 0x8000 == 0 { 0 } else { 0x1021 };
        bit += 1;
    }
    crc
}

static TABLE: [u16; 256] = {
    let mut table = [0; 256];
    let mut x = 0;
    while x < 256 {
        table[x] = byte_step((x as u16) << 8);
        x += 1;
    }
    table
};

#[inline(never)]
fn one_table(bytes: &[u8]) -> u16 {
    let step = |crc: u16, byte: &u8| crc << 8 ^ TABLE[usize::from((crc >> 8) as u8 ^ byte)];
    bytes.iter().fold(0, step)
}
