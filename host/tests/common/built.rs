//! Every call on a built station, each with the numbers, blocks, timestamps and
//! closings that lie at a bound.

use station_model::calls::Call;
use station_model::disc::{Disc, BLANK};
use station_model::fields::u32_at;
use station_model::ledger::LEDGER;
use station_model::table::{seal, vat_sector, LIMIT, NONE, SECTOR};
use station_model::time::NO_STAMP;

use super::closing::{pointer, starting, ANCHOR};
use super::pair::Pair;
use super::runs::VIEWED;
use super::stamps::{ANSWER, HALF_PAST};
use super::station::{done, Station};
use super::tables::vat_behind;

pub const BLOCK: [u8; SECTOR] = [0x5A; SECTOR];

/// One block written and saved: data at 0, its table at 1, a packet open.
pub fn saved(sectors: usize) -> Station {
    let mut station = Station::begun(sectors);
    assert_eq!(station.write(0, &BLOCK), done(0));
    assert_eq!(station.call(Call::Commit), done(1));
    station
}

/// The same, saved with a timestamp.
pub fn saved_at(sectors: usize) -> Station {
    let mut station = Station::begun(sectors);
    assert_eq!(station.write(0, &BLOCK), done(0));
    assert_eq!(station.commit_at(&HALF_PAST), done(1));
    station
}

/// The buffer that a call is lent beside disc, roles and ledger.
pub fn beside(call: Call) -> &'static [u8] {
    match call {
        Call::CommitAt => &HALF_PAST,
        Call::TimeOf(_) => &ANSWER,
        Call::View { .. } => &VIEWED,
        _ => &BLOCK,
    }
}

/// Makes each call on the station as it is, one after the other, and compares.
pub fn every_call(station: &Station) {
    let mut pair = Pair::shifted(station, station.image.len() / SECTOR);
    let blocks = blocks(station);
    let stamps = [HALF_PAST.to_vec(), NO_STAMP.to_vec()];
    let views = [VIEWED[..3000].to_vec()];
    for call in calls(station) {
        let lent = match call {
            Call::Write(_) | Call::WriteUnnumbered => &blocks[..],
            Call::Read(_) => &blocks[..1],
            Call::CommitAt => &stamps[..],
            Call::TimeOf(_) => &[ANSWER.to_vec()],
            Call::View { .. } => &views[..],
            _ => &[Vec::new()],
        };
        for buffer in lent {
            if pair.call(call, buffer).is_done() {
                pair.take_back(station);
            }
        }
    }
    pair.compare_whole();
}

/// Numbers about 0, size and the limit; each k up to two beyond the sectors of
/// a small disc.
fn calls(station: &Station) -> Vec<Call> {
    let size = size(station);
    let mut numbers = vec![0, 1, size.wrapping_sub(1), size, size.wrapping_add(1)];
    numbers.extend([457, 458, 4086, 4087, 4088, NONE]);
    numbers.sort_unstable();
    numbers.dedup();
    let steps = (0..station.kinds.len().min(8) as u32 + 2).chain([NONE]);
    let mut calls = vec![Call::Begin, Call::Mount, Call::ClosePacket];
    calls.extend([Call::Commit, Call::CommitAt, Call::CloseSession(ANCHOR)]);
    calls.extend([0, 400_000, 400_001, NONE].map(|start| Call::CloseSession(starting(start))));
    calls.extend(numbers.iter().map(|v| Call::Release(*v)));
    calls.extend(numbers.iter().map(|v| Call::Read(*v)));
    calls.extend(numbers.iter().map(|v| Call::Write(*v)));
    calls.push(Call::WriteUnnumbered);
    calls.extend(numbers.iter().map(|v| Call::View { v: *v, offset: 0 }));
    calls.extend(steps.clone().map(Call::LookBack));
    calls.extend(steps.map(Call::TimeOf));
    calls
}

fn size(station: &Station) -> u32 {
    if station.ledger.len() == LEDGER {
        u32_at(&station.ledger, 4 * LIMIT)
    } else {
        0
    }
}

/// Plain bytes; table sectors, also behind attributes, a closing's pointer, and the
/// disc's own newest table, if it has one, for the block before the links, the block
/// behind them, and the one after that.
fn blocks(station: &Station) -> Vec<Vec<u8>> {
    let recorded = station.kinds.iter().filter(|kind| **kind != BLANK).count() as u32;
    let table = |block| vat_sector(block, &[NONE], NONE).to_vec();
    let behind = |block| vat_behind(&[0x5A; 8], block, &[NONE], NONE).to_vec();
    let newest = |block| newest_for(station, block);
    let copies = [recorded, recorded + 7, recorded + 8].map(newest);
    let mut blocks = vec![
        BLOCK.to_vec(),
        table(recorded),
        behind(recorded),
        table(recorded + 7),
        behind(recorded + 7),
        table(recorded + 8),
        pointer(recorded, recorded).to_vec(),
        pointer(recorded + 7, recorded + 7).to_vec(),
        pointer(recorded + 8, recorded + 8).to_vec(),
    ];
    blocks.extend(copies.into_iter().flatten());
    blocks
}

/// The disc's newest table sector, tagged for another block.
fn newest_for(station: &Station, block: u32) -> Option<Vec<u8>> {
    let disc = Disc::lent(&station.image, &station.kinds).ok()?;
    let mut sector = *disc.data(disc.newest_vat()?.block)?;
    seal(&mut sector, block);
    Some(sector.to_vec())
}
