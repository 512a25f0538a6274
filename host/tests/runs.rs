//! "Runs longer than a block" (document 02): what a view shows of a run, from each
//! offset and into each buffer. Each call is made on the core and on the model, and
//! compared; what is shown is also held against the image.

mod common;

use common::built::every_call;
use common::closing::{closed_by_another, CLOSE};
use common::pair::{tell_compared, Pair};
use common::runs::{extent, name, with_run, ENTRY, VIEWED};
use common::station::{done, refused, Station};
use station_model::answer::Answer;
use station_model::calls::Call;
use station_model::disc::{DATA, LINK, UNREADABLE};
use station_model::extent::Extent;
use station_model::run::{entry_sector, MOST_EXTENTS, MOST_VIEWED};
use station_model::table::{vat_sector, LIMIT, NONE, SECTOR};

/// The bytes of the extents, one after another.
fn joined(station: &Station, extents: &[Extent]) -> Vec<u8> {
    let bytes = |extent: &Extent| {
        let first = extent.location as usize * SECTOR;
        station.image[first..][..extent.length as usize].to_vec()
    };
    extents.iter().flat_map(bytes).collect()
}

/// Where sectors and extents of the run begin and end.
fn borders(extents: &[Extent]) -> Vec<usize> {
    let mut borders = vec![0];
    for extent in extents {
        let start = borders[borders.len() - 1];
        let length = extent.length as usize;
        let within = (1..length.div_ceil(SECTOR)).map(|sector| start + sector * SECTOR);
        borders.extend(within.chain([start + length]));
    }
    borders
}

/// Each place, one less and one more, and one after another.
fn about(places: &[usize]) -> Vec<usize> {
    let near = |place: &usize| [place.saturating_sub(1), *place, place + 1];
    let mut about: Vec<usize> = places.iter().flat_map(near).collect();
    about.sort_unstable();
    about.dedup();
    about
}

/// A view of number 0 shows just these bytes of the run, and leaves the bytes behind
/// them; from beyond the run's end it is refused.
fn shows(pair: &mut Pair, run: &[u8], offset: usize, length: usize) {
    let view = Call::View {
        v: 0,
        offset: offset as u64,
    };
    let answer = pair.call(view, &VIEWED[..length]);
    let shown = match run.get(offset..) {
        Some(rest) => &rest[..rest.len().min(length)],
        None => &[],
    };
    let expected = match offset <= run.len() {
        true => done(shown.len() as u32),
        false => refused(20),
    };
    assert_eq!(answer, expected, "{length} bytes from {offset}");
    let (filled, behind) = pair.buffer().split_at(shown.len());
    assert!(filled == shown, "{length} bytes from {offset}");
    assert!(behind == &VIEWED[..behind.len()], "bytes behind");
}

/// From each border to each border, and a byte about them.
#[test]
fn borders_of_sectors_and_extents() {
    for extents in [
        vec![extent(1, 4)],
        vec![extent(SECTOR, 19)],
        vec![extent(3 * SECTOR - 1, 0)],
        vec![
            extent(2 * SECTOR, 3),
            extent(SECTOR, 10),
            extent(3 * SECTOR, 0),
            extent(1000, 12),
        ],
        vec![
            extent(SECTOR, 7),
            extent(SECTOR, 6),
            extent(SECTOR, 7),
            extent(SECTOR, 8),
        ],
    ] {
        let station = with_run(&extents);
        let run = joined(&station, &extents);
        let places = about(&borders(&extents));
        for (shift, offset) in places.iter().enumerate() {
            let mut pair = Pair::shifted(&station, shift);
            for end in places.iter().filter(|end| *end >= offset) {
                shows(&mut pair, &run, *offset, end - offset);
            }
            shows(&mut pair, &run, *offset, MOST_VIEWED);
        }
    }
    tell_compared("borders_of_sectors_and_extents");
}

/// Every offset of a short run, each with some lengths.
#[test]
fn every_offset_of_a_short_run() {
    let extents = [extent(SECTOR, 5), extent(700, 2)];
    let station = with_run(&extents);
    let run = joined(&station, &extents);
    let mut pair = Pair::shifted(&station, 3);
    for offset in 0..=run.len() + 2 {
        for length in [0, 1, 7, 64, 700, 2048] {
            shows(&mut pair, &run, offset, length);
        }
    }
    tell_compared("every_offset_of_a_short_run");
}

/// "fills the lent buffer (at most 65,536 bytes, else 2)": of a run that is longer.
#[test]
fn lengths_of_the_buffer() {
    let extents = [extent(20 * SECTOR, 0), extent(20 * SECTOR, 0)];
    let station = with_run(&extents);
    let run = joined(&station, &extents);
    let mut pair = Pair::holding(&station);
    for length in about(&[0, 1, 64, SECTOR, 2 * SECTOR, 20 * SECTOR]) {
        for offset in [0, 1, 2047, 30_000, run.len() - length] {
            shows(&mut pair, &run, offset, length);
        }
    }
    for offset in about(&[0, run.len() - MOST_VIEWED]) {
        shows(&mut pair, &run, offset, MOST_VIEWED);
        shows(&mut pair, &run, offset, MOST_VIEWED - 1);
    }
    for length in [MOST_VIEWED + 1, MOST_VIEWED + 2, 2 * MOST_VIEWED, 1 << 24] {
        let view = Call::View { v: 0, offset: 0 };
        assert_eq!(pair.call(view, &vec![0x11; length]), refused(2));
    }
    tell_compared("lengths_of_the_buffer");
}

/// "20, the offset exceeds the run's length": at the length it is done, with 0.
#[test]
fn offsets_beyond_the_run() {
    for extents in [
        vec![extent(1, 4)],
        vec![extent(SECTOR, 4), extent(2 * SECTOR, 0)],
    ] {
        let mut station = with_run(&extents);
        let length = joined(&station, &extents).len() as u64;
        for most in [0, 1, 3000, MOST_VIEWED] {
            assert_eq!(station.view(0, length, most), Ok(vec![]));
            for beyond in [1, 2, SECTOR as u64, 1 << 31, 1 << 32, 1 << 63] {
                assert_eq!(station.view(0, length + beyond, most), Err(20));
            }
            for offset in [1 << 32, u64::MAX - 1, u64::MAX] {
                assert_eq!(station.view(0, offset, most), Err(20));
            }
        }
    }
    tell_compared("offsets_beyond_the_run");
}

/// "with 1 to 100 short allocation descriptors", from each extent's border on.
#[test]
fn counts_of_extents() {
    for count in (0..=103).chain([127, 128, 200, 234]) {
        let whole = |m: usize| extent(SECTOR, 7 * m as u32 % 20);
        let mut extents: Vec<Extent> = (0..count).map(whole).collect();
        if let Some(last) = extents.last_mut() {
            last.length -= 77;
        }
        let station = with_run(&extents);
        let mut pair = Pair::shifted(&station, count);
        if !(1..=MOST_EXTENTS).contains(&count) {
            let view = Call::View { v: 0, offset: 0 };
            assert_eq!(pair.call(view, &VIEWED), refused(19), "{count} extents");
            continue;
        }
        let run = joined(&station, &extents);
        for offset in about(&borders(&extents)) {
            shows(&mut pair, &run, offset, 3000);
        }
        shows(&mut pair, &run, 0, MOST_VIEWED);
    }
    tell_compared("counts_of_extents");
}

/// Tables, other entries and a closing's sectors are data too, wherever they lie in
/// the run; and the entry may be the last sector of a full disc.
#[test]
fn tables_and_entries_as_data() {
    let table = |station: &mut Station, block| {
        station.put_sector(block, DATA, &vat_sector(block, &[0], NONE));
    };
    let extents = [extent(4 * SECTOR, 5), extent(SECTOR + 9, 6)];
    let mut station = with_run(&extents);
    table(&mut station, 6);
    station.put_sector(7, DATA, &entry_sector(7, &[extent(SECTOR, 0)]));
    let run = joined(&station, &extents);
    assert_eq!(station.view(0, 0, MOST_VIEWED), Ok(run));
    station.change(|volume| volume.last_vat = 6);
    assert_eq!(
        station.view(0, SECTOR as u64, SECTOR).as_deref(),
        Ok(&station.sector(6)[..])
    );
    every_call(&station);

    let mut closed = closed_by_another(20, 0);
    let last = closed.disc().recorded() - 1;
    let extents = [extent(256 * SECTOR, last - 256 - 1)];
    closed.put_sector(last, DATA, &entry_sector(last, &extents));
    name(&mut closed, &[last]);
    let run = joined(&closed, &extents);
    assert_eq!(
        closed.view(0, 0, MOST_VIEWED).as_deref(),
        Ok(&run[..MOST_VIEWED])
    );
    tell_compared("tables_and_entries_as_data");
}

/// Any number may be an entry's, and two numbers one's; block 0 can be none's, as no
/// extent lies below it.
#[test]
fn numbers_of_entries() {
    let extents = [extent(SECTOR, 1)];
    let mut station = with_run(&extents);
    let run = joined(&station, &extents);
    let mut blocks = [0; LIMIT];
    for v in [0, 1, 200, LIMIT - 1] {
        blocks[v] = ENTRY;
    }
    station.put_sector(0, DATA, &entry_sector(0, &extents));
    name(&mut station, &blocks);
    let last = LIMIT as u32 - 1;
    for v in (0..300).chain(last - 50..last + 3) {
        let expected = match blocks.get(v as usize) {
            None => Err(10),
            Some(0) => Err(19),
            Some(_) => Ok(run.clone()),
        };
        assert_eq!(station.view(v, 0, 3000), expected, "number {v}");
    }
    tell_compared("numbers_of_entries");
}

/// A thousand blocks without a number, more than there are numbers, and packets closed
/// on the way; the session is closed, and all is shown.
#[test]
fn a_run_of_a_thousand_blocks() {
    let mut pair = Pair::holding(&Station::blank(2000));
    assert_eq!(pair.call(Call::Begin, &[]), done(0));
    let mut extents: Vec<Extent> = Vec::new();
    for number in 0..1000u32 {
        if number % 40 == 39 {
            assert_eq!(pair.call(Call::ClosePacket, &[]), done(0));
        }
        let block: Vec<u8> = (0..SECTOR as u32)
            .map(|at| ((at * number) >> 8) as u8)
            .collect();
        let Answer { outcome, second } = pair.call(Call::WriteUnnumbered, &block);
        assert_eq!(outcome, 0);
        match extents.last_mut() {
            Some(last) if last.location + last.length / 2048 == second => last.length += 2048,
            _ => extents.push(extent(SECTOR, second)),
        }
    }
    assert_eq!(extents.len(), 26);
    let entry = extents[25].location + extents[25].length / 2048;
    assert_eq!(
        pair.call(Call::Write(0), &entry_sector(entry, &extents)),
        done(entry)
    );
    assert!(pair.call(CLOSE, &[]).is_done());
    assert_eq!(pair.call(Call::Mount, &[]), done(1));
    let run = joined(pair.station(), &extents);
    assert_eq!(run.len(), 1000 * SECTOR);
    for offset in (0..=run.len()).step_by(65_521).chain([run.len()]) {
        shows(&mut pair, &run, offset, 65_521);
    }
    pair.compare_whole();
    tell_compared("a_run_of_a_thousand_blocks");
}

/// Kinds of the sectors that no extent names are no matter.
#[test]
fn kinds_beside_the_run() {
    let extents = [extent(2 * SECTOR, 3), extent(1, 10)];
    for kind in [LINK, UNREADABLE] {
        let mut station = with_run(&extents);
        for block in (0..40).filter(|block| ![3, 4, 10, 20].contains(block)) {
            station.kinds[block] = if block < 30 { kind } else { 0 };
        }
        let run = joined(&station, &extents);
        assert_eq!(station.view(0, 0, 5000), Ok(run));
    }
    tell_compared("kinds_beside_the_run");
}
