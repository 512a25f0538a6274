//! Runs of tens of megabytes, and one of more than 4 GB, whose extents overlap on a
//! disc of 100 MB: offsets beyond 32 bits.
//!
//! There is one image. Before each view the model says what is to be shown; then the
//! core is asked, and all is compared, the whole image at the end.

mod common;

use common::core::Core;
use common::guarded::Guarded;
use common::random::{seed, Random};
use common::runs::{byte_at, extent};
use station_model::answer::Answer;
use station_model::calls::{effect, Call, Lent};
use station_model::disc::{DATA, LINK, UNREADABLE};
use station_model::extent::Extent;
use station_model::ledger::{Volume, LEDGER};
use station_model::run::{entry_sector, MOST_EXTENTS, MOST_VIEWED};
use station_model::table::{seal, SECTOR};

const SECTORS: usize = 50_000;

/// Numbers 0 and 1 are these blocks.
const ENTRIES: [u32; 2] = [49_990, 49_991];

/// 32 MB.
fn megabytes() -> Vec<Extent> {
    vec![
        extent(10_000 * SECTOR, 20_000),
        extent(5_000 * SECTOR, 100),
        extent(1_000 * SECTOR + 77, 7),
    ]
}

/// 100 extents of 49,000 sectors, each one sector further: 10 GB.
fn gigabytes() -> Vec<Extent> {
    let each = |m| extent(49_000 * SECTOR, m);
    let mut extents: Vec<Extent> = (0..MOST_EXTENTS as u32).map(each).collect();
    extents[MOST_EXTENTS - 1].length -= 1234;
    extents
}

fn length(extents: &[Extent]) -> u64 {
    extents.iter().map(|extent| u64::from(extent.length)).sum()
}

struct Disc {
    core: Core,
    compared: usize,
}

impl Disc {
    fn with(runs: [&[Extent]; 2]) -> Disc {
        let mut core = Core {
            image: Guarded::zeros(SECTORS * SECTOR, 5),
            kinds: Guarded::zeros(SECTORS, 3),
            roles: Guarded::zeros(SECTORS, 2),
            ledger: Guarded::zeros(LEDGER, 1),
        };
        for (at, byte) in core.image.iter_mut().enumerate() {
            *byte = byte_at(at);
        }
        core.kinds[..SECTORS - 2].fill(DATA);
        let mut volume = Volume::begun(&core.disc());
        for (v, (block, extents)) in (0..).zip(ENTRIES.into_iter().zip(runs)) {
            let entry = entry_sector(block, extents);
            core.image[block as usize * SECTOR..][..SECTOR].copy_from_slice(&entry);
            volume.set(v, block);
        }
        core.ledger.copy_from_slice(&volume.to_bytes());
        Disc { core, compared: 0 }
    }

    /// What a view of so many bytes shows, or its refusal.
    fn view(&mut self, v: u32, offset: u64, most: usize) -> Result<Vec<u8>, u32> {
        let call = Call::View { v, offset };
        let mut expected = vec![0xC7; most];
        let lent = Lent {
            image: &self.core.image,
            kinds: &self.core.kinds,
            roles: &self.core.roles,
            ledger: &self.core.ledger,
            buffer: &expected,
        };
        let effect = effect(&lent, call);
        let told = match &effect {
            Ok(effect) => Answer::done(effect.second),
            Err(refusal) => Answer::refused(*refusal),
        };
        if let Ok(effect) = effect {
            effect.show_in(&mut expected);
        }
        let (kinds, ledger) = (self.core.kinds.to_vec(), self.core.ledger.to_vec());
        let mut buffer = vec![0xC7; most];
        let answer = self.core.call_lent(call, &mut buffer);
        assert_eq!(answer, told, "{most} bytes from {offset}");
        assert!(buffer == expected, "{most} bytes from {offset}");
        assert!(self.core.kinds[..] == kinds && self.core.ledger[..] == ledger);
        self.compared += 1;
        buffer.truncate(answer.second as usize);
        match answer.outcome {
            0 => Ok(buffer),
            refusal => Err(refusal),
        }
    }

    /// Every byte of the image but the entries is what it was.
    fn compare_image(&self) {
        let entries = ENTRIES[0] as usize * SECTOR..(ENTRIES[1] as usize + 1) * SECTOR;
        let bytes = self.core.image.iter().enumerate();
        let mut others = bytes.filter(|(at, _)| !entries.contains(at));
        assert!(others.all(|(at, byte)| *byte == byte_at(at)));
    }
}

/// Views one after another, to the run's end, are its extents one after another.
fn shown_from_end_to_end(disc: &mut Disc, extents: &[Extent], most: usize) {
    let mut offset = 0;
    for extent in extents {
        let end = offset + u64::from(extent.length);
        let mut at = extent.location as usize * SECTOR;
        while offset < end {
            let shown = disc.view(0, offset, most.min((end - offset) as usize));
            let shown = shown.expect("a part of the run");
            assert!(shown == disc.core.image[at..at + shown.len()]);
            offset += shown.len() as u64;
            at += shown.len();
        }
    }
    assert_eq!(disc.view(0, offset, most), Ok(vec![]));
    assert_eq!(disc.view(0, offset + 1, most), Err(20));
}

/// The byte of the run of [`gigabytes`] at an offset, by division.
fn byte_of_gigabytes(offset: u64) -> u8 {
    let each = 49_000 * SECTOR as u64;
    let (m, within) = (offset / each, offset % each);
    byte_at((m * SECTOR as u64 + within) as usize)
}

/// Offsets about the ends of extents and about the powers of two from 2 to the 31.
fn far_offsets(length: u64) -> Vec<u64> {
    let each = 49_000 * SECTOR as u64;
    let mut random = Random::seeded(seed());
    let mut offsets: Vec<u64> = (0..30).map(|_| random.next() % length).collect();
    for place in [1, 42, 43, 99].map(|m| m * each) {
        offsets.extend([place - 1, place, place + 1, place - 30_000]);
    }
    for place in [1 << 31, 1 << 32, 1 << 33] {
        offsets.extend([place - 1, place, place + 1, place - 2048]);
    }
    offsets.extend([length - MOST_VIEWED as u64, length - 1, length - 1000]);
    offsets
}

#[test]
fn runs_of_megabytes_and_gigabytes() {
    let (short, long) = (megabytes(), gigabytes());
    let mut disc = Disc::with([&short, &long]);
    for most in [MOST_VIEWED, 65_521] {
        shown_from_end_to_end(&mut disc, &short, most);
    }
    let length = length(&long);
    assert!(length > 2 * (1 << 32));
    for offset in far_offsets(length) {
        let shown = disc.view(1, offset, 40_000).expect("a part of the run");
        assert_eq!(shown.len() as u64, (length - offset).min(40_000));
        let bytes = (offset..).map(byte_of_gigabytes);
        assert!(bytes.zip(&shown).all(|(one, other)| one == *other));
    }
    for (offset, expected) in [
        (length, Ok(vec![])),
        (length + 1, Err(20)),
        (length + (1 << 32), Err(20)),
        (length % (1 << 32) + (1 << 34), Err(20)),
        (u64::MAX, Err(20)),
    ] {
        assert_eq!(disc.view(1, offset, 1000), expected, "from {offset}");
    }
    disc.compare_image();
    println!("{} views compared", disc.compared);
}

/// A sector of another kind anywhere in the extents, though far from what is asked
/// for, and an information length that is right in its low 32 bits alone.
#[test]
fn conditions_of_long_runs() {
    let long = gigabytes();
    let mut disc = Disc::with([&megabytes(), &long]);
    for (block, expected) in [
        (0, 19),
        (1, 19),
        (98, 19),
        (99, 19),
        (25_000, 19),
        (49_097, 19),
        (49_098, 19),
        (49_099, 0),
        (49_989, 0),
    ] {
        for kind in [LINK, UNREADABLE] {
            disc.core.kinds[block] = kind;
            let shown = disc.view(1, 1 << 30, 100);
            assert_eq!(shown.err().unwrap_or(0), expected, "block {block}");
        }
        disc.core.kinds[block] = DATA;
    }
    let mut entry = entry_sector(ENTRIES[1], &long);
    for wrong in [length(&long) % (1 << 32), length(&long) + (1 << 32)] {
        entry[56..64].copy_from_slice(&wrong.to_le_bytes());
        seal(&mut entry, ENTRIES[1]);
        disc.core.image[ENTRIES[1] as usize * SECTOR..][..SECTOR].copy_from_slice(&entry);
        assert_eq!(disc.view(1, 0, 100), Err(19));
    }
}
