//! Document 01's claim after a list: what mount, look back and read then show
//! is what the book has; and, by document 02, the time of each save is the one
//! that it was made with, and a view shows the run whose entry the book has.

use station_model::answer::Answer;
use station_model::book::{Content, History, InUse, Snapshot};
use station_model::calls::Call;
use station_model::ledger::{Volume, LEDGER};
use station_model::roles::Since;
use station_model::table::{LIMIT, NONE, SECTOR};
use station_model::time::{Moment, Stamp, TIME};

use super::core::Core;
use super::random::Random;
use super::roles::astray;
use super::runs;
use super::station::refused;

/// Compares what the core shows of a disc with the book, on a copy, or says
/// where they differ.
pub fn compare(core: &Core, history: &History, random: &mut Random) -> Result<(), String> {
    let mut copy = core.clone();
    match history.page_back(0) {
        None => mount_finds_nothing(&mut copy, random)?,
        Some(page) => shows(&mut copy, Call::Mount, page, random)?,
    }
    for k in 0..history.pages.len() {
        let page = history.page_back(k).zip(history.stamp_back(k));
        let (page, stamp) = page.expect("k is below the number of pages");
        shows(&mut copy, Call::LookBack(k as u32), page, random)?;
        tells(&mut copy, k as u32, Ok(stamp), random)?;
    }
    let untouched = copy.image[..] == core.image[..] && copy.kinds[..] == core.kinds[..];
    check(untouched, || {
        "mount, look back, read and time of changed the disc".into()
    })
}

/// "done exactly if there is a page, else 7"
fn mount_finds_nothing(copy: &mut Core, random: &mut Random) -> Result<(), String> {
    let before = random.bytes(LEDGER);
    copy.ledger.copy_from_slice(&before);
    let roles = copy.roles.to_vec();
    let answer = copy.call(Call::Mount);
    check(answer == refused(7), || {
        format!("no page, and mount answers {answer:?}")
    })?;
    check(copy.ledger[..] == before && copy.roles[..] == roles, || {
        "a refused mount changed the ledger or a role".into()
    })?;
    tells(copy, 0, Err(7), random)
}

/// Time of k, lent any ledger, tells the save's own time, or 16 if that breaks the
/// limits; where there is no save, it answers this refusal. It leaves the ledger,
/// and a refusal the lent answer too.
fn tells(
    copy: &mut Core,
    k: u32,
    stamp: Result<&Stamp, u32>,
    random: &mut Random,
) -> Result<(), String> {
    let ledger = random.bytes(LEDGER);
    copy.ledger.copy_from_slice(&ledger);
    let before: [u8; TIME] = random.next().to_le_bytes();
    let mut shown = before;
    let answer = copy.call_lent(Call::TimeOf(k), &mut shown);
    let moment = stamp.and_then(|stamp| Moment::told_by(stamp).ok_or(16));
    let (expected, bytes) = match moment {
        Ok(moment) => (Answer::done(0), moment.to_bytes()),
        Err(refusal) => (refused(refusal), before),
    };
    check(answer == expected && shown == bytes, || {
        format!("time of {k} answers {answer:?}, {shown:?}; the book has {expected:?}, {bytes:?}")
    })?;
    check(copy.ledger[..] == ledger, || {
        format!("time of {k} changed the ledger")
    })
}

/// "lent any [...] bytes as ledger": the call is done, "size and entries are the [...]
/// page's", and reads give what it has.
fn shows(copy: &mut Core, call: Call, page: &Snapshot, random: &mut Random) -> Result<(), String> {
    random.fill(&mut copy.ledger);
    random.fill(&mut copy.roles);
    let answer = copy.call(call);
    check(answer.outcome == 0, || {
        format!("{call:?} answers {answer:?}")
    })?;
    let volume = copy.volume();
    check_scan(copy, &volume)?;
    check(volume.size == page.size(), || {
        let size = volume.size;
        format!("{call:?} shows size {size}, the page has {}", page.size())
    })?;
    check(same_map(&volume, page), || {
        format!("{call:?} shows other entries than the page")
    })?;
    for v in numbers(page, random) {
        reads(copy, v, page).map_err(|found| format!("after {call:?}, {found}"))?;
        let block = page.in_use(v).map_or(NONE, |entry| entry.block);
        if runs::is_likely(&copy.disc(), block) || random.one_in(16) {
            views(copy, v, page, random).map_err(|found| format!("after {call:?}, {found}"))?;
        }
    }
    Ok(())
}

/// Each number of a small page, and some of a large one, those about the borders of its
/// table's own sectors among them; and numbers that it does not have.
fn numbers(page: &Snapshot, random: &mut Random) -> Vec<u32> {
    let size = page.size();
    let mut numbers: Vec<u32> = match size {
        0..100 => (0..size).collect(),
        _ => {
            let borders = (0..=size).step_by(512);
            let about = borders.flat_map(|v| [v.wrapping_sub(1), v]);
            let any = (0..20).map(|_| random.below(size as usize) as u32);
            about.chain(any).chain([size - 1]).collect()
        }
    };
    numbers.extend([size, size + 1, size + 2, LIMIT as u32, NONE]);
    numbers
}

/// Every role is that of a scan, whatever was lent.
fn check_scan(copy: &Core, volume: &Volume) -> Result<(), String> {
    let difference = astray(&copy.disc(), volume, &copy.roles, &Since::default());
    difference.map_or(Ok(()), Err)
}

fn same_map(volume: &Volume, page: &Snapshot) -> bool {
    let block = |v| page.in_use(v).map_or(NONE, |entry| entry.block);
    let mut numbered = (0..).zip(volume.map);
    numbered.all(|(v, entry)| entry == block(v))
}

/// "gives what that page has for v, or 10 if not in use"; a refusal leaves the
/// lent block as it was.
fn reads(copy: &mut Core, v: u32, page: &Snapshot) -> Result<(), String> {
    let before = [v as u8 ^ 0x3C; SECTOR];
    let mut block = before;
    let answer = copy.call_lent(Call::Read(v), &mut block);
    let (expected, bytes) = match page.in_use(v).map(|entry| &entry.content) {
        None => (refused(10), &before),
        Some(Content::Unreadable) => (refused(11), &before),
        Some(Content::Bytes(bytes)) => (Answer::done(0), &**bytes),
    };
    check(answer == expected, || {
        format!("read {v} answers {answer:?}, the page has {expected:?}")
    })?;
    check(block == *bytes, || format!("read {v} gives other bytes"))
}

/// Shows of the run what the disc has in its extents, if the page has an entry for v.
fn views(copy: &mut Core, v: u32, page: &Snapshot, random: &mut Random) -> Result<(), String> {
    let before = vec![v as u8 ^ 0x3C; random.below(2 * SECTOR)];
    let offset = runs::offset(random);
    let mut expected = before.clone();
    let run = match page.in_use(v) {
        None => Err(10),
        Some(InUse {
            content: Content::Unreadable,
            ..
        }) => Err(11),
        Some(InUse { block, .. }) => copy.disc().run_at(*block).ok_or(19),
    };
    let told = match run {
        Err(refusal) => refused(refusal),
        Ok(run) if offset > run.length() => refused(20),
        Ok(run) => {
            let shown = run.bytes_from(offset, before.len());
            expected[..shown.len()].copy_from_slice(&shown);
            Answer::done(shown.len() as u32)
        }
    };
    let mut buffer = before;
    let answer = copy.call_lent(Call::View { v, offset }, &mut buffer);
    check(answer == told && buffer == expected, || {
        format!("view {v} from {offset} answers {answer:?}, to be shown {told:?}")
    })
}

fn check(holds: bool, difference: impl FnOnce() -> String) -> Result<(), String> {
    if holds {
        Ok(())
    } else {
        Err(difference())
    }
}
