//! Whether a state is what document 01 lets a power cut leave: of the disc, and
//! by what mount, list, look back and read show of it, compared with the book.

use std::io::Write;
use std::process::{Command, Stdio};

use station::{Refusal, LEDGER, SECTOR};
use station_model::book::{Content, History, Snapshot};

use super::noted::State;
use super::RUN;
use crate::form::Disc;
use crate::ledger::Map;
use crate::listing::{listing, Columns};
use crate::mark;
use crate::roles;

/// The first blank sector.
pub fn recorded(disc: &Disc) -> usize {
    station::recorded(disc.lent().1)
}

/// "A cut keeps the first j of them": kinds and bytes of data sectors are those
/// after the call up to some sector, and blank from there on.
pub fn is_a_cut(left: &Disc, before: &Disc, after: &Disc) {
    let ((image, kinds), (whole, all)) = (left.lent(), after.lent());
    let kept = recorded(left);
    assert!((recorded(before)..=recorded(after)).contains(&kept));
    assert_eq!(kinds[..kept], all[..kept]);
    assert!(kinds[kept..].iter().all(|kind| *kind == 0), "after a blank");
    for block in (0..kept).filter(|block| kinds[*block] == 1) {
        let bytes = block * SECTOR..(block + 1) * SECTOR;
        assert!(image[bytes.clone()] == whole[bytes], "block {block}");
    }
}

/// A state, with its disc as a command loads it.
pub type Loaded<'a> = (&'a State, &'a Disc);

/// The ledger is that of before or after, and belongs to the disc. A new one never comes
/// before its disc, and an old one is refused as soon as a sector is recorded.
pub fn ledger_is_safe(left: Loaded, before: Loaded, after: Loaded) {
    let recorded_by = |other: Loaded| recorded(left.1) == recorded(other.1);
    let Some(ledger) = &left.0.ledger else {
        let lost = after.0.ledger.is_none() || before.0.ledger.is_none();
        return assert!(lost, "a ledger is lost, and no cut was asked for");
    };
    let ledger = mark::belonging(left.1, ledger).expect("a ledger of this disc");
    if left.0.ledger != before.0.ledger {
        assert!(left.0.ledger == after.0.ledger, "a ledger of no command");
        assert!(recorded_by(after), "a ledger that is ahead of its disc");
    } else if !recorded_by(before) {
        let (image, kinds) = left.1.lent();
        let scratch = &mut vec![0; kinds.len()];
        let answer = station::close_packet(image, kinds, scratch, &mut ledger.to_vec());
        assert_eq!(answer, Err(Refusal::LedgerUnfit));
    }
}

/// The roles, if a command would believe them.
pub fn believed<'a>((state, disc): Loaded<'a>) -> Option<&'a [u8]> {
    let (file, ledger) = (state.roles.as_ref()?, state.ledger.as_ref()?);
    roles::known(file, ledger, disc.lent().1)
}

/// Roles that are believed are those that the command before, or this one, left with
/// just this ledger and so many sectors.
pub fn roles_are_safe(left: Loaded, before: Loaded, after: Loaded) {
    let Some(roles) = believed(left) else { return };
    let left_by = |other: Loaded| {
        let same = recorded(left.1) == recorded(other.1) && left.0.ledger == other.0.ledger;
        same && believed(other) == Some(roles)
    };
    assert!(left_by(before) || left_by(after), "roles of no command");
}

/// Document 01's claim after a list, and the rows of the listing.
pub fn shows_the_book(disc: &Disc, book: &History) {
    let (image, kinds) = disc.lent();
    let (mut roles, mut ledger) = (vec![0x5A; kinds.len()], [0x5A; LEDGER]);
    let mounted = station::mount(image, kinds, &mut roles, &mut ledger);
    match book.page_back(0) {
        None => assert_eq!(mounted, Err(Refusal::NoVat)),
        Some(page) => {
            assert!(mounted.is_ok(), "{mounted:?}");
            shows(disc, &ledger, page);
        }
    }
    for k in 0..book.pages.len() {
        let table = station::look_back(image, kinds, &mut roles, &mut ledger, k as u32);
        assert!(table.is_ok(), "{table:?}");
        shows(disc, &ledger, book.page_back(k).expect("a page"));
    }
    lists(disc, book, mounted == Ok(true));
}

fn shows(disc: &Disc, ledger: &[u8], page: &Snapshot) {
    let (image, kinds) = disc.lent();
    assert_eq!(Map::of(ledger).size, page.size());
    for v in 0..page.size() + 2 {
        let mut block = [0xA5; SECTOR];
        let read = station::read(image, kinds, ledger, v, &mut block);
        match page.in_use(v).map(|entry| &entry.content) {
            None => assert_eq!(read, Err(Refusal::NotInUse)),
            Some(Content::Unreadable) => assert_eq!(read, Err(Refusal::Unreadable)),
            Some(Content::Bytes(bytes)) => assert!(read.is_ok() && block == **bytes),
        }
        shows_whole_run(disc, ledger, v);
    }
}

/// A number that is a run's entry shows the whole run.
fn shows_whole_run(disc: &Disc, ledger: &[u8], v: u32) {
    let (image, kinds) = disc.lent();
    let mut viewed = [0; RUN.len() + 1];
    match station::view(image, kinds, ledger, v, 0, &mut viewed) {
        Ok(filled) => assert!(viewed[..filled as usize] == RUN),
        Err(refusal) => assert!([Refusal::NotInUse, Refusal::NotARun].contains(&refusal)),
    }
}

/// The proved listing program; `rt run`, in crates/list, makes it.
const PROVED_LISTING: &str = concat!(env!("CARGO_MANIFEST_DIR"), "/../../crates/list/out/list");

/// The listing is that of the proved program, which takes discs of up to 31
/// sectors.
pub fn lists_as_proved(left: &State, disc: &Disc) {
    if disc.lent().1.len() > 31 {
        return;
    }
    let mut program = Command::new(PROVED_LISTING);
    program.stdin(Stdio::piped()).stdout(Stdio::piped());
    let mut running = program.spawn().expect(PROVED_LISTING);
    let mut input = running.stdin.take().expect("a pipe");
    input.write_all(&left.disc).expect("it reads a whole disc");
    drop(input);
    let output = running.wait_with_output().expect("an answer");
    assert_eq!(
        listing(disc, Columns::default()).0.as_bytes(),
        output.stdout
    );
}

/// A row for each page, with its size and how many numbers are in use.
fn lists(disc: &Disc, book: &History, clean: bool) {
    let (text, refusal) = listing(disc, Columns::default());
    if book.pages.is_empty() {
        assert_eq!(
            (text.as_str(), refusal),
            ("refused   7\n", Some(Refusal::NoVat))
        );
        return;
    }
    let state = if clean { "clean" } else { "dirty" };
    let mut rows: Vec<String> = vec!["   k   block  size  used".into()];
    for (k, page) in book.pages.iter().rev().enumerate() {
        let used = page.entries.iter().flatten().count();
        rows.push(format!("{k:4}{:6}{used:6}", page.size()));
    }
    rows.push(state.into());
    // The table's block is nothing that the book has.
    let without_block = |line: &str| match line.starts_with(' ') && !line.contains('k') {
        true => [&line[..4], &line[12..]].concat(),
        false => line.into(),
    };
    let told: Vec<String> = text.lines().map(without_block).collect();
    assert_eq!((told, refusal), (rows, None));
}
