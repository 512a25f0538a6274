//! Closing a session: the word before it, what it records and tells, and what is
//! told of a disc that is closed.

mod common;

use common::{disc_file, padded, Folder, Told, CLOSE_SESSION};
use station::{Extent, LEDGER, SECTOR};

const WORD: &str = "station: closing run.disc: after this nothing can be recorded on it any more\n";
const CLOSED: &str = "closed: nothing can be recorded on this disc any more\n";

/// What a command that is done tells, and what it says beside it.
fn told(folder: &Folder, line: &str) -> (String, String) {
    let Told { status, out, err } = folder.run(line);
    assert_eq!(status, 0, "{line}: {err}");
    (String::from_utf8(out).expect("text"), err)
}

#[test]
fn the_word_before_and_the_answer() {
    let folder = Folder::to_be_closed(300);
    let answer = "saved and closed, pointer at block 3, table at block 259: \
                  2 numbers in use, 1 new since the last save: 1\n";
    assert_eq!(told(&folder, CLOSE_SESSION), (answer.into(), WORD.into()));
    let recorded = "1".repeat(260);
    assert_eq!(folder.kinds(), format!("{recorded:0<300}"));
    assert_eq!(
        folder.names(),
        ["run.disc", "run.disc.ledger", "run.disc.roles"]
    );
}

#[test]
fn behind_links() {
    let folder = Folder::to_be_closed(300);
    folder.done("close run.disc");
    let answer = "saved and closed, pointer at block 10, table at block 266: \
                  2 numbers in use, 1 new since the last save: 1\n";
    assert_eq!(told(&folder, CLOSE_SESSION), (answer.into(), WORD.into()));
    let recorded = format!("1112222222{}", "1".repeat(257));
    assert_eq!(folder.kinds(), format!("{recorded:0<300}"));
}

/// The word is the first that a terminal shows, by the name that was typed.
#[test]
fn as_a_terminal_shows_it() {
    let folder = Folder::to_be_closed(300);
    let line = format!(
        "station {}",
        CLOSE_SESSION.replace("run.disc", "./run.disc")
    );
    let shown = "station: closing ./run.disc: after this nothing can be recorded on it any more\n\
                 saved and closed, pointer at block 3, table at block 259: \
                  2 numbers in use, 1 new since the last save: 1\n";
    assert_eq!(folder.shell(&line), shown);
}

/// The files are what the core itself leaves, with each number at its place.
#[test]
fn files_hold_what_the_core_leaves() {
    let folder = Folder::closed();
    let (mut image, mut kinds) = (vec![0; 300 * SECTOR], vec![0; 300]);
    let (mut roles, mut ledger) = (vec![0; kinds.len()], [0; LEDGER]);
    let (i, k, r, l) = (&mut image, &mut kinds, &mut roles, &mut ledger);
    let extent = |location| Extent {
        length: 32768,
        location,
    };
    station::begin(i, k, r, l).expect("begin");
    station::write(i, k, r, l, 0, &padded("run A")).expect("write");
    station::commit(i, k, r, l).expect("commit");
    station::write(i, k, r, l, 1, &padded("run B")).expect("write");
    station::close_session(i, k, r, l, extent(96), extent(240), 257).expect("close session");
    assert!(folder.bytes("run.disc") == disc_file(&kinds, &image));
    assert!(folder.ledger() == ledger && folder.roles() == roles);
    let numbers = [257 + 3, 32768, 96, 32768, 240].map(u32::to_le_bytes);
    assert_eq!(folder.sector(3)[12..32], numbers.concat());
}

/// On a disc of 1,000 sectors the last write leaves 264: a closing fits behind it
/// with its links, and behind a commit without them.
#[test]
fn the_room_that_the_last_write_leaves() {
    for (lines, status) in [
        (&["close run.disc"][..], 0),
        (&["commit run.disc"], 0),
        (&["commit run.disc", "mount run.disc"], 14),
    ] {
        let folder = Folder::new();
        let kinds = [vec![1; 728], vec![0; 272]].concat();
        folder.put("run.disc", &disc_file(&kinds, &vec![7; 1000 * SECTOR]));
        folder.done("begin run.disc --anyway");
        assert_eq!(folder.write(0, "run A"), "block 735\n");
        folder.fails_with("write run.disc 1 --pad", b"run B", 14);
        for line in lines {
            folder.done(line);
        }
        assert_eq!(folder.run(CLOSE_SESSION).status, status, "{lines:?}");
    }
}

/// Nobody can take a closing back: without the word nothing is recorded.
#[test]
fn a_word_that_cannot_be_told() {
    let folder = Folder::to_be_closed(300);
    let before = folder.files();
    let line = format!("station {CLOSE_SESSION} 2> /dev/full; echo $?");
    assert_eq!(folder.shell(&line), "74\n");
    assert!(folder.files() == before);
    let line = format!("station {CLOSE_SESSION} 2> /dev/null");
    assert!(folder.shell(&line).starts_with("saved and closed"));
}

/// It saves what was written: the newest save has it, and the one before is as it
/// was.
#[test]
fn a_closing_is_a_save() {
    let folder = Folder::closed();
    let mounted = "clean, table at block 259\nsize 2, 2 in use: 0 to 1\n";
    assert_eq!(folder.done("mount run.disc"), format!("{mounted}{CLOSED}"));
    assert!(folder.done_with("read run.disc 1", b"") == padded("run B"));
    folder.fails("time run.disc 0", 16);
    let before = "looking only, 1 back, table at block 1\nsize 1, 1 in use: 0\n";
    assert_eq!(folder.done("look-back run.disc 1"), before);
    assert!(folder.done_with("read run.disc 0", b"") == padded("run A"));
    folder.fails("read run.disc 1", 10);
}

/// The lines of the listing are document 01's, down to the last one.
#[test]
fn the_listing_of_a_closed_disc() {
    let folder = Folder::closed();
    let listing = "   k   block  size  used\n   0     259     2     2\n   1       1     1     1\n";
    let before = folder.files();
    let listed = (format!("{listing}clean\n"), CLOSED.into());
    assert_eq!(told(&folder, "list run.disc"), listed);
    let (text, beside) = told(&folder, "list run.disc --times");
    assert!(text.ends_with("  no time\nclean\n"), "{text}");
    assert_eq!(beside, CLOSED);
    let shown = folder.shell("station list run.disc");
    assert_eq!(shown, format!("{listing}clean\n{CLOSED}"));
    assert!(folder.files() == before);
}

/// Both are told: that the save before cannot be reached, and that the disc is
/// closed.
#[test]
fn a_disc_that_is_closed_and_broken() {
    let folder = Folder::closed();
    folder.set_kind(1, b'3');
    let Told { status, out, err } = folder.run("list run.disc");
    let listing = "   k   block  size  used\n   0     259     2     2\nbroken\n";
    assert_eq!((status, &out[..]), (8, listing.as_bytes()));
    assert!(err.starts_with(&format!("{CLOSED}station: refusal 8: ")));
    assert!(folder.done("mount run.disc").ends_with(CLOSED));
}

/// "the 256 before it have kind 1, and the first of these has [...] a right tag
/// checksum"
#[test]
fn nearly_closed_discs() {
    for (block, digit) in [(3, b'3'), (4, b'2'), (258, b'3')] {
        let folder = Folder::closed();
        folder.set_kind(block, digit);
        is_open(&folder);
    }
    let folder = Folder::closed();
    let mut file = folder.bytes("run.disc");
    file[9 + 300 + 1 + 3 * SECTOR + 4] ^= 1;
    folder.put("run.disc", &file);
    is_open(&folder);
}

fn is_open(folder: &Folder) {
    let mounted = "clean, table at block 259\nsize 2, 2 in use: 0 to 1\n";
    let told = folder.done("mount run.disc");
    assert!(told.starts_with(mounted) && !told.contains(CLOSED));
    assert!(folder.done("list run.disc").ends_with("clean\n"));
    folder.done("commit run.disc");
}

/// A raw image has no kinds: all its sectors are data, as a plain drive reads them.
#[test]
fn a_closed_disc_is_handed_on() {
    let folder = Folder::closed();
    let exported = folder.done("export run.disc run.img");
    assert_eq!(exported, "260 sectors exported\n");
    folder.done("import run.img back.disc --start 0 --sectors 300");
    assert!(folder.done("mount back.disc").ends_with(CLOSED));
    assert!(folder.bytes("back.disc") == folder.bytes("run.disc"));
    folder.fails("commit back.disc", 17);
}

/// A cut closing with this many sectors kept, on a disc with a run that is not saved.
fn cut(folder: &Folder, kept: usize, torn: &str) -> (String, String) {
    folder.done("close run.disc");
    told(folder, &format!("cut {kept} {torn} {CLOSE_SESSION}"))
}

/// "In the cut rule a closing counts as a commit": seven links, the pointer, 255
/// zero sectors and, last of 264, the table.
#[test]
fn a_closing_cut_after_some_of_its_sectors() {
    for kept in [0, 1, 6, 7, 8, 9, 130, 262, 263] {
        let folder = Folder::to_be_closed(600);
        let expected = format!("cut after {kept} of 264 sectors, ledger lost\n");
        assert_eq!(cut(&folder, kept, ""), (expected, String::new()));
        let data = kept.saturating_sub(7);
        let kinds = format!("111{}{}", "2".repeat(kept - data), "1".repeat(data));
        assert_eq!(folder.kinds(), format!("{kinds:0<600}"));
        shows_the_old_save_and_is_closed_anew(&folder);
    }
}

#[test]
fn the_next_sector_torn() {
    for kept in [0, 6, 7, 130, 263] {
        let folder = Folder::to_be_closed(600);
        let expected = format!("cut after {kept} of 264 sectors, the next one torn, ledger lost\n");
        assert_eq!(cut(&folder, kept, "--torn"), (expected, String::new()));
        assert_eq!(folder.kinds().find('3'), Some(3 + kept));
        shows_the_old_save_and_is_closed_anew(&folder);
    }
}

fn shows_the_old_save_and_is_closed_anew(folder: &Folder) {
    folder.fails(CLOSE_SESSION, 4);
    let old = "dirty, table at block 1\nsize 1, 1 in use: 0\n";
    assert_eq!(folder.done("mount run.disc"), old);
    folder.write(1, "run B");
    let (answer, _) = told(folder, CLOSE_SESSION);
    assert!(answer.starts_with("saved and closed, "), "{answer}");
    assert!(folder.done("mount run.disc").ends_with(CLOSED));
}

/// The word is due: what is kept whole closes the disc.
#[test]
fn a_closing_cut_after_its_last_sector() {
    let folder = Folder::to_be_closed(300);
    let expected = "cut after 264 of 264 sectors, ledger lost\n";
    assert_eq!(cut(&folder, 264, ""), (expected.into(), WORD.into()));
    let mounted = "clean, table at block 266\nsize 2, 2 in use: 0 to 1\n";
    assert_eq!(folder.done("mount run.disc"), format!("{mounted}{CLOSED}"));
    folder.fails("commit run.disc", 17);
}

#[test]
fn too_many_sectors_for_a_cut() {
    let folder = Folder::to_be_closed(300);
    let fault = folder.fails(&format!("cut 258 {CLOSE_SESSION}"), 64);
    let most = "J is at most 257: this close-session records 257 sectors";
    assert!(fault.contains(most), "{fault}");
    let fault = folder.fails(&format!("cut 257 --torn {CLOSE_SESSION}"), 64);
    assert!(fault.contains("with --torn J is below 257"), "{fault}");
}
