//! The simulated power cut.

mod common;

use common::{padded, Folder};
use station::SECTOR;

const OLD: &str = "table at block 11\nsize 2, 1 in use: 1\n";

/// "Commit after close packet, cut after j of 8 sectors: 0 to 7 show the old
/// save, 8 the new."
#[test]
fn a_commit_cut_after_each_sector() {
    for kept in 0..=8 {
        let folder = Folder::example();
        folder.write(0, "run C");
        folder.done("close run.disc");
        let blank = folder.sector(20);
        let told = folder.done(&format!("cut {kept} commit run.disc"));
        let expected = format!("cut after {kept} of 8 sectors, ledger lost\n");
        assert_eq!(told, expected);
        assert_eq!(folder.names(), ["run.disc"]);
        let links = "2".repeat(kept.min(7));
        let kinds = format!("1111222222211{links}{}", if kept == 8 { "1" } else { "" });
        assert_eq!(folder.kinds(), format!("{kinds:0<31}"));
        assert_eq!(folder.sector(20) == blank, kept < 8);
        folder.fails("commit run.disc", 4);
        let new = "clean, table at block 20\nsize 2, 2 in use: 0 to 1\n".into();
        let shown = if kept == 8 {
            new
        } else {
            format!("dirty, {OLD}")
        };
        assert_eq!(folder.done("mount run.disc"), shown);
        assert!(folder.done_with("read run.disc 1", b"") == padded("run B"));
    }
}

#[test]
fn the_next_sector_torn() {
    for kept in 0..8 {
        let folder = Folder::example();
        folder.done("close run.disc");
        let told = folder.done(&format!("cut {kept} --torn commit run.disc"));
        let expected = format!("cut after {kept} of 8 sectors, the next one torn, ledger lost\n");
        assert_eq!(told, expected);
        let kinds = format!("111122222221{}3", "2".repeat(kept));
        assert_eq!(folder.kinds(), format!("{kinds:0<31}"));
        assert_eq!(folder.done("mount run.disc"), format!("dirty, {OLD}"));
        folder.done("commit run.disc");
        assert!(folder.done("list run.disc").ends_with("clean\n"));
    }
}

/// Half a table: some of its bytes are there, and it is no save.
#[test]
fn a_torn_table() {
    let folder = Folder::example();
    folder.done("cut --torn 0 commit run.disc");
    let torn = folder.sector(12);
    assert!(torn[..SECTOR / 2].iter().any(|byte| *byte != 0));
    assert_eq!(folder.done("mount run.disc"), format!("dirty, {OLD}"));
}

/// A write that is kept whole makes no save.
#[test]
fn a_write_cut_after_each_sector() {
    for kept in 0..=8 {
        let folder = Folder::example_on(60);
        folder.done("close run.disc");
        folder.put("block", &[7; SECTOR]);
        let line = format!("cut {kept} write run.disc 0 --from block");
        let told = folder.done(&line);
        assert_eq!(
            told,
            format!("cut after {kept} of 8 sectors, ledger lost\n")
        );
        assert_eq!(folder.sector(19) == [7; SECTOR], kept == 8);
        let state = if kept == 0 { "clean" } else { "dirty" };
        assert_eq!(folder.done("mount run.disc"), format!("{state}, {OLD}"));
        folder.fails("read run.disc 0", 10);
    }
}

/// "Cut before the first table: mount 7; begin is done."
#[test]
fn before_the_first_save() {
    let folder = Folder::begun(31);
    folder.done_with("cut 0 --torn write run.disc 0 --pad", b"run A");
    folder.fails("mount run.disc", 7);
    let told = folder.fails("begin run.disc", 64);
    assert!(
        told.contains("type 'station begin run.disc --anyway'"),
        "{told}"
    );
    assert_eq!(folder.done("begin run.disc --anyway"), "begun, size 0\n");
    assert_eq!(folder.write(0, "run A"), "block 8\n");
}

/// Of a write in an open packet, and of a store.
#[test]
fn how_many_sectors_are_told() {
    for (line, told) in [
        ("cut 0 write run.disc 0 --pad", "cut after 0 of 1 sector"),
        ("cut 1 write run.disc 0 --pad", "cut after 1 of 1 sector"),
        ("cut 1 store run.disc 0", "cut after 1 of 2 sectors"),
    ] {
        let folder = Folder::begun(31);
        let answer = folder.done_with(line, b"run A");
        assert_eq!(answer, format!("{told}, ledger lost\n").as_bytes());
    }
    let folder = Folder::begun(3000);
    folder.put("long", &[7; 1499 * SECTOR]);
    let told = folder.done("cut 1200 store run.disc 0 --from long");
    assert_eq!(told, "cut after 1,200 of 1,500 sectors, ledger lost\n");
}

/// A command that would be refused is refused, and too many sectors are wrong.
#[test]
fn what_cannot_be_cut() {
    let folder = Folder::example();
    folder.fails_with("cut 0 write run.disc 3", &[7; SECTOR], 12);
    folder.fails_with("cut 0 write run.disc 0", b"run", 2);
    let told = folder.fails("cut 2 commit run.disc", 64);
    assert!(
        told.contains("J is at most 1: this commit records 1 sector\n"),
        "{told}"
    );
    let told = folder.fails("cut 1 --torn commit run.disc", 64);
    let below = "with --torn J is below 1: this commit records 1 sector\n";
    assert!(told.contains(below), "{told}");
    let told = folder.fails("cut 0 mount run.disc", 64);
    assert!(
        told.contains("only write, store, commit and close-session can be cut, not mount"),
        "{told}"
    );
    for line in [
        "cut",
        "cut 1",
        "cut commit run.disc",
        "cut 1 commit",
        "cut 1 --torn=x commit a",
    ] {
        folder.fails(line, 64);
    }
    folder.fails("cut 1 commit run.disc --torn", 64);
    folder.done("look-back run.disc 0");
    folder.fails("cut 0 commit run.disc", 5);
}
