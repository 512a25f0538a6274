//! Raw images: another deck's disc made into a disc file, and a disc's sectors
//! given back.

mod common;

use std::fs::{self, File};
use std::os::unix::fs::MetadataExt;

use common::{disc_file, padded, Folder, EXAMPLE_LISTING};
use station::SECTOR;

/// Sectors before the partition, which are not ours.
const FRONT: usize = 5;

/// Document 01's example, and the same as another deck would hand it on: a front,
/// and behind it the recorded sectors, all of them data.
fn example_and_deck() -> (Folder, Vec<u8>) {
    let folder = Folder::example();
    let told = folder.done("export run.disc ours.img");
    assert_eq!(told, "12 sectors exported, 7 without data, as zeros\n");
    let ours = folder.bytes("ours.img");
    folder.put("deck.img", &[&[0xF0; FRONT * SECTOR], &ours[..]].concat());
    (folder, ours)
}

#[test]
fn there_and_back() {
    let (folder, ours) = example_and_deck();
    let told = folder.done("import deck.img deck.disc --start 5");
    let found = "the newest save: table at block 11, 2 numbers\n";
    assert_eq!(told, format!("12 sectors imported, 0 blank\n{found}"));
    assert!(folder.bytes("deck.disc") == disc_file(&[1; 12], &ours));
    assert_eq!(folder.done("list deck.disc"), EXAMPLE_LISTING);
    let told = folder.done("export deck.disc back.img");
    assert_eq!(told, "12 sectors exported\n");
    assert!(folder.bytes("back.img") == ours);
    assert!(!folder.path("deck.disc.ledger").exists());
}

/// The image's sectors lie in many pieces, some of them zeros.
#[test]
fn every_sector_in_its_place() {
    let folder = Folder::new();
    let byte = |place: usize| match place / SECTOR {
        200..400 | 904 => 0,
        sector => (place * 31 + sector * 3 + sector / 256) as u8,
    };
    let image: Vec<u8> = (0..905 * SECTOR).map(byte).collect();
    folder.put("deck.img", &image);
    let told = folder.done("import deck.img deck.disc --start=7 --sectors=1000");
    assert!(
        told.starts_with("898 sectors imported, 102 blank\n"),
        "{told}"
    );
    let kinds = [[1; 898].as_slice(), &[0; 102]].concat();
    let behind = [&image[7 * SECTOR..], &[0; 102 * SECTOR]].concat();
    assert!(folder.bytes("deck.disc") == disc_file(&kinds, &behind));
    assert_eq!(
        folder.done("export deck.disc back.img"),
        "898 sectors exported\n"
    );
    assert!(folder.bytes("back.img") == image[7 * SECTOR..]);
}

#[test]
fn an_imported_disc_is_mounted_and_recorded_on() {
    let (folder, _) = example_and_deck();
    folder.done("import deck.img deck.disc --start 5 --sectors 40");
    folder.fails("commit deck.disc", 4);
    let mounted = "clean, table at block 11\nsize 2, 1 in use: 1\n";
    assert_eq!(folder.done("mount deck.disc"), mounted);
    assert!(folder.done_with("read deck.disc 1", b"") == padded("run B"));
    folder.done_with("write deck.disc 2 --pad", b"run C");
    let saved = "saved, table at block 20: 2 numbers in use, 1 new since the last save: 2\n";
    assert_eq!(folder.done("commit deck.disc"), saved);
    assert!(folder.done_with("read deck.disc 2", b"") == padded("run C"));
    let told = folder.done("export deck.disc back.img");
    assert_eq!(told, "21 sectors exported, 7 without data, as zeros\n");
    folder.done("import back.img back.disc --start 0");
    let listing = folder.done("list deck.disc");
    assert_eq!(folder.done("list back.disc"), listing);
}

/// Without a table it is begun; without `--sectors` there is no room.
#[test]
fn an_imported_disc_without_a_save() {
    let folder = Folder::new();
    folder.put("deck.img", &[7; SECTOR]);
    let told = folder.done("import deck.img deck.disc --start 0 --sectors 30");
    assert!(told.starts_with("1 sector imported, 29 blank\n"), "{told}");
    folder.fails("mount deck.disc", 7);
    folder.done("begin deck.disc --anyway");
    let saved = "saved, table at block 8: 0 numbers in use, none new\n";
    assert_eq!(folder.done("commit deck.disc"), saved);
    folder.done("import deck.img full.disc --start 0");
    folder.done("begin full.disc --anyway");
    folder.fails("commit full.disc", 14);
}

/// The kinds of a disc, and of the image's sectors those with data. A sector after
/// a blank one keeps its block number.
#[test]
fn what_has_no_data_is_zeros() {
    let rows: [(&[u8], &[u8], &str); 5] = [
        (
            &[1, 2, 3, 1, 0, 0],
            &[1, 0, 0, 1],
            "4 sectors exported, 2 without data, as zeros",
        ),
        (
            &[1, 0, 1, 0],
            &[1, 0, 1],
            "3 sectors exported, 1 without data, as zeros",
        ),
        (&[3], &[0], "1 sector exported, 1 without data, as zeros"),
        (&[1, 0], &[1], "1 sector exported"),
        (&[0, 0], &[], "0 sectors exported"),
    ];
    for (kinds, data, told) in rows {
        let folder = Folder::new();
        folder.put(
            "run.disc",
            &disc_file(kinds, &vec![0xEE; kinds.len() * SECTOR]),
        );
        let before = folder.bytes("run.disc");
        assert_eq!(folder.done("export run.disc run.img"), format!("{told}\n"));
        let image: Vec<u8> = data.iter().flat_map(|data| [data * 0xEE; SECTOR]).collect();
        assert!(folder.bytes("run.img") == image, "{kinds:?}");
        assert!(folder.bytes("run.disc") == before);
        assert_eq!(folder.names(), ["run.disc", "run.img"]);
    }
}

/// What is typed, the exit status, and what is told. The image has 17 sectors.
const WRONG: &str = "\
import empty.img x.disc --start 0 | 65 | empty.img is no raw image of a disc: it is empty
import odd.img x.disc --start 0 | 65 | odd.img is no raw image of a disc: it has 1000 bytes, and a sector has 2048
import desk x.disc --start 0 | 65 | desk is no raw image of a disc: it is not a file
import deck.img x.disc --start 17 | 64 | --start is a number from 0 to 16: 17 is too large
import deck.img x.disc --start 4294967295 | 64 | --start is a number from 0 to 16: 4294967295 is too large
import deck.img x.disc --start 5 --sectors 11 | 64 | --sectors 11 is too few: the image has 12 sectors from block 5 on
import deck.img x.disc --start 16 --sectors 0 | 64 | --sectors is a number from 1 to 360000: 0 is too small
import none.img x.disc --start 0 | 66 | there is no file or folder none.img
import deck.img nowhere/x.disc --start 0 | 66 | there is no file or folder nowhere
import deck.img odd.disc --start 0 | 73 | odd.disc cannot be written: it is there already
import deck.img deck.img --start 0 | 73 | deck.img cannot be written: it is there already
import deck.img lost.disc --start 0 | 73 | lost.disc cannot be written: its ledger is there already
export run.disc deck.img | 73 | deck.img cannot be written: it is there already
export run.disc desk | 73 | desk cannot be written: it is there already
export run.disc nowhere/run.img | 73 | nowhere/run.img cannot be written: there is no file or folder nowhere
export run.disc ./run.disc | 64 | IMAGE names the disc, its ledger or its roles
export odd.disc desk/../odd.disc.ledger | 64 | IMAGE names the disc, its ledger or its roles
export odd.disc odd.disc.roles | 64 | IMAGE names the disc, its ledger or its roles";

#[test]
fn what_cannot_be_imported_or_exported() {
    let (folder, _) = example_and_deck();
    folder.put("empty.img", b"");
    folder.put("odd.img", &[7; 1000]);
    folder.put("lost.disc.ledger", b"another disc's");
    folder.put("odd.disc", &disc_file(&[1], &[7; SECTOR]));
    fs::create_dir(folder.path("desk")).expect("a folder");
    for row in WRONG.lines() {
        let [line, status, fault] = row.split(" | ").collect::<Vec<_>>()[..] else {
            panic!("not three parts: {row}");
        };
        let told = folder.fails(line, status.parse().expect("a number"));
        assert_eq!(told.lines().next(), Some(&*format!("station: {fault}")));
    }
}

/// A full CD behind its front, in much less memory than it has bytes. Zeros take no
/// space, neither in the disc file nor in the image that it gives back.
#[test]
fn the_largest_image() {
    let folder = Folder::new();
    let image = File::create(folder.path("deck.img")).expect("a file");
    let sectors = 257 + 360_000;
    image.set_len((sectors * SECTOR) as u64).expect("a hole");
    // Of what is only looked at, the pages may go again.
    let small = "ulimit -d 100000";
    let told = folder.shell(&format!(
        "{small}; station import deck.img deck.disc --start 257"
    ));
    assert!(
        told.starts_with("360,000 sectors imported, 0 blank\n"),
        "{told}"
    );
    let told = folder.done("export deck.disc back.img");
    assert_eq!(told, "360,000 sectors exported\n");
    for (name, head) in [("deck.disc", 9 + 360_000 + 1), ("back.img", 0)] {
        let about = fs::metadata(folder.path(name)).expect(name);
        assert_eq!(about.len(), (head + 360_000 * SECTOR) as u64);
        assert!(about.blocks() * 512 < 1_000_000, "{}", about.blocks());
    }
    let told = folder.run("import deck.img x.disc --start 256");
    let fault = "station: deck.img is no raw image of a disc: \
                 it has 360,001 sectors from block 256 on, and a disc has 360,000 at most\n";
    assert_eq!((told.status, told.err.as_str()), (65, fault));
}

/// Debian's mkudffs puts 220 bytes of extended attributes before its table.
#[test]
fn a_disc_of_mkudffs() {
    let folder = Folder::new();
    let made = "mkudffs --new-file -m cdr -r 1.50 --minblocks=1 deck.img 860 > /dev/null";
    assert_eq!(folder.shell(made), "", "Debian's package udftools");
    let told = folder.done("import deck.img deck.disc --start 257");
    let found = "the newest save: table at block 2, 2 numbers\n";
    assert_eq!(told, format!("3 sectors imported, 0 blank\n{found}"));
    let mounted = "clean, table at block 2\nsize 2, 2 in use: 0 to 1\n";
    assert_eq!(folder.done("mount deck.disc"), mounted);
    let listing = "   k   block  size  used\n   0       2     2     2\nclean\n";
    assert_eq!(folder.done("list deck.disc"), listing);
}

/// What mkudffs is given, the number behind `--start`, and what import finds.
const FOUND: &str = "\
-m cdr -r 1.50 | 257 | the newest save: table at block 42, 2 numbers
-m cdr -r 1.50 | 256 | no save is found from sector 256 on, but from sector 257 on: table at block 42, 2 numbers
-m cdr -r 1.50 | 0 | no save is found from sector 0 on, but from sector 257 on: table at block 42, 2 numbers
-m dvdr -r 1.50 | 257 | no save is found from sector 257 on, but from sector 272 on: table at block 15, 2 numbers
-m cdr -r 1.50 | 260 | no save is found from sector 260 on, but from sector 257 on: table at block 42, 2 numbers
-m cdr -r 2.00 | 257 | no save is found: the image seems to be UDF 2.00 or later, whose tables have another form
-m cdr -r 2.01 --noefe | 257 | no save is found: the image seems to be UDF 2.00 or later, whose tables have another form
-m dvdr -r 2.01 | 272 | no save is found: the image seems to be UDF 2.00 or later, whose tables have another form
-m hd -r 2.01 -b 2048 | 257 | no save is found: the image seems to be UDF 2.00 or later, whose tables have another form
-m hd -r 1.50 -b 2048 | 257 | no save is found: the image seems to be UDF 1.50 or earlier, without a table, as on hard disks and pressed discs";

/// Each is followed by what to do, and none of the others is begun by itself.
#[test]
fn what_another_deck_recorded() {
    for row in FOUND.lines() {
        let [made, start, found] = row.split(" | ").collect::<Vec<_>>()[..] else {
            panic!("not three parts: {row}");
        };
        let folder = Folder::new();
        folder.shell(&format!("mkudffs --new-file {made} deck.img 2000"));
        let told = folder.done(&format!("import deck.img deck.disc --start {start}"));
        assert_eq!(told.lines().nth(1), Some(found), "{made}");
        let advice = told.lines().nth(2).unwrap_or_default();
        match found.split([':', ',']).next() {
            Some("the newest save") => assert_eq!(advice, ""),
            Some("no save is found") => {
                assert!(advice.contains("Do not begin deck.disc"), "{told}")
            }
            _ => assert!(
                advice.starts_with("Import the image again with --start "),
                "{told}"
            ),
        }
        let begun = folder.run("begin deck.disc").status;
        assert_eq!(begun, if advice.is_empty() { 6 } else { 64 }, "{made}");
    }
}

/// ISO 9660 by its name in the sixteenth sector, and bytes that tell nothing.
#[test]
fn what_has_no_tables() {
    let folder = Folder::new();
    let mut image = vec![0; 30 * SECTOR];
    image[16 * SECTOR..][..6].copy_from_slice(b"\x01CD001");
    folder.put("iso.img", &image);
    let told = folder.done("import iso.img iso.disc --start 20");
    assert!(told.contains("seems to be ISO 9660"), "{told}");
    assert!(told.contains("Do not begin iso.disc"), "{told}");
    folder.put("deck.img", &[0xC3; 30 * SECTOR]);
    let told = folder.done("import deck.img deck.disc --start 20");
    let found = "no save is found, and the image does not tell what it is";
    assert_eq!(told.lines().nth(1), Some(found));
    assert!(
        told.contains("Look at the number behind --start again"),
        "{told}"
    );
}

/// What is made is made, though nobody is told.
#[test]
fn an_answer_that_cannot_be_told() {
    let (folder, _) = example_and_deck();
    for line in [
        "import deck.img deck.disc --start 5",
        "export run.disc back.img",
    ] {
        let told = folder.shell(&format!("station {line} > /dev/full; echo $?"));
        assert!(
            told.contains(" sectors ") && told.ends_with("\n74\n"),
            "{told}"
        );
    }
    assert_eq!(folder.done("list deck.disc"), EXAMPLE_LISTING);
}

/// The words go aside; the disc is free while the bytes go out.
#[test]
fn export_as_a_stream() {
    let (folder, ours) = example_and_deck();
    let told = folder.run("export run.disc -");
    assert!(told.status == 0 && told.out == ours);
    assert_eq!(told.err, "12 sectors exported, 7 without data, as zeros\n");
    assert!(!folder.path("-").exists());
    folder.done("export run.disc ./-");
    assert!(folder.bytes("-") == ours);
    let told = folder.shell("station export run.disc - | true");
    assert!(told.is_empty() || told.starts_with("12 sectors"), "{told}");
    let told = folder.shell("station export run.disc - 2>&1 > /dev/full; echo $?");
    assert!(told.starts_with("station: no answer can be told"), "{told}");
    let other = "timeout 60 station mount run.disc > /dev/null; wc -c";
    let told = folder.shell(&format!("station export run.disc - 2> told | ({other})"));
    assert_eq!(told, format!("{}\n", ours.len()));
}
