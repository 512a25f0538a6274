//! Runs longer than a block: what store and view tell, and what they leave.

mod common;

use std::fs::{self, File};
use std::os::unix::fs::symlink;

use common::{disc_file, Folder};
use station::{Extent, LEDGER, SECTOR};

/// Bytes that differ from place to place and from block to block.
fn run(length: usize) -> Vec<u8> {
    let byte = |place: usize| (place % 251 + place / SECTOR) as u8;
    (0..length).map(byte).collect()
}

/// Stores the bytes from a file; what is told.
fn store(folder: &Folder, v: u32, bytes: &[u8]) -> String {
    folder.put("run", bytes);
    folder.done(&format!("store run.disc {v} --from run"))
}

fn view(folder: &Folder, words: &str) -> Vec<u8> {
    folder.done_with(&format!("view run.disc {words}"), b"")
}

#[test]
fn runs_of_each_length() {
    for (length, told) in [
        (1, "1 byte in 1 block, entry at block 1"),
        (2047, "2047 bytes in 1 block, entry at block 1"),
        (2048, "2048 bytes in 1 block, entry at block 1"),
        (2049, "2049 bytes in 2 blocks, entry at block 2"),
        (4097, "4097 bytes in 3 blocks, entry at block 3"),
        (65_536, "65536 bytes in 32 blocks, entry at block 32"),
        (
            3_000_001,
            "3000001 bytes in 1,465 blocks, entry at block 1465",
        ),
    ] {
        let folder = Folder::begun(1800);
        let run = run(length);
        assert_eq!(store(&folder, 0, &run), format!("run of {told}\n"));
        assert!(view(&folder, "0") == run, "{length}");
        let blocks = length.div_ceil(SECTOR);
        let kinds = "1".repeat(blocks + 1);
        assert_eq!(folder.kinds(), format!("{kinds:0<1800}"));
        let last = folder.sector(blocks - 1);
        let filled = length - (blocks - 1) * SECTOR;
        assert!(last[filled..].iter().all(|byte| *byte == 0), "{length}");
    }
}

/// The files are what the core itself leaves, links and all.
#[test]
fn files_hold_what_the_core_leaves() {
    let folder = Folder::begun(40);
    folder.write(0, "run A");
    folder.done("close run.disc");
    let told = store(&folder, 1, &[7; SECTOR + 3]);
    assert_eq!(told, "run of 2051 bytes in 2 blocks, entry at block 10\n");
    let (mut image, mut kinds) = (vec![0; 40 * SECTOR], vec![0; 40]);
    let (mut roles, mut ledger) = (vec![0; kinds.len()], [0; LEDGER]);
    let (i, k, r, l) = (&mut image, &mut kinds, &mut roles, &mut ledger);
    station::begin(i, k, r, l).expect("begin");
    station::write(i, k, r, l, 0, &common::padded("run A")).expect("write");
    station::close_packet(i, k, r, l).expect("close packet");
    station::write_unnumbered(i, k, r, l, &[7; SECTOR]).expect("write");
    station::write_unnumbered(i, k, r, l, &common::padded("\x07\x07\x07")).expect("write");
    let extent = Extent {
        length: SECTOR as u32 + 3,
        location: 8,
    };
    station::write(i, k, r, l, 1, &station::file_entry(&[extent], 10)).expect("write");
    assert!(folder.bytes("run.disc") == disc_file(&kinds, &image));
    assert!(folder.ledger() == ledger && folder.roles() == roles);
}

#[test]
fn store_takes_a_file_or_a_stream() {
    let folder = Folder::begun(100);
    let bytes = run(5000);
    store(&folder, 0, &bytes);
    folder.done_with("store run.disc 1", &bytes);
    folder.done_with("store --from=- run.disc 2", &bytes);
    folder.done("store --from=run -- run.disc 3");
    let told = folder.shell("mkfifo pipe; cat run > pipe & station store run.disc 4 --from pipe");
    assert_eq!(told, "run of 5000 bytes in 3 blocks, entry at block 19\n");
    for v in ["0", "1", "2", "3", "4"] {
        assert!(view(&folder, v) == bytes, "{v}");
    }
    // A file that does not tell its length.
    folder.done("store run.disc 5 --from /proc/version");
    assert!(view(&folder, "5") == fs::read("/proc/version").expect("the version"));
    // The disc is free until the run is there.
    let told = folder.shell("station view run.disc 0 | station store run.disc 6");
    assert!(told.starts_with("run of 5000 bytes in 3 blocks"), "{told}");
}

#[test]
fn an_empty_file_is_no_run() {
    let folder = Folder::begun(31);
    folder.put("empty", b"");
    let told = folder.fails("store run.disc 0 --from empty", 65);
    assert_eq!(told, "station: empty is no run: it is empty\n");
    let told = folder.fails("store run.disc 0", 65);
    assert_eq!(told, "station: standard input is no run: it is empty\n");
    folder.fails("cut 0 store run.disc 0 --from empty", 65);
}

#[test]
fn parts_of_a_run() {
    let folder = Folder::begun(300);
    let length = 3 * 65_536 + 5;
    let run = run(length);
    store(&folder, 0, &run);
    let places = [
        0,
        1,
        2047,
        2048,
        2049,
        65_535,
        65_536,
        65_537,
        length - 1,
        length,
    ];
    for offset in places {
        let rest = &run[offset..];
        assert!(view(&folder, &format!("0 --offset {offset}")) == rest);
        for most in places {
            let words = format!("0 --offset {offset} --length {most}");
            let part = &rest[..most.min(rest.len())];
            assert!(view(&folder, &words) == part, "{words}");
        }
    }
    assert!(view(&folder, "0 --length 18446744073709551615") == run);
    assert!(view(&folder, "--length=3 --offset=7 0") == run[7..10]);
}

#[test]
fn view_gives_a_stream_or_a_file() {
    let folder = Folder::begun(200);
    let run = run(200_000);
    store(&folder, 0, &run);
    folder.write(1, "run B");
    assert!(view(&folder, "0 --to -") == run);
    assert_eq!(folder.done("view run.disc 0 --to shown"), "");
    assert!(folder.bytes("shown") == run);
    folder.fails("view run.disc 1 --to shown", 19);
    folder.fails("view run.disc 0 --offset 200001 --to new", 20);
    symlink("shown", folder.path("link")).expect("a link");
    folder.done("view run.disc 0 --offset 199990 --to link --replace");
    assert!(folder.path("link").is_symlink() && folder.bytes("shown") == run[199_990..]);
    folder.done("view run.disc 0 --offset 200000 --to empty");
    assert!(folder.bytes("empty").is_empty());
    folder.done("view run.disc 0 --to /dev/null");
    for file in [
        "run.disc",
        "./run.disc",
        "run.disc.ledger",
        "run.disc.roles",
    ] {
        folder.fails(&format!("view run.disc 0 --to {file}"), 64);
    }
    folder.fails("view run.disc 0 --to nowhere/shown", 73);
    assert_eq!(folder.shell("station view run.disc 0 | true"), "");
    let told = folder.shell("station view run.disc 0 > /dev/full; echo $?");
    assert!(told.starts_with("station: no answer can be told"), "{told}");
}

/// More than a pipe takes is viewed, and its reader first waits for another command.
#[test]
fn a_view_leaves_the_disc_free() {
    let folder = Folder::begun(1800);
    store(&folder, 0, &run(3_000_000));
    let told =
        folder.shell("station view run.disc 0 | (timeout 60 station commit run.disc; wc -c)");
    let saved = "saved, table at block 1466: 1 number in use, 1 new: 0";
    assert_eq!(told, format!("{saved}\n3000000\n"));
}

/// All blocks, the entry, and 16 sectors that a write leaves, or 264; 7 links where
/// the packet is closed.
#[test]
fn the_room_for_a_run() {
    for (sectors, left) in [(31, 16), (999, 16), (1000, 264)] {
        for links in [0, 7] {
            let folder = Folder::begun(sectors);
            folder.done("commit run.disc");
            if links > 0 {
                folder.done("close run.disc");
            }
            let most = (sectors - 1 - links - 1 - left) * SECTOR;
            folder.put("long", &run(most + 1));
            let told = folder.fails("store run.disc 0 --from long", 14);
            let (blank, takes) = (sectors - 1, links + (most / SECTOR + 1) + 1);
            let start = format!("refusal 14: {blank} sectors are blank; this store takes {takes}");
            assert!(told.contains(&start), "{told}");
            assert!(told.contains(&format!("must leave {left}. ")), "{told}");
            store(&folder, 0, &run(most));
            assert!(view(&folder, "0") == run(most));
            folder.fails_with("store run.disc 1", b"run B", 14);
            folder.done("close run.disc");
            folder.done("commit run.disc");
        }
    }
}

/// What a store says that it takes: as many as a file has, and at least as many as are known
/// of a stream, of which no more is read than the disc has room for.
#[test]
fn the_room_that_a_stream_needs() {
    let folder = Folder::begun(60);
    let takes = |line: &str, count: &str| {
        let told = folder.shell(line);
        let blank = "station: refusal 14: 60 sectors are blank; this store takes";
        let start = format!("{blank} {count} and must leave 16. ");
        assert!(told.starts_with(&start), "{line}: {told}");
    };
    folder.put("long", &run(288 * SECTOR));
    takes("station store run.disc 0 --from long", "289");
    takes("station store run.disc 0 < long", "289");
    takes("station cut 0 store run.disc 0 < long", "289");
    let rest = "(dd bs=2048 count=1 of=read 2> told; station store run.disc 0) < long";
    takes(rest, "288");
    // The disc's file has 60 blocks and 70 bytes.
    for line in [
        "cat long | station store run.disc 0",
        "cat long | station store run.disc 0 --from /dev/stdin",
        "station store run.disc 0 < /dev/zero",
        "head -c 122951 long | station store run.disc 0",
    ] {
        takes(line, "at least 62");
    }
    takes("head -c 122950 long | station store run.disc 0", "62");
    takes("head -c 90113 long | station store run.disc 0", "46");
    folder.done_with("store run.disc 0", &run(43 * SECTOR));
    for (line, count) in [
        ("station store run.disc 1 < long", "289"),
        ("head -c 9 long | station store run.disc 1", "at least 2"),
        ("cat long | station store run.disc 1", "at least 2"),
    ] {
        let told = folder.shell(line);
        let start = format!("station: refusal 14: 16 sectors are blank; this store takes {count} ");
        assert!(told.starts_with(&start), "{line}: {told}");
    }
    folder.done("close run.disc");
    let told = folder.shell("cat long | station store run.disc 1");
    let links = "this store takes at least 9, seven of them links, and must leave 16.";
    assert!(told.contains(links), "{told}");
}

/// A stream without an end.
#[test]
fn a_run_that_does_not_end() {
    let folder = Folder::begun(60);
    let told = folder.shell("station store run.disc 0 < /dev/zero 2> /dev/null; echo $?");
    assert_eq!(told, "14\n");
    let told = folder.shell("station store run.disc 1 --from /dev/zero; echo $?");
    assert!(told.ends_with("\n12\n"), "{told}");
    assert_eq!(folder.write(0, "run A"), "block 0\n");
}

/// A stream that is as long as the memory that is left beside the disc: it is held once,
/// where it is recorded, and leaves nothing beside the disc.
#[test]
fn a_long_stream_in_little_memory() {
    let folder = Folder::begun(33_000);
    let names = folder.names();
    let told = folder.shell(
        "ulimit -v 120000; head -c 65000001 /dev/zero | tr '\\0' x | station store run.disc 0",
    );
    let blocks = "31,739 blocks, entry at block 31739";
    assert_eq!(told, format!("run of 65000001 bytes in {blocks}\n"));
    assert_eq!(folder.names(), names);
    let told =
        folder.shell("station view run.disc 0 | tr -d x | wc -c; station view run.disc 0 | wc -c");
    assert_eq!(told, "0\n65000001\n");
}

/// What waits in memory, and what waits in a file.
#[test]
fn streams_around_a_piece() {
    let folder = Folder::begun(3000);
    for (v, length) in [(1 << 20) - 1, 1 << 20, (1 << 20) + 1, 2 << 20]
        .into_iter()
        .enumerate()
    {
        let bytes = run(length);
        folder.done_with(&format!("store run.disc {v}"), &bytes);
        assert!(view(&folder, &v.to_string()) == bytes, "{length}");
    }
}

/// The number is refused before the stream is read.
#[test]
fn a_stream_whose_number_is_refused() {
    let folder = Folder::begun(60);
    let told = folder.shell("mkfifo pipe; (sleep 5; echo late) > pipe & station store run.disc 3 < pipe 2> told; echo $?; kill $!");
    assert!(told.starts_with("12\n"), "{told}");
    let told = folder.shell("station store run.disc 4087 --from pipe; echo $?");
    assert!(told.ends_with("\n13\n"), "{told}");
}

/// A file of 5 GB, of which nothing is read.
#[test]
fn a_run_that_no_disc_has_room_for() {
    let folder = Folder::begun(360_000);
    let long = File::create(folder.path("long")).expect("a file");
    long.set_len(5_000_000_000).expect("a long file");
    let told = folder.run("store run.disc 0 --from long");
    assert_eq!((told.status, &told.out[..]), (14, &b""[..]), "{told:?}");
    let told = folder.run("store run.disc 1 --from long");
    assert_eq!(told.status, 12, "{told:?}");
    let told = folder.run("store run.disc 4087 --from long");
    assert_eq!(told.status, 13, "{told:?}");
}

/// "A later save never alters what an earlier entry shows."
#[test]
fn look_back_shows_the_run_as_it_was() {
    let folder = Folder::begun(60);
    let (old, new) = (run(5000), vec![9; 3000]);
    store(&folder, 0, &old);
    folder.done("commit run.disc");
    store(&folder, 0, &new);
    assert!(view(&folder, "0") == new);
    folder.done("commit run.disc");
    folder.done("look-back run.disc 1");
    assert!(view(&folder, "0") == old);
    folder.fails_with("store run.disc 0", &new, 5);
    folder.done("mount run.disc");
    assert!(view(&folder, "0") == new);
    folder.done("release run.disc 0");
    folder.fails("view run.disc 0", 10);
    folder.done("look-back run.disc 0");
    assert!(view(&folder, "0") == new);
}

/// What is not committed is lost; its blocks stay on the disc.
#[test]
fn a_run_that_is_not_saved() {
    let folder = Folder::begun(60);
    folder.write(0, "run A");
    folder.done("commit run.disc");
    for (line, kinds) in [
        ("mount run.disc", "11111"),
        ("look-back run.disc 0", "111112222222111"),
    ] {
        store(&folder, 1, &run(SECTOR + 1));
        folder.done(line);
        folder.fails("view run.disc 1", 10);
        assert_eq!(folder.kinds(), format!("{kinds:0<60}"));
        let saved = "dirty, table at block 1\nsize 1, 1 in use: 0\n";
        assert_eq!(folder.done("mount run.disc"), saved);
    }
}

/// A cut after any of the sectors leaves the save before, also where all of them
/// are kept.
#[test]
fn a_store_cut_after_each_sector() {
    for kept in 0..=10 {
        let folder = Folder::begun(40);
        store(&folder, 0, &run(5000));
        folder.done("commit run.disc");
        folder.done("close run.disc");
        folder.put("other", &[9; SECTOR + 1]);
        let told = folder.done(&format!("cut {kept} store run.disc 0 --from other"));
        let all = format!("cut after {kept} of 10 sectors, ledger lost\n");
        assert_eq!(told, all);
        folder.fails("view run.disc 0", 4);
        folder.done("mount run.disc");
        assert!(view(&folder, "0") == run(5000), "{kept}");
    }
    let folder = Folder::begun(40);
    folder.fails_with("cut 3 store run.disc 0", b"run A", 64);
    folder.fails_with("cut 2 --torn store run.disc 0", b"run A", 64);
    folder.fails_with("cut 0 store run.disc 1", b"run A", 12);
    folder.done_with("cut 1 --torn store run.disc 0", b"run A");
    assert!(folder.kinds().starts_with("130"));
}

/// A table sector for the block, as a commit records it there.
fn table_for(block: usize) -> Vec<u8> {
    let sectors = block + 20;
    let (mut image, mut kinds) = (vec![0; sectors * SECTOR], vec![0; sectors]);
    let (mut roles, mut ledger) = (vec![0; kinds.len()], [0; LEDGER]);
    let (i, k, r, l) = (&mut image, &mut kinds, &mut roles, &mut ledger);
    station::begin(i, k, r, l).expect("begin");
    for _ in 0..block {
        let recorded = station::write_unnumbered(i, k, r, l, &[7; SECTOR]);
        recorded.expect("a block");
    }
    let table = station::commit(i, k, r, l).expect("commit");
    assert_eq!(table as usize, block);
    image[block * SECTOR..][..SECTOR].to_vec()
}

/// A run in whose middle, or at whose end, a block would be a save: nothing of it is
/// recorded. At another place, where the block is none, it is stored.
#[test]
fn a_block_of_the_run_that_would_be_a_save() {
    for place in [0, 1, 20] {
        let before = run(place * SECTOR);
        for behind in [0, 1, 3 * SECTOR] {
            let folder = Folder::begun(60);
            let run = [before.clone(), table_for(place), vec![9; behind]].concat();
            folder.put("run", &run);
            let told = folder.fails("store run.disc 0 --from run", 15);
            assert!(told.contains("Pack the run, for example with gzip"));
            folder.fails("cut 1 store run.disc 0 --from run", 15);
            folder.write(0, "run A");
            folder.done("store run.disc 0 --from run");
            folder.done("commit run.disc");
            folder.done("mount run.disc");
            assert!(view(&folder, "0") == run);
        }
    }
}

/// The same of a closing's pointer, whose location may be further on.
#[test]
fn a_block_of_the_run_that_would_be_a_closings_pointer() {
    let pointer = Folder::closed().sector(3);
    let folder = Folder::begun(60);
    folder.fails_with(
        "store run.disc 0",
        &[run(7 * SECTOR), pointer.clone()].concat(),
        15,
    );
    // Not at its start.
    folder.done_with("store run.disc 0", &[run(1), pointer].concat());
}
