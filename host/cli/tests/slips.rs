//! Slips of the hand: what is shown replaces no disc, an empty input is no run, and a
//! disc on which something is recorded is not begun by itself.

mod common;

use std::fs;
use std::os::unix::fs::{symlink, PermissionsExt};

use common::{disc_file, padded, Folder};
use station::SECTOR;

/// The example with a run as number 0, and another disc beside it.
fn two_discs() -> Folder {
    let folder = Folder::example();
    folder.done_with("store run.disc 0", b"a run");
    folder.done("new b.disc 31");
    folder.done("begin b.disc");
    folder.done_with("write b.disc 0 --pad", b"run P");
    folder.done("commit b.disc");
    folder
}

/// Numbers 1 and 0 of the example.
const SHOWN: [&str; 2] = ["read run.disc 1", "view run.disc 0"];

#[test]
fn what_is_there_is_not_replaced() {
    let folder = two_discs();
    folder.put("shown", b"kept");
    symlink("shown", folder.path("link")).expect("a link");
    symlink("nothing", folder.path("lost")).expect("a link");
    for line in SHOWN {
        for (file, reason) in [
            ("shown", "it is there already (--replace replaces it)"),
            ("link", "it is there already (--replace replaces it)"),
            ("lost", "it is there already"),
            ("b.disc", "it is there already, and is a disc"),
            (
                "b.disc.ledger",
                "it is there already, and is the ledger or the roles of a disc",
            ),
        ] {
            let told = folder.fails(&format!("{line} --to {file}"), 73);
            let fault = format!("station: {file} cannot be written: {reason}\n");
            assert_eq!(told, fault, "{line}");
        }
        assert_eq!(folder.done(&format!("{line} --to new")), "");
        fs::remove_file(folder.path("new")).expect("a new file");
        let told = folder.fails(&format!("{line} --replace"), 64);
        assert!(
            told.contains("--replace belongs to --to and a file"),
            "{told}"
        );
        folder.fails(&format!("{line} --replace --to -"), 64);
    }
}

#[test]
fn what_is_replaced_if_that_is_asked_for() {
    let folder = two_discs();
    for (line, bytes) in SHOWN.into_iter().zip([padded("run B"), b"a run".to_vec()]) {
        folder.put("shown", b"old");
        let narrow = fs::Permissions::from_mode(0o600);
        fs::set_permissions(folder.path("shown"), narrow).expect("permissions");
        folder.done(&format!("{line} --to shown --replace"));
        assert!(folder.bytes("shown") == bytes, "{line}");
        let about = fs::metadata(folder.path("shown")).expect("the file");
        assert_eq!(about.permissions().mode() & 0o777, 0o600);
        folder.done(&format!("{line} --to /dev/null --replace"));
        let piped =
            format!("mkfifo pipe; cat pipe | wc -c & station {line} --to pipe; wait; rm pipe");
        assert_eq!(folder.shell(&piped).trim(), bytes.len().to_string());
    }
}

/// A disc by its form, also one that is damaged, and what lies beside a disc by its name.
#[test]
fn what_is_never_replaced() {
    let folder = two_discs();
    let whole = folder.bytes("b.disc");
    folder.put("cut.disc", &whole[..whole.len() / 2]);
    folder.put("lost.ledger", b"whose disc is elsewhere");
    symlink("b.disc", folder.path("link")).expect("a link");
    fs::hard_link(folder.path("b.disc"), folder.path("second")).expect("a name");
    for line in SHOWN {
        for (file, what) in [
            ("b.disc", "a disc"),
            ("second", "a disc"),
            ("link", "a disc"),
            ("cut.disc", "a disc"),
            ("b.disc.ledger", "the ledger or the roles of a disc"),
            ("b.disc.roles", "the ledger or the roles of a disc"),
            ("lost.ledger", "the ledger or the roles of a disc"),
        ] {
            let told = folder.fails(&format!("{line} --to {file} --replace"), 73);
            let reason = format!("it is {what}, which --replace leaves alone");
            assert!(told.contains(&reason), "{told}");
        }
    }
}

/// A disc by such a name would be replaced by the next mount of the other.
#[test]
fn the_places_beside_a_disc() {
    let folder = two_discs();
    folder.put("deck.img", &[7; SECTOR]);
    for end in ["ledger", "roles"] {
        fs::remove_file(folder.path(&format!("b.disc.{end}"))).expect("a file");
        for line in [
            format!("new b.disc.{end} 31"),
            format!("import deck.img b.disc.{end} --start 0"),
            format!("export run.disc b.disc.{end}"),
            format!("map run.disc --svg b.disc.{end}"),
            format!("read run.disc 1 --to b.disc.{end}"),
            format!("view run.disc 0 --to b.disc.{end} --replace"),
        ] {
            let told = folder.fails(&line, 73);
            assert!(
                told.contains("the name is for what lies beside b.disc"),
                "{told}"
            );
        }
    }
    folder.done("read run.disc 1 --to c.disc.ledger");
}

/// A measuring command that failed.
#[test]
fn an_empty_input_is_no_run() {
    let folder = Folder::begun(31);
    folder.put("empty", b"");
    for line in [
        "write run.disc 0 --pad",
        "write run.disc 0",
        "cut 0 write run.disc 0 --pad",
    ] {
        let told = folder.fails(line, 65);
        assert_eq!(told, "station: standard input is no run: it is empty\n");
        let told = folder.fails(&format!("{line} --from empty"), 65);
        assert_eq!(told, "station: empty is no run: it is empty\n");
    }
    let told = folder.shell("false | station write run.disc 0 --pad; echo $?");
    assert!(told.ends_with("\n65\n"), "{told}");
    assert_eq!(folder.write(0, "\n"), "block 0\n");
}

#[test]
fn a_disc_with_recorded_sectors_is_begun_by_another_word() {
    let folder = Folder::begun(31);
    assert_eq!(folder.done("begin run.disc"), "begun, size 0\n");
    folder.write(0, "run A");
    let told = folder.fails("begin run.disc", 64);
    let start = "station: run.disc has 1 recorded sector and no save; commit saves what is written";
    assert!(told.starts_with(start), "{told}");
    assert!(
        told.contains("type 'station begin run.disc --anyway'"),
        "{told}"
    );
    folder.done("commit run.disc");
    for line in ["begin run.disc", "begin run.disc --anyway"] {
        folder.fails(line, 6);
    }
    let folder = Folder::begun(31);
    folder.done_with("cut 1 write run.disc 0 --pad", b"run A");
    let told = folder.fails("begin run.disc", 64);
    assert!(told.contains("If the power failed before"), "{told}");
    for line in ["begin run.disc --anyway", "begin run.disc"] {
        assert_eq!(folder.done(line), "begun, size 0\n");
    }
    assert_eq!(folder.write(0, "run A"), "block 8\n");
}

/// A file set descriptor, which no deck of ours records.
#[test]
fn a_disc_of_another_deck_is_not_begun() {
    let mut sector = [0; SECTOR];
    sector[..5].copy_from_slice(&[0, 1, 2, 0, 3]);
    let folder = Folder::new();
    folder.put(
        "run.disc",
        &disc_file(&[1, 0], &[sector, [0; SECTOR]].concat()),
    );
    let told = folder.fails("begin run.disc", 64);
    let start = "station: run.disc has 1 recorded sector and no save, and seems to be another";
    assert!(told.starts_with(start), "{told}");
    assert!(told.contains("Leave it as it is"), "{told}");
    folder.done("begin run.disc --anyway");
}
