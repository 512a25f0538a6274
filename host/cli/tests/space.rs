//! Where the space went: the roles beside a disc, counted and drawn, and when they
//! are not known.

mod common;

use std::fs;
use std::os::unix::fs::{MetadataExt, PermissionsExt};

use common::{disc_file, Folder, CLOSE_SESSION, LEDGER_FILE};
use station::SECTOR;
use station_model::answer::Answer;
use station_model::calls::Call;
use station_model::disc::Disc;
use station_model::ledger::Volume;
use station_model::roles::Since;

const EXAMPLE: &str = "\
in use                  1     3.2 %
superseded              1     3.2 %
without a number        0     0.0 %
table                   3     9.7 %
link                    7    22.6 %
unreadable              0     0.0 %
blank                  19    61.3 %
";

/// The roles in the file, as digits.
fn roles(folder: &Folder) -> String {
    folder.roles().iter().map(u8::to_string).collect()
}

/// Roles that are known, with the rest blank.
fn has(folder: &Folder, recorded: &str) {
    let sectors = folder.kinds().len();
    assert_eq!(roles(folder), format!("{recorded:6<sectors$}"));
    folder.done("space run.disc");
}

fn unknown(folder: &Folder) {
    for line in ["space run.disc", "map run.disc", "map run.disc --svg x.svg"] {
        let told = folder.fails(line, 69);
        let start = "station: where the space of run.disc went";
        assert!(
            told.starts_with(start) && told.contains("--back 0"),
            "{told}"
        );
    }
}

/// Nor is there a save to look back at: what is told is what helps.
fn unknown_without_a_save(folder: &Folder, todo: &str) {
    for line in ["space run.disc", "map run.disc"] {
        let told = folder.fails(line, 69);
        let start = "station: where the space of run.disc went is not known. ";
        assert!(told.starts_with(start) && told.contains(todo), "{told}");
        assert!(!told.contains("--back"), "{told}");
    }
}

#[test]
fn not_known_and_no_save() {
    let folder = Folder::new();
    folder.done("new run.disc 31");
    unknown_without_a_save(&folder, "run.disc is blank: begin it.");
    folder.done("begin run.disc");
    has(&folder, "");
    folder.write(0, "run A");
    fs::remove_file(folder.path("run.disc.roles")).expect("roles");
    unknown_without_a_save(&folder, "commit saves what is written here: 0.");
    fs::remove_file(folder.path("run.disc.ledger")).expect("a ledger");
    unknown_without_a_save(&folder, "begin it with --anyway");
    folder.done("begin run.disc --anyway");
    has(&folder, "1");
}

#[test]
fn a_line_for_each_role_and_the_answer() {
    let folder = Folder::example();
    let told = folder.done("space run.disc");
    let (lines, answer) = told.split_at(EXAMPLE.len());
    assert_eq!(lines, EXAMPLE);
    assert!(answer.contains("12 of 31 sectors"), "{answer}");
    assert!(answer.contains("links"), "{answer}");
}

#[test]
fn kept_up_by_each_command() {
    let folder = Folder::begun(60);
    has(&folder, "");
    folder.write(0, "run A");
    folder.write(1, "run B");
    folder.done("commit run.disc");
    has(&folder, "003");
    folder.write(0, "run A again");
    has(&folder, "1030");
    folder.done("release run.disc 1");
    has(&folder, "1130");
    folder.done("close run.disc");
    folder.done_with("store run.disc 1", &[7; SECTOR + 1]);
    has(&folder, "11304444444220");
    folder.done("commit run.disc --at 2026-11-15T14:05Z");
    has(&folder, "113044444442203");
    // What a scan finds: nothing tells blocks of runs from others.
    folder.done("mount run.disc");
    has(&folder, "113044444441103");
    folder.done("look-back run.disc 1");
    has(&folder, "003144444441113");
}

/// A line, and the calls that it makes; of a write or store the number changes.
fn command(chosen: u32) -> (String, Vec<Call>) {
    let v = chosen % 5;
    let blocks = [Call::WriteUnnumbered; 2];
    let (line, calls) = match chosen / 5 % 12 {
        0..=3 => (format!("write run.disc {v}"), vec![Call::Write(v)]),
        4 => (
            format!("store run.disc {v}"),
            [&blocks[..], &[Call::Write(v)]].concat(),
        ),
        5 | 6 => ("commit run.disc".into(), vec![Call::Commit]),
        7 | 8 => (format!("release run.disc {v}"), vec![Call::Release(v)]),
        9 => ("close run.disc".into(), vec![Call::ClosePacket]),
        10 => ("mount run.disc".into(), vec![Call::Mount]),
        _ => ("look-back run.disc 1".into(), vec![Call::LookBack(1)]),
    };
    (line, calls)
}

/// "keeping it up on each call gives the same bytes as working it out afresh", over
/// commands, each of which takes roles and ledger from their files.
#[test]
fn kept_up_as_worked_out_afresh() {
    let folder = Folder::begun(300);
    let mut since = Since::default();
    since.feed(Call::Begin, Answer::done(0));
    let (mut chosen, mut done) = (7u32, 0);
    for _ in 0..200 {
        chosen = chosen.wrapping_mul(1_664_525).wrapping_add(1_013_904_223);
        let (line, calls) = command(chosen >> 8);
        let length = if calls.len() > 1 { SECTOR + 9 } else { SECTOR };
        if folder.run_with(&line, &vec![7; length]).status != 0 {
            continue;
        }
        done += 1;
        let kinds: Vec<u8> = folder.kinds().bytes().map(|digit| digit - b'0').collect();
        let next = station::recorded(&kinds) as u32;
        let first = next.saturating_sub(calls.len() as u32);
        for (block, call) in (first..).zip(calls) {
            since.feed(call, Answer::done(block));
        }
        let file = folder.bytes("run.disc");
        let disc = Disc::lent(&file[9 + kinds.len() + 1..], &kinds).expect("a disc");
        let volume = Volume::load(&folder.ledger()).expect("a ledger");
        let afresh = since.roles(&disc, &volume);
        assert_eq!(folder.roles(), afresh, "{line}");
        folder.done("space run.disc");
    }
    assert!(done > 80, "{done}");
}

#[test]
fn of_a_closing() {
    let folder = Folder::to_be_closed(300);
    assert_eq!(folder.run(CLOSE_SESSION).status, 0);
    let before = format!("030{}3", "2".repeat(256));
    has(&folder, &before);
    folder.done("mount run.disc");
    has(&folder, &before.replace('2', "1"));
}

/// The file stays the same one but for a begin, mount or look back: a write on a
/// large disc does not write a byte for each of its sectors.
#[test]
fn changed_in_place() {
    let folder = Folder::begun(60);
    let inode = || {
        let about = fs::metadata(folder.path("run.disc.roles"));
        about.expect("the roles").ino()
    };
    let first = inode();
    folder.write(0, "run A");
    folder.done("commit run.disc");
    folder.done("release run.disc 0");
    folder.done("close run.disc");
    assert_eq!(inode(), first);
    folder.done("mount run.disc");
    assert_ne!(inode(), first);
}

/// A disc of a program that knew no roles: it is recorded on as before, and its roles
/// are known from the next mount on.
#[test]
fn without_a_role_file() {
    let folder = Folder::example();
    fs::remove_file(folder.path("run.disc.roles")).expect("the roles");
    unknown(&folder);
    folder.write(0, "run C");
    folder.done("close run.disc");
    folder.done("commit run.disc");
    folder.done("release run.disc 0");
    assert_eq!(folder.names(), ["run.disc", "run.disc.ledger"]);
    unknown(&folder);
    folder.done("mount run.disc");
    has(&folder, "130344444443044444443");
}

/// A role file that is not that of the ledger is not believed, and does not outlive
/// the next command that changes something.
#[test]
fn a_role_file_that_is_not_the_ledgers() {
    let whole = Folder::example();
    let (file, ledger) = (
        whole.bytes("run.disc.roles"),
        whole.bytes("run.disc.ledger"),
    );
    let mut contradicted = file.clone();
    contradicted[LEDGER_FILE + 1] = 6;
    let mut no_role = file.clone();
    no_role[LEDGER_FILE] = 7;
    let wrong = [
        b"".to_vec(),
        file[..LEDGER_FILE].to_vec(),
        file[..file.len() - 1].to_vec(),
        [&file[..], &[6]].concat(),
        [&[0; LEDGER_FILE], &file[LEDGER_FILE..]].concat(),
        contradicted,
        no_role,
    ];
    for bytes in wrong {
        let folder = Folder::example();
        folder.put("run.disc.roles", &bytes);
        unknown(&folder);
        folder.fails("release run.disc 7", 10);
        folder.done("read run.disc 1 --to shown");
        assert!(folder.bytes("run.disc.roles") == bytes);
        folder.done("close run.disc");
        assert!(!folder.path("run.disc.roles").exists());
        unknown(&folder);
        folder.done("look-back run.disc 0");
        has(&folder, "130344444443");
    }
    // Another program has recorded, and knew no roles.
    whole.write(0, "run C");
    let newer = whole.bytes("run.disc.ledger");
    whole.put("run.disc.roles", &file);
    unknown(&whole);
    whole.put("run.disc.ledger", &ledger);
    unknown(&whole);
    let roles = [&newer, &file[LEDGER_FILE..]].concat();
    whole.put("run.disc.roles", &roles);
    whole.put("run.disc.ledger", &newer);
    unknown(&whole);
}

/// "The ledger is lost", and the roles with it.
#[test]
fn after_a_power_cut() {
    for line in ["cut 0 commit run.disc", "cut 1 commit run.disc"] {
        let folder = Folder::example();
        folder.done(line);
        assert_eq!(folder.names(), ["run.disc"]);
        unknown(&folder);
        folder.done("mount run.disc");
        folder.done("space run.disc");
    }
    let folder = Folder::begun(31);
    folder.done_with("cut 0 --torn write run.disc 0 --pad", b"run A");
    unknown_without_a_save(&folder, "begin it with --anyway");
    folder.done("begin run.disc --anyway");
    has(&folder, "5");
}

/// A copy is known if all three files are copied.
#[test]
fn copied() {
    let folder = Folder::example();
    for end in ["", ".ledger", ".roles"] {
        folder.put(
            &format!("copy.disc{end}"),
            &folder.bytes(&format!("run.disc{end}")),
        );
    }
    let told = folder.done("space run.disc");
    assert_eq!(folder.done("space copy.disc"), told);
    fs::remove_file(folder.path("copy.disc.ledger")).expect("the ledger");
    folder.fails("space copy.disc", 69);
}

/// Nothing is recorded where the roles cannot follow.
#[test]
fn a_role_file_that_is_protected() {
    let folder = Folder::example();
    let protected = fs::Permissions::from_mode(0o444);
    fs::set_permissions(folder.path("run.disc.roles"), protected).expect("permissions");
    let told = folder.fails("commit run.disc", 73);
    let fault = "run.disc.roles cannot be written: it is write-protected\n";
    assert!(told.ends_with(fault), "{told}");
    folder.done("space run.disc");
    folder.done("mount run.disc");
}

/// Nobody needs the roles to read, to record or to mount.
#[test]
fn a_role_file_that_may_not_be_read() {
    let folder = Folder::example();
    let hidden = fs::Permissions::from_mode(0o000);
    fs::set_permissions(folder.path("run.disc.roles"), hidden).expect("permissions");
    let told = folder.run_without_privileges("read run.disc 1");
    assert_eq!(told.status, 0, "{}", told.err);
    let told = folder.run_without_privileges("space run.disc");
    assert_eq!(told.status, 69, "{}", told.err);
}

#[test]
fn looking_back() {
    let folder = Folder::example();
    folder.done("look-back run.disc 2");
    let line = "Looking only: in use is what the save at block 1 names.\n";
    for told in [folder.done("space run.disc"), folder.done("map run.disc")] {
        assert!(told.ends_with(line), "{told}");
    }
    assert!(folder
        .done("map run.disc --svg -")
        .contains(line.trim_end()));
    folder.done("mount run.disc");
    for told in ["space run.disc", "map run.disc", "map run.disc --svg -"] {
        assert!(!folder.done(told).contains("Looking"));
    }
}

/// What can be asked of a disc without a save, and of one that is no disc.
#[test]
fn other_discs() {
    let folder = Folder::begun(9);
    assert!(folder.done("map run.disc").contains("No save."));
    let told = folder.done("space run.disc");
    assert!(
        told.contains("blank                   9   100.0 %\n"),
        "{told}"
    );
    folder.put("odd.disc", &disc_file(&[1, 0], &[7; 2 * SECTOR]));
    folder.fails("space odd.disc", 69);
    folder.put("no.disc", b"no disc");
    folder.fails("space no.disc", 65);
    folder.fails("map no.disc", 65);
    folder.fails("map nowhere", 66);
}

/// Letters for a pipe, and on a terminal where NO_COLOR is set; else colours there,
/// in as many columns as it has.
#[test]
fn drawn_for_a_terminal_or_not() {
    let folder = Folder::example();
    let letters = folder.done("map run.disc");
    assert!(letters.contains("     0  sTuTllllll lT"), "{letters}");
    assert!(letters.contains("3 saves, newest first, at block 11, 3, 1."));
    assert!(letters.lines().all(|line| line.chars().count() <= 80));
    let on_terminal = |set: &str, columns: usize| {
        let line = format!("stty cols {columns}; {set} station map run.disc");
        folder.shell(&format!("script -qec '{line}' /dev/null"))
    };
    let plain = |shown: String| shown.replace("\r\n", "\n");
    let coloured = on_terminal("TERM=xterm NO_COLOR=", 80);
    assert!(coloured.contains("\x1b["), "{coloured}");
    for set in ["TERM=xterm NO_COLOR=1", "TERM=dumb", "env -u TERM"] {
        assert_eq!(plain(on_terminal(set, 80)), letters, "{set}");
    }
    let narrow = plain(on_terminal("TERM=dumb", 50));
    assert!(
        narrow.lines().all(|line| line.chars().count() <= 50),
        "{narrow}"
    );
    assert_ne!(narrow, letters);
}

#[test]
fn a_picture() {
    let folder = Folder::example();
    assert_eq!(
        folder.done("map run.disc --svg disc.svg"),
        "drawn, 31 sectors\n"
    );
    let picture = folder.done("map run.disc --svg -");
    assert!(picture.starts_with("<svg "));
    for told in [
        "block 0: superseded",
        "block 2: in use, number 1",
        "block 3: table, the save 1 back",
        "blocks 4 to 10: link",
        "block 11: table, the newest save",
        "blocks 12 to 30: blank",
    ] {
        assert_eq!(
            picture.matches(&format!("<title>{told}</title>")).count(),
            1,
            "{told}"
        );
    }
    assert!(folder.bytes("disc.svg") == picture.as_bytes());
    let told = folder.fails("map run.disc --svg disc.svg", 73);
    assert!(told.contains("disc.svg cannot be written: it is there already"));
    folder.fails("map run.disc --svg nowhere/disc.svg", 73);
    for file in [
        "run.disc",
        "./run.disc",
        "run.disc.ledger",
        "run.disc.roles",
    ] {
        let told = folder.fails(&format!("map run.disc --svg {file}"), 64);
        assert!(told.contains("--svg names the disc, its ledger or its roles"));
    }
}
