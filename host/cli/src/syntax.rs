//! The words of each command: its name, operands and options, with its help.

use crate::help;

pub struct Syntax {
    pub name: &'static str,
    pub operands: &'static [&'static str],
    /// Each option, and what follows it, if anything does.
    pub options: &'static [(&'static str, Option<&'static str>)],
    /// Whether the words behind the operands belong to another command.
    pub takes_command: bool,
    pub help: &'static str,
}

/// Whether an operand of this name is a number.
pub fn is_number(operand: &str) -> bool {
    ["SECTORS", "V", "K", "J", "N"].contains(&operand)
}

/// What may follow an option.
const NAME: Option<&str> = Some("a name");
const NUMBER: Option<&str> = Some("a number");
const TYPED_TIME: Option<&str> = Some("a time");
const EXTENT: Option<&str> = Some("a length and a location");

/// A command without options.
const fn plain(
    name: &'static str,
    operands: &'static [&'static str],
    help: &'static str,
) -> Syntax {
    Syntax {
        name,
        operands,
        options: &[],
        takes_command: false,
        help,
    }
}

pub static NEW: Syntax = plain("new", &["DISC", "SECTORS"], help::NEW);
pub static BEGIN: Syntax = Syntax {
    options: &[("--anyway", None)],
    ..plain("begin", &["DISC"], help::BEGIN)
};
pub static MOUNT: Syntax = plain("mount", &["DISC"], help::MOUNT);
pub static WRITE: Syntax = Syntax {
    options: &[("--from", NAME), ("--pad", None)],
    ..plain("write", &["DISC", "V"], help::WRITE)
};
pub static STORE: Syntax = Syntax {
    options: &[("--from", NAME)],
    ..plain("store", &["DISC", "V"], help::STORE)
};
pub static RELEASE: Syntax = plain("release", &["DISC", "V"], help::RELEASE);
pub static CLOSE: Syntax = plain("close", &["DISC"], help::CLOSE);
pub static COMMIT: Syntax = Syntax {
    options: &[("--at", TYPED_TIME), ("--now", None)],
    ..plain("commit", &["DISC"], help::COMMIT)
};
pub static CLOSE_SESSION: Syntax = Syntax {
    options: &[
        ("--main", EXTENT),
        ("--reserve", EXTENT),
        ("--start", NUMBER),
    ],
    ..plain("close-session", &["DISC"], help::CLOSE_SESSION)
};
pub static READ: Syntax = Syntax {
    options: &[("--back", NUMBER), ("--to", NAME), ("--replace", None)],
    ..plain("read", &["DISC", "V"], help::READ)
};
pub static VIEW: Syntax = Syntax {
    options: &[
        ("--back", NUMBER),
        ("--offset", NUMBER),
        ("--length", NUMBER),
        ("--to", NAME),
        ("--replace", None),
    ],
    ..plain("view", &["DISC", "V"], help::VIEW)
};
pub static LOOK_BACK: Syntax = plain("look-back", &["DISC", "K"], help::LOOK_BACK);
pub static TIME: Syntax = plain("time", &["DISC", "K"], help::TIME);
pub static LIST: Syntax = Syntax {
    options: &[("--times", None), ("--long", None)],
    ..plain("list", &["DISC"], help::LIST)
};
pub static STATUS: Syntax = plain("status", &["DISC"], help::STATUS);
pub static CONTENTS: Syntax = Syntax {
    options: &[("--back", NUMBER)],
    ..plain("contents", &["DISC"], help::CONTENTS)
};
pub static SPACE: Syntax = Syntax {
    options: &[("--back", NUMBER)],
    ..plain("space", &["DISC"], help::SPACE)
};
pub static MAP: Syntax = Syntax {
    options: &[("--back", NUMBER), ("--svg", NAME)],
    ..plain("map", &["DISC"], help::MAP)
};
pub static IMPORT: Syntax = Syntax {
    options: &[("--start", NUMBER), ("--sectors", NUMBER)],
    ..plain("import", &["IMAGE", "DISC"], help::IMPORT)
};
pub static EXPORT: Syntax = plain("export", &["DISC", "IMAGE"], help::EXPORT);
pub static CUT: Syntax = Syntax {
    options: &[("--torn", None)],
    takes_command: true,
    ..plain("cut", &["J", "COMMAND"], help::CUT)
};
pub static EXPLAIN: Syntax = plain("explain", &["N"], help::EXPLAIN);
pub static DEMO: Syntax = Syntax {
    options: &[("--keep", NAME)],
    ..plain("demo", &[], help::DEMO)
};
