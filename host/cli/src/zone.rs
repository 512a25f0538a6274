//! Whether the machine was told its zone: by `TZ`, or else by a file of its own. Where
//! it was not, the system's library takes UTC, and does not say so.

use std::env;
use std::ffi::OsStr;
use std::fs::{self, File};
use std::io::Read;
use std::path::{Path, PathBuf};

/// The zone of a machine without `TZ`.
const OF_THE_MACHINE: &str = "/etc/localtime";

/// Where the system keeps its zones, unless `TZDIR` names another folder.
const ZONES: &str = "/usr/share/zoneinfo";

/// What a file of a zone begins with (RFC 8536).
const MAGIC: [u8; 4] = *b"TZif";

pub fn is_known() -> bool {
    let folder = env::var_os("TZDIR").filter(|folder| !folder.is_empty());
    let folder = folder.map_or(ZONES.into(), PathBuf::from);
    is_told(
        env::var_os("TZ").as_deref(),
        &folder,
        Path::new(OF_THE_MACHINE),
    )
}

/// By what `TZ` holds, if it is set: a name among the zones, or of a file, perhaps
/// behind a colon; or a rule.
fn is_told(named: Option<&OsStr>, folder: &Path, of_the_machine: &Path) -> bool {
    let Some(named) = named else {
        return is_zone_file(of_the_machine);
    };
    let Some(text) = named.to_str() else {
        return is_zone_file(&folder.join(named));
    };
    let name = text.strip_prefix(':').unwrap_or(text);
    !name.is_empty() && (is_zone_file(&folder.join(name)) || is_rule(name))
}

/// What it is, is asked before: opening a pipe would wait for a writer.
fn is_zone_file(path: &Path) -> bool {
    let mut start = [0; MAGIC.len()];
    if !fs::metadata(path).is_ok_and(|about| about.is_file()) {
        return false;
    }
    let read = File::open(path).and_then(|mut file| file.read_exact(&mut start));
    read.is_ok() && start == MAGIC
}

/// POSIX, "Environment Variables": `std offset [dst [offset] [,start[/time],end[/time]]]`.
fn is_rule(text: &str) -> bool {
    let behind = after_name(text).and_then(after_offset);
    match behind {
        Some("") => true,
        Some(summer) => after_summer(summer) == Some(""),
        None => false,
    }
}

fn after_summer(text: &str) -> Option<&str> {
    let name = after_name(text)?;
    match after_offset(name).unwrap_or(name) {
        "" => Some(""),
        dates => after_date(after_date(dates)?),
    }
}

/// Three letters or more; within `<` and `>` digits and signs too.
fn after_name(text: &str) -> Option<&str> {
    let (name, behind) = match text.strip_prefix('<') {
        Some(quoted) => quoted.split_once('>')?,
        None => {
            let end = text.find(|letter: char| !letter.is_ascii_alphabetic());
            text.split_at(end.unwrap_or(text.len()))
        }
    };
    let fits = |letter: char| letter.is_ascii_alphanumeric() || "+-".contains(letter);
    (name.len() >= 3 && name.chars().all(fits)).then_some(behind)
}

/// How far UTC is ahead.
fn after_offset(text: &str) -> Option<&str> {
    after_clock(text, 24)
}

/// `hh[:mm[:ss]]`, perhaps with a sign.
fn after_clock(text: &str, most_hours: u32) -> Option<&str> {
    let mut behind = after_number(text.strip_prefix(['+', '-']).unwrap_or(text), 0, most_hours)?;
    for _ in 0..2 {
        if let Some(sixtieths) = behind.strip_prefix(':') {
            behind = after_number(sixtieths, 0, 59)?;
        }
    }
    Some(behind)
}

/// When summer time begins or ends: `,Mm.w.d`, `,Jn` or `,n`, perhaps with a time of day,
/// which may lie days before or behind.
fn after_date(text: &str) -> Option<&str> {
    let date = text.strip_prefix(',')?;
    let behind = match (date.strip_prefix('M'), date.strip_prefix('J')) {
        (Some(month), _) => {
            let week = after_number(month, 1, 12)?.strip_prefix('.')?;
            let day = after_number(week, 1, 5)?.strip_prefix('.')?;
            after_number(day, 0, 6)?
        }
        (None, Some(day)) => after_number(day, 1, 365)?,
        (None, None) => after_number(date, 0, 365)?,
    };
    match behind.strip_prefix('/') {
        Some(time) => after_clock(time, 167),
        None => Some(behind),
    }
}

fn after_number(text: &str, least: u32, most: u32) -> Option<&str> {
    let end = text.find(|letter: char| !letter.is_ascii_digit());
    let (digits, behind) = text.split_at(end.unwrap_or(text.len()));
    let number: u32 = digits.parse().ok()?;
    (least..=most).contains(&number).then_some(behind)
}

#[cfg(test)]
mod tests {
    use std::env;
    use std::ffi::OsStr;
    use std::fs;
    use std::path::Path;
    use std::process;

    use super::{is_rule, is_told};

    const RULES: &str = "\
UTC0 CET-1 CET-1CEST CET-1CEST-2 CET-1CEST,M3.5.0,M10.5.0/3 EST5EDT,M3.2.0/2,M11.1.0/2:00:00 \
AAA-1BBB,0/0,J365/25 AAA-1BBB-2,J60/-24,J300/+167 <-00>0 <+0545>-5:45 <-03>3<-02>,M3.5.0/-2,M10.5.0/-1 \
AAA+3:30 AAA-0:53:28 AAA24 AAA-24:59:59 aaa0";

    const NO_RULES: &str = "\
UTC CET Europe/Berlin Nowhere C-1 CE-1 CET- CET+ CET-25 CET-1:60 CET-1:00:60 CET-1:00:00:00 CET-1: \
CET-1CE CET-1CEST, CET-1CEST,M3.5.0 CET-1CEST,M3.5.0,M10.5.0,0 CET-1CEST,M13.5.0,M10.5.0 \
CET-1CEST,M3.6.0,M10.5.0 CET-1CEST,M3.5.7,M10.5.0 CET-1CEST,J0,J300 CET-1CEST,J366,J300 \
CET-1CEST,366,1 CET-1CEST,1,2/168 CET-1CEST,1,2x <-00 <->0 <a.b>0 0 -1 , CÉT-1 CET-１ +01:00";

    #[test]
    fn rules_and_other_texts() {
        for rule in RULES.split_whitespace() {
            assert!(is_rule(rule), "{rule}");
        }
        for other in NO_RULES.split_whitespace() {
            assert!(!is_rule(other), "{other}");
        }
        assert!(!is_rule(""));
    }

    /// With `TZ` and without it, where there are files of zones and where there are none.
    #[test]
    fn names_files_and_nothing() {
        let folder = env::temp_dir().join(format!("station-zones-{}", process::id()));
        fs::create_dir_all(folder.join("Europe")).expect("a folder");
        fs::write(folder.join("Europe/Berlin"), b"TZif2 and so on").expect("a zone");
        fs::write(folder.join("notes"), b"TZ of the bench").expect("a file");
        let (zone, missing) = (folder.join("Europe/Berlin"), folder.join("missing"));
        let told = |named: &str, machine: &Path| is_told(Some(OsStr::new(named)), &folder, machine);
        let absolute = zone.to_str().expect("text");
        for named in ["Europe/Berlin", ":Europe/Berlin", absolute, "UTC0", ":UTC0"] {
            assert!(told(named, &missing), "{named}");
        }
        for named in [
            "",
            ":",
            "Europe",
            "Europe/Paris",
            "notes",
            "UTC",
            "/",
            "::UTC0",
        ] {
            assert!(!told(named, &zone), "{named}");
        }
        assert!(is_told(None, &folder, &zone));
        assert!(!is_told(None, &folder, &missing));
        assert!(!is_told(None, &folder, &folder.join("notes")));
        fs::remove_dir_all(&folder).expect("the folder");
    }
}
