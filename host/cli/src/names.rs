//! A name as it is shown: no letter of it commands a terminal, ends a line or is
//! unfit for XML. And the folder in it.

use std::fmt::Write;
use std::os::unix::ffi::OsStrExt;
use std::path::Path;

/// The name with each letter that is none to read as an escape, `\n` or `\u{1b}`, and
/// each byte that is no text as `\xff`. In a name that has an escape a backslash is
/// doubled, so that it can be read back; others are shown as they are.
pub fn shown(name: &Path) -> String {
    let bytes = name.as_os_str().as_bytes();
    match std::str::from_utf8(bytes) {
        Ok(text) if text.chars().all(is_readable) => text.into(),
        _ => bytes
            .utf8_chunks()
            .map(|chunk| {
                let letters: String = chunk.valid().chars().map(escaped).collect();
                letters + &as_bytes(chunk.invalid())
            })
            .collect(),
    }
}

fn as_bytes(bytes: &[u8]) -> String {
    let mut text = String::new();
    for byte in bytes {
        let _ = write!(text, "\\x{byte:02x}");
    }
    text
}

fn escaped(letter: char) -> String {
    match letter {
        '\\' => "\\\\".into(),
        _ if is_readable(letter) => letter.into(),
        _ => letter.escape_default().to_string(),
    }
}

/// No control character; none that turns the direction of what follows, or breaks
/// the line; and none that XML forbids.
fn is_readable(letter: char) -> bool {
    let turns = matches!(letter, '\u{61C}' | '\u{200E}' | '\u{200F}' | '\u{202A}'..='\u{202E}' | '\u{2066}'..='\u{2069}');
    let breaks = matches!(letter, '\u{2028}' | '\u{2029}');
    let forbidden = matches!(letter, '\u{FFFE}' | '\u{FFFF}');
    !(letter.is_control() || turns || breaks || forbidden)
}

/// The folder that a file is in; it need not exist yet.
pub fn folder_of(path: &Path) -> &Path {
    match path.parent() {
        Some(folder) if folder != Path::new("") => folder,
        _ => Path::new("."),
    }
}

#[cfg(test)]
mod tests {
    use std::ffi::OsStr;
    use std::os::unix::ffi::OsStrExt;
    use std::path::Path;

    use super::shown;

    #[test]
    fn names_with_and_without_escapes() {
        let rows: [(&[u8], &str); 11] = [
            (b"", ""),
            (b"run.disc", "run.disc"),
            ("Läufe/14:05 Uhr.disc".as_bytes(), "Läufe/14:05 Uhr.disc"),
            (b"a b'c\"d<e>&f", "a b'c\"d<e>&f"),
            (b"deck\\7.disc", "deck\\7.disc"),
            (b"a\nb\tc\rd", "a\\nb\\tc\\rd"),
            (b"\x1b[2J.disc", "\\u{1b}[2J.disc"),
            (b"\x7f\\", "\\u{7f}\\\\"),
            ("a\u{9b}31m".as_bytes(), "a\\u{9b}31m"),
            (
                "\u{202E}csid.nur\u{2028}\u{FFFE}".as_bytes(),
                "\\u{202e}csid.nur\\u{2028}\\u{fffe}",
            ),
            (b"run\xff\xc3.disc", "run\\xff\\xc3.disc"),
        ];
        for (name, told) in rows {
            assert_eq!(shown(Path::new(OsStr::from_bytes(name))), told);
        }
    }

    #[test]
    fn every_letter() {
        for letter in '\0'..=char::MAX {
            let name = letter.to_string();
            let told = shown(Path::new(&name));
            assert!(told == name || told.is_ascii(), "{letter:?}");
            assert!(!told.contains(char::is_control), "{letter:?}");
        }
    }
}
