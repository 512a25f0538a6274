//! A refusal: its number as the exit status, on standard error one line with the values at
//! hand and what to do, and no file changed.

use super::Folder;

/// Runs the line, and checks all of this; gives what is told behind the number.
pub fn refused_with(folder: &Folder, line: &str, input: &[u8], number: i32) -> String {
    let told = folder.fails_with(line, input, number);
    let start = format!("station: refusal {number}: ");
    let told = told.strip_prefix(&start);
    let told = told.unwrap_or_else(|| panic!("{line}: {told:?}"));
    assert!(told.ends_with(".\n"), "{line}: {told}");
    assert_eq!(told.lines().count(), 1, "{line}: {told}");
    for word in ["mode", "FFFFFFFF", " v ", "lent ", "vat"] {
        assert!(!told.contains(word), "{line}: {told}");
    }
    told.trim_end().into()
}

pub fn refused(folder: &Folder, line: &str, number: i32) -> String {
    refused_with(folder, line, b"", number)
}
