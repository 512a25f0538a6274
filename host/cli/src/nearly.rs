//! The command that a mistyped name was meant for.

/// The nearest of the names, if the word is mistyped in one letter or place, or
/// in two where it is long.
pub fn nearest<'a>(word: &str, names: impl Iterator<Item = &'a str>) -> Option<&'a str> {
    let allowed = 1 + word.len() / 6;
    let measured = names.map(|name| (mistypings(word, name), name));
    let (distance, name) = measured.min()?;
    (distance <= allowed).then_some(name)
}

/// How many letters were left out, added, or taken for another, or stand in the
/// wrong order with their neighbour.
fn mistypings(word: &str, name: &str) -> usize {
    let (word, name) = (word.as_bytes(), name.as_bytes());
    let mut rows: Vec<Vec<usize>> = vec![(0..=name.len()).collect()];
    for i in 1..=word.len() {
        let mut row = vec![i];
        for j in 1..=name.len() {
            let other = usize::from(word[i - 1] != name[j - 1]);
            let added_or_left_out = rows[i - 1][j].min(row[j - 1]) + 1;
            let mut least = added_or_left_out.min(rows[i - 1][j - 1] + other);
            let swapped =
                i > 1 && j > 1 && word[i - 1] == name[j - 2] && word[i - 2] == name[j - 1];
            if swapped {
                least = least.min(rows[i - 2][j - 2] + 1);
            }
            row.push(least);
        }
        rows.push(row);
    }
    rows[word.len()][name.len()]
}
