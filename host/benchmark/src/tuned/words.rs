//! Passes over words of 32 bits, such as a map's entries, without an exit: so the
//! compiler takes four at a time.

/// What the words become, joined; 0 joined with any number is that number. Both halves
/// are passed over side by side, so that fewer joins wait for the one before.
#[inline(always)]
pub fn joined(
    bytes: &[u8],
    value: impl Fn(u32) -> u32 + Copy,
    join: impl Fn(u32, u32) -> u32 + Copy,
) -> u32 {
    let words = bytes.as_chunks().0;
    let value = |word: &[u8; 4]| value(u32::from_le_bytes(*word));
    let (odd, even) = words.split_at(words.len() % 2);
    let (front, back) = even.split_at(even.len() / 2);
    let both = front.iter().zip(back);
    let step = |(one, other), (x, y)| (join(one, value(x)), join(other, value(y)));
    let (one, other) = both.fold((0, 0), step);
    join(join(one, other), odd.first().map_or(0, value))
}
