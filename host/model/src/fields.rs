//! "Multi-byte fields are little-endian."

/// The 16-bit field at a byte.
pub fn u16_at(bytes: &[u8], at: usize) -> u16 {
    u16::from_le_bytes(field_at(bytes, at))
}

/// The 32-bit field at a byte.
pub fn u32_at(bytes: &[u8], at: usize) -> u32 {
    u32::from_le_bytes(field_at(bytes, at))
}

/// The 64-bit field at a byte.
pub fn u64_at(bytes: &[u8], at: usize) -> u64 {
    u64::from_le_bytes(field_at(bytes, at))
}

fn field_at<const LENGTH: usize>(bytes: &[u8], at: usize) -> [u8; LENGTH] {
    *bytes[at..].first_chunk().expect("a field within the bytes")
}

/// Sets the bytes of a field.
pub fn put(bytes: &mut [u8], at: usize, field: &[u8]) {
    bytes[at..at + field.len()].copy_from_slice(field);
}
