//! Numbers in bytes, the least byte first.

/// The number of the two bytes from a place on.
///
/// Requires that they lie in `bytes`.
pub fn u16_at(bytes: &[u8], place: usize) -> u16 {
    u16::from_le_bytes([bytes[place], bytes[place + 1]])
}

/// The number of the four bytes from a place on.
///
/// Requires that they lie in `bytes`.
pub fn u32_at(bytes: &[u8], place: usize) -> u32 {
    u32::from_le_bytes([
        bytes[place],
        bytes[place + 1],
        bytes[place + 2],
        bytes[place + 3],
    ])
}

/// The number of the eight bytes from a place on.
///
/// Requires that they lie in `bytes`.
pub fn u64_at(bytes: &[u8], place: usize) -> u64 {
    u64::from_le_bytes([
        bytes[place],
        bytes[place + 1],
        bytes[place + 2],
        bytes[place + 3],
        bytes[place + 4],
        bytes[place + 5],
        bytes[place + 6],
        bytes[place + 7],
    ])
}
