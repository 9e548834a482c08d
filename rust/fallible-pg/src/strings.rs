//! Strings in bytes.

// The bytes before the first one that is a mark.
pub(crate) fn before(mark: u8, bytes: &[u8]) -> &[u8] {
    for place in 0..bytes.len() {
        if bytes[place] == mark {
            return &bytes[..place];
        }
    }
    bytes
}

// The bytes before the first 0.
pub(crate) fn before_zero(bytes: &[u8]) -> &[u8] {
    before(0, bytes)
}
