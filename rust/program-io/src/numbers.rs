//! Numbers that texts write.

/// The number below 2 ^ 64 that a text writes in decimal digits, if it writes one. A plus may stand first.
pub fn number_of(text: &str) -> Option<u64> {
    text.parse::<u64>().ok()
}
