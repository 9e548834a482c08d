//! The line and the column of a byte of a text.

// Whether a byte goes on with a character of UTF-8.
fn is_within(byte: u8) -> bool {
    byte >= 128 && byte < 192
}

// How many line feeds there are.
fn lines_in(bytes: &[u8]) -> usize {
    // In a loop, which a compiler makes count many bytes at a time; `filter` and `count` took 2 instructions a byte more.
    let mut count = 0;
    for byte in bytes {
        if *byte == b'\n' {
            count += 1;
        }
    }
    count
}

// How many characters begin.
fn chars_in(bytes: &[u8]) -> usize {
    let mut count = 0;
    for byte in bytes {
        if !is_within(*byte) {
            count += 1;
        }
    }
    count
}

// Where the last line begins.
fn line_start(bytes: &[u8]) -> usize {
    let mut at = bytes.len();
    while 0 < at && bytes[at - 1] != b'\n' {
        at -= 1;
    }
    at
}

// The line and the column of what comes after bytes of which the first has these.
pub(crate) fn place_after_bytes(origin: (usize, usize), bytes: &[u8]) -> (usize, usize) {
    let lines = lines_in(bytes);
    if lines == 0 {
        return (origin.0, origin.1 + chars_in(bytes));
    }
    let start = line_start(bytes);
    (origin.0 + lines, 1 + chars_in(&bytes[start..]))
}

/// The line and the column of a byte, both from 1. A line ends after a line feed, and each character before it in its line counts one for the column. After the last byte they are those of a further one.
///
/// <details><summary>Contract</summary>
///
/// As it is proved, in [these words](crate::words):
///
/// ```text
/// ensures { result ≡ place_of text.now byte }
/// ```
/// </details>
pub fn place_of(text: &[u8], byte: usize) -> (usize, usize) {
    if byte < text.len() {
        place_after_bytes((1, 1), &text[..byte])
    } else {
        place_after_bytes((1, 1), text)
    }
}
