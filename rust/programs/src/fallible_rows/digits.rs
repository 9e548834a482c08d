//! Rows, judged byte by byte.

use crate::fallible_rows::fault::RowFault;

// The number of digits that a row may have.
const MAX_DIGITS: u8 = 20;

// What the bytes of a row come to so far.
#[derive(Clone, Copy)]
pub(crate) enum Digits {
    // There are none.
    Empty,
    // So many digits, and their value.
    Number { count: u8, value: u64 },
    // No number, whatever follows.
    Refused,
}

impl Digits {
    pub(crate) fn is_empty(self) -> bool {
        matches!(self, Digits::Empty)
    }

    // The same, followed by one more byte.
    pub(crate) fn followed_by(self, byte: u8) -> Digits {
        if !byte.is_ascii_digit() {
            return Digits::Refused;
        }
        let digit = u64::from(byte - b'0');
        match self {
            Digits::Empty => Digits::Number {
                count: 1,
                value: digit,
            },
            Digits::Number { count, value } => {
                if count >= MAX_DIGITS {
                    return Digits::Refused;
                }
                match longer(value, digit) {
                    Some(value) => Digits::Number {
                        count: count + 1,
                        value,
                    },
                    None => Digits::Refused,
                }
            }
            Digits::Refused => Digits::Refused,
        }
    }

    // The row at this place: its number, or the fault.
    pub(crate) fn answer(self, place: u32) -> Result<Option<u64>, RowFault> {
        match self {
            Digits::Number { count: _, value } => Ok(Some(value)),
            Digits::Empty => Err(RowFault::Row(place)),
            Digits::Refused => Err(RowFault::Row(place)),
        }
    }
}

// A value and one more digit, within `u64`.
fn longer(value: u64, digit: u64) -> Option<u64> {
    value.checked_mul(10)?.checked_add(digit)
}

// How many digits are read without a test for an overflow: a value below 10 ^ 18 and one more digit fit `u64`.
const PLAIN_DIGITS: usize = 18;

// How many digits the row has that these bytes begin with, and its value, where a newline among the bytes ends it and it has 1 to `PLAIN_DIGITS` digits and nothing else.
pub(crate) fn number_ahead(bytes: &[u8]) -> Option<(u8, u64)> {
    let mut value = 0u64;
    for count in 0..bytes.len().min(PLAIN_DIGITS + 1) {
        let byte = bytes[count];
        if byte.is_ascii_digit() {
            value = value * 10 + u64::from(byte - b'0');
        } else if byte == b'\n' && count > 0 {
            return Some((count as u8, value));
        } else {
            return None;
        }
    }
    None
}
