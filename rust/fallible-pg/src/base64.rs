//! Bytes as text in base64, with padding.

use crate::sending::Unsent;
use alloc::vec::Vec;
use program_io::memory::TryVec;

// The symbol of a number below 64.
fn symbol(n: u8) -> u8 {
    if n < 26 {
        n + 65
    } else if n < 52 {
        n + 71
    } else if n < 62 {
        n - 4
    } else if n == 62 {
        b'+'
    } else {
        b'/'
    }
}

// The symbols of three bytes.
fn symbols_of(a: u8, b: u8, c: u8) -> [u8; 4] {
    [
        symbol(a / 4),
        symbol(a % 4 * 16 + b / 16),
        symbol(b % 16 * 4 + c / 64),
        symbol(c % 64),
    ]
}

// Adds the symbols of fewer than three bytes, with equals signs after them.
fn push_last(text: &mut Vec<u8>, bytes: &[u8]) -> Result<(), Unsent> {
    if bytes.is_empty() {
        return Ok(());
    }
    let a = bytes[0];
    if bytes.len() == 1 {
        text.try_extend_from_slice(&[symbol(a / 4), symbol(a % 4 * 16), b'=', b'='])?;
        return Ok(());
    }
    let b = bytes[1];
    text.try_extend_from_slice(&[
        symbol(a / 4),
        symbol(a % 4 * 16 + b / 16),
        symbol(b % 16 * 4),
        b'=',
    ])?;
    Ok(())
}

// Bytes in base64.
pub(crate) fn base64(bytes: &[u8]) -> Result<Vec<u8>, Unsent> {
    let mut text = Vec::new();
    let groups = bytes.len() / 3;
    for group in 0..groups {
        let place = 3 * group;
        let symbols = symbols_of(bytes[place], bytes[place + 1], bytes[place + 2]);
        text.try_extend_from_slice(&symbols)?;
    }
    push_last(&mut text, &bytes[3 * groups..])?;
    Ok(text)
}

// The number of a symbol; 63 of what is none.
fn number_of(symbol: u8) -> u8 {
    if 65 <= symbol && symbol < 91 {
        symbol - 65
    } else if 97 <= symbol && symbol < 123 {
        symbol - 71
    } else if 48 <= symbol && symbol < 58 {
        symbol + 4
    } else if symbol == b'+' {
        62
    } else {
        63
    }
}

// Adds the bytes that four symbols may stand for: one where two equals signs end them, two where one does.
fn push_bytes(bytes: &mut Vec<u8>, a: u8, b: u8, c: u8, d: u8) -> Result<(), Unsent> {
    let first = number_of(a) * 4 + number_of(b) / 16;
    let second = number_of(b) % 16 * 16 + number_of(c) / 4;
    let third = number_of(c) % 4 * 64 + number_of(d);
    if c == b'=' {
        bytes.try_extend_from_slice(&[first])?;
    } else if d == b'=' {
        bytes.try_extend_from_slice(&[first, second])?;
    } else {
        bytes.try_extend_from_slice(&[first, second, third])?;
    }
    Ok(())
}

// The bytes that a text may write in base64. Whether it does is for the caller to see.
fn read_loosely(text: &[u8]) -> Result<Vec<u8>, Unsent> {
    let mut bytes = Vec::new();
    for group in 0..text.len() / 4 {
        let place = 4 * group;
        push_bytes(
            &mut bytes,
            text[place],
            text[place + 1],
            text[place + 2],
            text[place + 3],
        )?;
    }
    Ok(bytes)
}

// The bytes that a text writes in base64, if it writes some.
pub(crate) fn from_base64(text: &[u8]) -> Result<Option<Vec<u8>>, Unsent> {
    let bytes = read_loosely(text)?;
    let again = base64(&bytes)?;
    if again.as_slice() == text {
        Ok(Some(bytes))
    } else {
        Ok(None)
    }
}
