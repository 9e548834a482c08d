//! Counts as `count_rows` does, by a loop that reads a whole row at once.
//!
//! It reads into a buffer of 64 KiB. What comes after its last newline is moved to its front before the next read, so
//! each row is read where it stands whole.
use std::error::Error;
use std::io::{self, ErrorKind, Read};

/// How many rows are looked at.
const MAX_ROWS: usize = 1_000_000;

/// A row counts where it is above this.
const LIMIT: u64 = 100;

/// The number of digits that a row may have.
const MAX_DIGITS: usize = 20;

/// So many digits are read without a test: their value is below 10 ^ 19, which fits.
const PLAIN_DIGITS: usize = 19;

/// How many bytes are buffered.
const BUFFER: usize = 65536;

/// What bytes begin with.
enum Ahead {
    /// A row that is a number, with so many digits before its newline.
    Number { digits: usize, value: u64 },
    /// A row that may go on after the bytes.
    Cut,
    /// A row that is no number.
    Refused,
}

/// The row that `bytes` begin with.
fn row_ahead(bytes: &[u8]) -> Ahead {
    let mut value = 0u64;
    for (digits, byte) in bytes.iter().take(PLAIN_DIGITS + 1).enumerate() {
        match byte {
            b'0'..=b'9' => value = value * 10 + u64::from(byte - b'0'),
            b'\n' if digits > 0 => return Ahead::Number { digits, value },
            _ => return Ahead::Refused,
        }
    }
    long_row_ahead(bytes)
}

/// The same of bytes that begin with more digits than `PLAIN_DIGITS`, or with no newline among them.
fn long_row_ahead(bytes: &[u8]) -> Ahead {
    let mut value = 0u64;
    for (digits, byte) in bytes.iter().take(MAX_DIGITS + 1).enumerate() {
        match byte {
            b'0'..=b'9' if digits < MAX_DIGITS => match longer(value, u64::from(byte - b'0')) {
                Some(longer) => value = longer,
                None => return Ahead::Refused,
            },
            b'\n' if digits > 0 => return Ahead::Number { digits, value },
            _ => return Ahead::Refused,
        }
    }
    Ahead::Cut
}

/// A value and one more digit, where that fits.
fn longer(value: u64, digit: u64) -> Option<u64> {
    value.checked_mul(10)?.checked_add(digit)
}

/// How far rows were counted.
#[derive(Default)]
struct Count {
    rows: usize,
    above: usize,
}

impl Count {
    /// Counts the whole rows of `bytes`. How many bytes they have.
    fn count(&mut self, bytes: &[u8]) -> Result<usize, Box<dyn Error>> {
        let mut used = 0;
        while self.rows < MAX_ROWS {
            match row_ahead(&bytes[used..]) {
                Ahead::Number { digits, value } => {
                    used += digits + 1;
                    self.rows += 1;
                    self.above += usize::from(value > LIMIT);
                }
                Ahead::Cut => break,
                Ahead::Refused => return Err(format!("row {}: not a number", self.rows + 1).into()),
            }
        }
        Ok(used)
    }
}

/// How many of the first `MAX_ROWS` rows of `input` are above `LIMIT`.
fn count_above(mut input: impl Read) -> Result<usize, Box<dyn Error>> {
    let mut buffer = vec![0; BUFFER];
    let mut count = Count::default();
    let mut held = 0;
    while count.rows < MAX_ROWS {
        match input.read(&mut buffer[held..]) {
            Ok(0) if held == 0 => break,
            Ok(0) => {
                // The last row, which no newline ends.
                buffer[held] = b'\n';
                count.count(&buffer[..=held])?;
                break;
            }
            Ok(read) => {
                let filled = held + read;
                let used = count.count(&buffer[..filled])?;
                buffer.copy_within(used..filled, 0);
                held = filled - used;
            }
            Err(e) if e.kind() == ErrorKind::Interrupted => {}
            Err(e) => return Err(e.into()),
        }
    }
    Ok(count.above)
}

fn main() -> Result<(), Box<dyn Error>> {
    println!("{}", count_above(io::stdin().lock())?);
    Ok(())
}
