//! Counts as `count_rows` does, by a loop that keeps a row's value so far.
//!
//! It reads through std's buffer of 8 KiB, as `count_rows` does, and looks at one byte of it after another.
use std::error::Error;
use std::io::{self, BufRead};

/// How many rows are looked at.
const MAX_ROWS: usize = 1_000_000;

/// A row counts where it is above this.
const LIMIT: u64 = 100;

/// The number of digits that a row may have.
const MAX_DIGITS: usize = 20;

/// A row so far: how many digits it has, and their value.
#[derive(Clone, Copy, Default)]
struct Row {
    digits: usize,
    value: u64,
}

impl Row {
    /// The row with one byte more, where it is still a number.
    fn followed_by(self, byte: u8) -> Option<Row> {
        if !byte.is_ascii_digit() || self.digits == MAX_DIGITS {
            return None;
        }
        let digit = u64::from(byte - b'0');
        Some(Row {
            digits: self.digits + 1,
            value: self.value.checked_mul(10)?.checked_add(digit)?,
        })
    }
}

/// How many of the first `MAX_ROWS` rows of `input` are above `LIMIT`.
fn count_above(mut input: impl BufRead) -> Result<usize, Box<dyn Error>> {
    let mut above = 0;
    let mut rows = 0;
    let mut row = Row::default();
    while rows < MAX_ROWS {
        let held = input.fill_buf()?;
        if held.is_empty() {
            // The last row, where no newline ends it.
            return Ok(above + usize::from(row.value > LIMIT));
        }
        let mut used = 0;
        for byte in held {
            used += 1;
            if *byte != b'\n' {
                row = row.followed_by(*byte).ok_or_else(|| no_number(rows))?;
                continue;
            }
            if row.digits == 0 {
                return Err(no_number(rows));
            }
            above += usize::from(row.value > LIMIT);
            rows += 1;
            row = Row::default();
            if rows == MAX_ROWS {
                break;
            }
        }
        input.consume(used);
    }
    Ok(above)
}

/// The fault of the row that has so many before it.
fn no_number(rows: usize) -> Box<dyn Error> {
    format!("row {}: not a number", rows + 1).into()
}

fn main() -> Result<(), Box<dyn Error>> {
    println!("{}", count_above(io::stdin().lock())?);
    Ok(())
}
