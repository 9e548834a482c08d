//! Reads numbers from standard input, one a row, and prints how many are above 100.
//!
//! At a row that is no number it says which, and ends with status 1; where a read fails, with 2.
use fallible_iterator::{FallibleIterator, convert_fused};
use std::io::{BufRead, stdin};
use std::process::ExitCode;

/// Why there is no count.
#[derive(Debug, PartialEq)]
pub enum Fault {
    /// the row at this place, from 1, is not a number
    Row(usize),
    /// a read failed
    Read,
}

/// How many of the first million rows are above the limit. Nothing is read after a fault.
pub fn count_above(input: impl BufRead, limit: u64) -> Result<usize, Fault> {
    convert_fused(input.lines())
        .map_err(|_| Fault::Read)
        .enumerate()
        .take(1_000_000)
        .map(|(at, row)| row.parse::<u64>().map_err(|_| Fault::Row(at + 1)))
        .filter(|number| Ok(*number > limit))
        .count()
}

#[allow(dead_code)]
fn main() -> ExitCode {
    match count_above(stdin().lock(), 100) {
        Ok(count) => {
            println!("{count}");
            ExitCode::SUCCESS
        }
        Err(Fault::Row(at)) => {
            eprintln!("row {at}: not a number");
            ExitCode::from(1)
        }
        Err(Fault::Read) => {
            eprintln!("read failed");
            ExitCode::from(2)
        }
    }
}
