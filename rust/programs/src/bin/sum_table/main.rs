//! Reads a table, records of two numbers of four bytes each, the least byte first, from the file that its word names or from standard input, and prints how many records there are and the sums of their first and second numbers.
//!
//! Where that cannot be told, it says why on standard error, and ends with status 1 at a record whose first number is above its second, 2 where a read fails, the file can't be opened, or a word is none that it takes, 3 where memory runs out, 4 where the totals cannot be printed, and 5 where the table ends within a record.
#![forbid(unsafe_code)]
// The bodies stay as they are proved, where a proof may count by a loop's variable.
#![allow(
    unused_variables,
    clippy::complexity,
    clippy::manual_unwrap_or_default,
    clippy::perf,
    clippy::style
)]

mod program;

use program::program;
use program_io::arguments::{Given, input_of};
use program_io::runtime::HostRuntime;
use std::process::ExitCode;

const USAGE: &str = "usage: sum_table [FILE]
       sum_table -h | --help
Reads a table, records of two numbers of four bytes each, the least byte first,
and prints the number of records and the sum of each column.
It reads one FILE at most, and standard input where FILE is - or none is given.
A FILE whose name begins with - is given after --, or as ./-NAME.";

fn main() -> ExitCode {
    started(HostRuntime)
}

fn started(rt: HostRuntime) -> ExitCode {
    let mut output = rt.stdout();
    let mut errors = rt.stderr();
    let Given { mut input, name } = match input_of(&rt, rt.stdin(), USAGE, &mut output, &mut errors)
    {
        Ok(given) => given,
        Err(status) => return ExitCode::from(status),
    };
    match program(&mut input, &mut output, name.as_deref(), &mut errors) {
        Ok(status) | Err(status) => ExitCode::from(status),
    }
}
